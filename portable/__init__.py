"""The translator: C99 from the MIR of the proved crates, for every processor that has a C compiler. portable/make makes source/ anew.

printed     the modules that the kit prints of a crate, read into terms
term        the terms of the crates' functions, read into functions and their statements
kit         the functions of the kit's library, by their names
sources     what the crates' own text says of a function, for a person who reads the C
bindings    the names that a function's body binds, in the MIR's order
headers     the prototypes and structures in include/elvomike/
declared    what the MIR says of declared types, structures and enums, and what they are called in C
constants   constants that are lent
types       the C types of numbers, pointers and structures
signature   what a function is called in C, its parameters and its locals
values      C expressions: their text, how tightly it binds, what it reads
operands    places and operands of the MIR as C expressions
arithmetic  what the MIR's operations are in C
instances   generic functions, and what a call gives them
exits       which block or loop each exit leads to
liveness    which locals are still wanted after each statement
held        values that may stand where they are read
body        a function's statements as lines of C
control     those of them that have others inside: tests, loops, and what leaves them
straight    exits as C says them
layout      statements inside one another, declarations, indents
doors       the few functions of a program that are C by hand: how it reads and writes
entries     the entries of a library, over the functions translated
library     one file of C: the functions that its entries reach
libraries   the files in source/: a line for each
text        what stands in a file besides its functions
vectors     the vectors of the conformance run, for boards

Whatever they don't know they refuse by name.
"""
