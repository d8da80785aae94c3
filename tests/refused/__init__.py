"""What holds the wrong programs to be refused, each by itself; tests/run-refused runs it.

programs  the wrong programs, what each file of them says of its refusals, and what the prover said
trying    each edit on a copy of its crate, and what the kit's check says there
"""
