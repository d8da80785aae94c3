"""Small functions in the words of the kit's MIR, for tests of the translator: a builder of terms, and the C that comes of them."""
import re
import subprocess
from pathlib import Path
from types import SimpleNamespace

from portable.headers import Prototype
from portable.libraries import Library
from portable.library import File
from portable.printed import Modules
from portable.sources import Told
from portable.term import read_program
from portable.text import file_text

# The last makes every variable that is declared without a value a wrong one, each time its declaration is passed.
FLAGS = ("-std=c99", "-O1", "-Wall", "-Wextra", "-Wconversion", "-Werror", "-ftrivial-auto-var-init=pattern")
LONGEST = 4  # seconds that the small functions may take: a wrong translator's may come to no end
WORD, INDEX, BOOL, UNIT, POINTER = "(Syntax.ty_int Syntax.w16)", "(Syntax.ty_int Syntax.w64)", "Syntax.ty_bool", "Syntax.ty_unit", "Syntax.ty_ptr"
RETURN, SKIP, NONE = "Syntax.return", "Syntax.skip", "Syntax.opd_unit"

# A function's modules, as the kit prints them: its code, the name that its code goes by, and the symbol behind that name.
MODULES = """module Rattle.cases.proofs.{name}.Code:
pub mod Mir
use Rattle.cases.proofs.{name}.Code.Mir as Mir'
use Rattle.cases.specs.contracts.{name}.Key
use mathlib.Core.List
use mir.Syntax
use prog.Wired

abbrev pub function : Syntax.Fn
function = Mir'.function

unfoldable pub code : Wired.Code
code =
    Wired.node (List.◌∷◌ (Key.symbol, function) List.[]) List.[] Wired.end

{calls}module Rattle.cases.proofs.{name}.Code.Mir:
{uses}use mathlib.Core.List
use mir.MapTy
use mir.Syntax
use mir.Table

abbrev pub table : Table.Table
table =
    {table}

abbrev pub locals : List.List Syntax.Local
locals =
    {locals}

abbrev pub by_name : Syntax.Fn
by_name = record {{
  lifetimes = 1;
  outlives = List.[];
  ty_params = {takes};
  givens = {givens};
  params = {parameters};
  locals = locals;
  body = {body};
}}

abbrev pub function : Syntax.Fn
function = MapTy.spell_fn table by_name

module Rattle.cases.proofs.{name}.Symbol:
pub use Rattle.cases.proofs.{name}.Code.{{code}}
pub use Rattle.cases.specs.contracts.{name}.Key.{{symbol, name}}

module Rattle.cases.specs.contracts.{name}.Key:
use mir.Syntax

abbrev pub symbol : Syntax.Symbol
symbol = "cases::{name}"

abbrev pub name : {named}
name = {called} symbol

"""


def listed(items, cons="List.◌∷◌", nil="List.[]"):
    text = nil
    for item in reversed(items):
        text = f"({cons} {item} {text})"
    return text


def types(given):
    return listed(given, "Syntax.tcons", "Syntax.tnil")


def symbol(name):
    return listed([str(byte) for byte in name.encode()])


def declared(name, *given):
    """A declared type, given these types."""
    return f"(Syntax.ty_named ({symbol(name)}, List.[]) {types(given)})"


def with_fields(name, *fields, takes=0):
    """The entry in a table of a structure, given so many types."""
    return f"({symbol(name)}, {listed(['Syntax.a_type'] * takes)}, Table.fields {types(fields)})"


def with_variants(name, *variants, takes=0):
    """The entry of an enum, each of its variants a list of types."""
    lists = listed([types(fields) for fields in variants], "Syntax.ttcons", "Syntax.ttnil")
    return f"({symbol(name)}, {listed(['Syntax.a_type'] * takes)}, Table.variants {lists})"


SLICE = (f"(Syntax.ty_struct {listed(['38', '91', '93'])} (Syntax.tcons (Syntax.ty_ref (Syntax.named 0) Syntax.mut {WORD}) "
         f"(Syntax.tcons {INDEX} Syntax.tnil)))")
PARAMETERS = [SLICE, WORD, WORD]  # of every function here: words t, and two words a and b
FIRST_TYPE, SECOND_TYPE = "(Syntax.ty_param 0)", "(Syntax.ty_param 1)"
PAIR, QUEUE, HELD, MIXED = map(declared, ("cases::Pair", "cases::Queue", "cases::Held", "cases::Mixed"))
OPTION, RESULT = "core::option::Option", "core::result::Result"
# Functions of the kit's library, by what they are called here: the modules of their symbols.
CORE = "std.below.core.proofs."
KIT = {name: CORE + place for name, place in (
    ("branch", "result.ResultTry.branch"), ("back", "result.ResultFromResidualErrResidual.from_residual"), ("larger", "int.u16.max"),
    ("full-sum", "int.u16.saturating_add"), ("difference", "int.u16.saturating_sub"), ("smaller", "int.usize.min"),
    ("index-difference", "int.usize.saturating_sub"), ("power", "int.u16.pow"))}
TABLE = listed([with_fields("cases::Held", WORD, QUEUE, PAIR), with_fields("cases::Pair", WORD, WORD), with_fields("cases::Kept", SLICE, WORD),
                with_fields("cases::Row", f"(Syntax.ty_array {WORD} 3)", WORD),
                with_fields("cases::Mixed", "(Syntax.ty_int Syntax.w8)", WORD, "(Syntax.ty_int Syntax.w8)"),
                with_variants("cases::Queue", [], [WORD], [WORD, WORD], [BOOL]), with_variants(OPTION, [], [FIRST_TYPE], takes=1),
                with_variants(RESULT, [FIRST_TYPE], [SECOND_TYPE], takes=2)])


def place(local, *steps):
    return f"(Syntax.place {local} {listed(steps)})"


def copy(local, *steps):
    return f"(Syntax.copy {place(local, *steps)})"


def number(width, amount):
    return f"(Syntax.int Syntax.w{width} {amount})"


def word(amount):
    return number(16, amount)


def deref(kind):
    return f"(Syntax.deref {kind})"


DEREF, AT, COUNT = deref(WORD), "(Syntax.field 0)", "(Syntax.field 1)"


def variant(k, j):
    """The steps to a variant's field; the tag is the field 0 of each."""
    return f"(Syntax.variant {k})", f"(Syntax.field {j})"


def setting(local, value, *steps):
    return f"(Syntax.assign {place(local, *steps)} {value})"


def use(operand):
    return f"(Syntax.rv_opd {operand})"


def operation(name, sign=None):
    return f"Syntax.{name}" if sign is None else f"(Syntax.{name} Syntax.{sign})"


def two(name, left, right):
    """An operation, its sign behind its name, on two operands."""
    return f"(Syntax.op2 {operation(*name.split())} {left} {right})"


def made(*parts):
    """A structure of these parts, or an enum of a tag and these."""
    return f"(Syntax.aggregate {listed(parts)})"


def address(local, *steps):
    return f"(Syntax.addr_of {place(local, *steps)})"


def element(local, amount):
    """The pointer local is set to that element of the words."""
    return setting(local, two("offset", copy(1, AT), number(64, 2 * amount)))


def call(name, local, *given, of=None):
    """A call that gives a local its result: with those operands, or with the function's own parameters; `of`: the types and impls that a
    generic function is given."""
    callee = f"Symbol-{name}.name" if of is None else f"(Symbol-{name}.name ({types(of[0])}, {listed(of[1], 'Syntax.dcons', 'Syntax.dnil')}))"
    return f"(Syntax.call {callee} {listed(given or [copy(1), copy(2), copy(3)])} {place(local)})"


def parts(*constants):
    """A constant of these."""
    return f"(Syntax.c_parts {listed(constants, 'Syntax.ccons', 'Syntax.cnil')})"


def lent(local, kind, constant):
    return f"(Syntax.lend_static {place(local)} {kind} {constant})"


def impl(*methods, of="cases"):
    """An impl of these functions."""
    names = [f'"{of}::{name}"' for name in methods]
    return f"(Syntax.impl {listed(names)} Syntax.tnil Syntax.dnil)"


def method(number, local, *given):
    """A call of a method of the first impl that a generic function takes."""
    return f"(Syntax.call (Syntax.method (Syntax.given 0) {number} (Syntax.tnil, Syntax.dnil)) {listed(given)} {place(local)})"


def choice(local, first, second=SKIP):
    return f"(Syntax.cond {copy(local)} {first} {second})"


def switch(operand, *arms, default=None):
    """A switch; each arm has its numbers and its statement."""
    text = "Syntax.no_default" if default is None else f"(Syntax.default {default})"
    for keys, body in reversed(arms):
        text = f"(Syntax.arm {listed([str(key) for key in keys])} {body} {text})"
    return f"(Syntax.switch {operand} {text})"


def block(*statements):
    return f"(Syntax.block {sequence(*statements)})"


def loop(*statements):
    """A loop, and the block that its exits by 1 leave."""
    return f"(Syntax.block (Syntax.loop {sequence(*statements)}))"


def exit_by(levels):
    return f"(Syntax.exit {levels})"


def sequence(*statements):
    *first, last = statements
    for statement in reversed(first):
        last = f"(Syntax.seq {statement} {last})"
    return last


def function(name, result, locals_, *statements, parameters=None, slots=(), takes=None):
    """A function with its result's type, its locals' behind the parameters, and its statements; `slots` are its locals in memory, and `takes` are
    the kinds of what a generic one takes, and how many impls."""
    parameters = PARAMETERS if parameters is None else parameters
    homes = ["memory_slot" if i in slots else "value_local" for i in range(1 + len(parameters) + len(locals_))]
    kinds = listed([f"(Syntax.local {kind} Syntax.{home})" for kind, home in zip([result, *parameters, *locals_], homes)])
    body = sequence(*statements)
    called = sorted(set(re.findall(r"Symbol-([\w-]+)", body)))
    uses = "".join(f"use Rattle.{KIT.get(one, 'cases.proofs.' + one)}.Symbol as Symbol-{one}\n" for one in called)
    calls = "".join(f"pub calls-core::{KIT[one].removeprefix(CORE).replace('.', '::')} : Wired.Code\n\n" for one in called if one in KIT)
    generic, (kinds_taken, impls) = takes is not None, takes or ((), 0)
    return MODULES.format(name=name, uses=uses, calls=calls, table=TABLE, parameters=len(parameters), locals=kinds, body=body, givens=impls,
                          takes=listed([f"Syntax.{kind}" for kind in kinds_taken]), called="Syntax.fn" if generic else "Syntax.fn₀",
                          named="Syntax.Args → Syntax.Callee" if generic else "Syntax.Callee")


def translated(functions, entries):
    """The C of functions, of which those named are entries."""
    parameters = [("uint16_t *", "t"), ("size_t", "count"), ("uint16_t", "a"), ("uint16_t", "b")]
    told = {f"cases::{name}": Told("", True, ["t", "a", "b"], [], []) for name in entries}
    sources = SimpleNamespace(functions=told, structures={}, enums={}, entries=lambda _: list(told), rank=lambda _: 0)
    prototypes = {name: Prototype("cases.h", "uint16_t", parameters) for name in entries}
    headers = SimpleNamespace(prototypes=prototypes, structures={}, prototype=prototypes.__getitem__)
    library = Library("cases", ["cases"], None, "small functions", apart=("cases::apart",))
    return file_text(File(library, [read_program(Modules(functions).functions("cases"))], sources, headers))


def run(text, folder, checks):
    """Compiles the C with a program that prints what each check, a text in C, gives; gives the printed lines."""
    prints = "".join(f'    printf("%u\\n", (unsigned)({check}));\n' for check in checks)
    place = Path(folder, "cases.c")
    place.write_text(f"#include <stdio.h>\n{text}\nint main(void)\n{{\n    uint16_t t[8];\n{prints}    return 0;\n}}\n", encoding="utf-8")
    subprocess.run(["cc", *FLAGS, "-o", f"{folder}/cases", str(place)], check=True)
    said = subprocess.run([f"{folder}/cases"], capture_output=True, text=True, check=True, timeout=LONGEST).stdout
    return [int(line) for line in said.split()]
