"""python3 -B -m tests.portable.wrong MIR: wrong translators, made from the right one by one edit each, must each be noticed: by the
translator itself, which refuses; by the compiler's warnings; by another digest (parcel/source/digest.h) than the right one's; or by the
small functions of tests/portable/test_*.py.

MIR has what portable/make left of the kit's MIR. Exits with 0 if each is noticed, else 1.
"""
import os
import shutil
import subprocess
import sys
import tempfile
from concurrent.futures import ThreadPoolExecutor
from pathlib import Path

HOME = Path(__file__).resolve().parents[2]
LIBRARIES = ("monitor", "why", "screen", "compare", "tape", "delays")
ROUNDS, LONGEST = "20000", 60
FLAGS = ("-std=c99", "-O1", "-Wall", "-Wextra", "-Wconversion", "-pedantic", "-Werror", f"-I{HOME}/include", f"-I{HOME}/parcel/source")

# What is wrong, the file, its right text and the wrong one, and the libraries that show it; none where small functions do.
WRONG = [
    ("less is less or equal", "values.py", "'lt': ('<', '>=', LESS)", "'lt': ('<=', '>', LESS)", "monitor"),
    ("less or equal is less", "values.py", "'le': ('<=', '>', LESS)", "'le': ('<', '>=', LESS)", "monitor"),
    ("a turned comparison keeps its sign", "values.py", "left, right, sign, other = right, left, TURNED[sign], TURNED[other]",
     "left, right = right, left", "monitor"),
    ("a signed comparison is an unsigned one", "arithmetic.py", "            if signed:\n", "            if False:\n", "monitor"),
    ("a cast doesn't cut", "arithmetic.py", "if of[1] == width:", "if of[1] >= width:", "monitor"),
    ("a number's offset is not scaled", "arithmetic.py", "amount.literal // size", "amount.literal", "monitor"),
    ("an offset is not scaled", "arithmetic.py", "values.moved(pointer, amount.scaled[0])", "values.moved(pointer, amount)", "monitor"),
    ("a difference the other way round", "arithmetic.py", "text = '%s %s %s' % (left.at(level), sign, right.at(level + 1))",
     "text = '%s %s %s' % (right.at(level + 1), sign, left.at(level + 1))", "monitor"),
    ("brackets left out", "values.py", "return self.text if self.level >= level else '(%s)' % self.text", "return self.text", "monitor"),
    ("'and' is 'or'", "values.py", "('&&', AND) if name == 'and'", "('||', OR) if name == 'and'", "monitor"),
    ("'not' left out", "values.py", "return value.opposite or made('!' + value.at(UNARY), UNARY, value)", "return value", "monitor"),
    ("a large number loses its top bit", "values.py", "'%du' % amount if", "'%du' % (amount & 0x7FFF) if", "monitor delays"),
    ("the last two arguments swapped", "body.py", "callee.wanted([text for part in parts for",
     "callee.wanted([text for part in parts[:-2] + parts[:-3:-1] for", "delays"),
    ("the branches of an if swapped", "control.py", "first, second = statement.parts[1:]", "second, first = statement.parts[1:]", "monitor"),
    ("a loop is gone through once", "control.py", "'while (%s)' % test.text", "'if (%s)' % test.text", "monitor"),
    ("an exit one level off", "exits.py", "around[-1 - statement.parts[0]]", "around[-statement.parts[0]]", "monitor"),
    ("an array filled with ones", "body.py", "amount, text = value.made[2], value.made[1].text", "amount, text = value.made[2], '1'", "monitor"),
    ("a list of numbers cut short", "body.py", "elements[i:i + 16]) for i", "elements[i:i + 15]) for i", "tape"),
    ("a structure's values in another order", "operands.py", "in zip(fields, parts)", "in zip(fields, parts[::-1])", "delays"),
    ("the field before", "operands.py", "text, of = self.types.field(kind, what)", "text, of = self.types.field(kind, max(what - 1, 0))", "monitor"),
    ("the first argument is not counted as read", "liveness.py", "found, through = parts[1],", "found, through = parts[1][1:],", "monitor"),
    ("what a loop wants of its last round is forgotten", "liveness.py", "if found <= wanted:", "if True:", "monitor"),
    ("a count one short", "entries.py", "'MONITOR_COUNT(%s)' % count", "'MONITOR_COUNT(%s - 1)' % count", "monitor"),
    ("a report is not handed back", "entries.py", "self.after += ['%s->%s = %s_words[%d];'", "self.before += ['(void)%s->%s; (void)%s_words[%d];'", "monitor"),
    ("memory is written before it is read", "held.py", "if effect == values.CALLS or writes:", "if effect == values.CALLS:", ""),
    ("a call is made before memory is read", "held.py", "if effect == values.CALLS or writes:", "if writes:", ""),
    ("a call is left out where the other side is false", "values.py", "if right.effect == CALLS else (left, right)",
     "if left.effect == CALLS else (left, right)", ""),
    ("a loop's exit goes on", "control.py", "[Line('break;')]", "[Line('continue;')]", ""),
    ("a variable that a loop carries is declared inside it", "layout.py",
     "return None if node.loop and getattr(first, 'sets', None) != name else bodies[0]",
     "return bodies[0]", ""),
    ("a pointer moved twice forgets the first", "values.py", "total = index if pointer.index is None else", "total = index if True else", ""),
    ("the arms of a switch exchanged", "control.py", "for keys, body in statement.parts[1] if not never(body)]",
     "for (keys, _), (_, body) in zip(statement.parts[1], statement.parts[1][::-1]) if not never(body)]", ""),
    ("a variant's field is another variant's", "operands.py", "self.types.variant_field(kind, *what)\n",
     "self.types.variant_field(kind, *((1, 1) if what == (2, 1) else what))\n", ""),
    ("a declared type has the first of its types everywhere", "declared.py", "return given[kind[1]]", "return given[0]", ""),
    ("an enum's tag takes no byte", "declared.py", "at = 1 if self.variants(kind) is not None else 0", "at = 0", ""),
    ("an enum's size is not rounded", "declared.py", "return end + -end % places, places", "return end, places", ""),
    ("fields lie without a gap", "declared.py", "at + -at % place + size", "at + size", ""),
    ("an exit out of one block too many", "exits.py", "around[-1 - statement.parts[0]]", "around[max(-2 - statement.parts[0], -len(around))]", ""),
    ("a round that is cut short ends the loop", "straight.py", "'continue;' if node.target is loop[0] else 'break;'", "'break;'", ""),
    ("an exit out of two loops leaves one", "straight.py", "if node.target in loop:", "if node.target in loop or loop[0] is not None:", ""),
    ("what stands behind an exit is left out", "straight.py", "branches.append((None, rest))", "branches[0][1].extend(rest)", ""),
    ("a test inside another one stands for both", "straight.py", "values.lazily('and', test, within.branches[0][0])", "within.branches[0][0]", ""),
    ("the right side is looked at first", "values.py", "for side in (left, right)]", "for side in (right, left)]", ""),
    ("a number wraps beyond its width", "arithmetic.py", "made = values.made('(%s)(%s)' % (kind, text), values.UNARY, left, right)",
     "made = values.made('(unsigned)(%s)' % text, values.UNARY, left, right)", ""),
    ("a number of 64 bits wraps where an index does", "arithmetic.py", "if operation in WRAPPING and kind == 'monitor_index':", "if False:", ""),
    ("what is lent is read too late", "operands.py", "values.READS if local in self.lent else values.PURE", "values.PURE", ""),
    ("a part is set before what waits is read from it", "body.py", "if local in self.held.changed:", "if False:", ""),
    ("a copy of which a part is set is what it was copied from", "held.py", "*self.operands.lent, *self.changed}", "*self.operands.lent}", ""),
    ("a constant's parts in another order", "constants.py", "for part in constant[1]]", "for part in constant[1][::-1]]", ""),
    ("two constants are one", "constants.py", "(kind, text), 'constant%d'", "kind[0], 'constant%d'", ""),
    ("a generic function is the same for all types", "instances.py", "(repr((types, impls)) if types or impls else '')",
     "(repr(len(types)) if types or impls else '')", ""),
    ("an impl's first method is every one", "instances.py", "listed(methods)[int(number)]", "listed(methods)[0]", ""),
    ("a refusal that is given back is an answer", "kit.py", "[('int', 8, 1), self.moved", "[('int', 8, 0), self.moved", ""),
    ("a refusal is given back as whatever it becomes", "kit.py", "if impls != [SAME] or", "if", ""),
    ("what the library says of a Result goes on as it is", "kit.py", "if not steps or", "if steps and", ""),
    ("the larger number is the smaller one", "text.py", "a < b ? b : a;", "a < b ? a : b;", ""),
    ("a sum beyond the end wraps", "text.py", "    if (a > most) {\n        return 65535u;\n    }\n", "    (void)most;\n", ""),
    ("a difference below 0 wraps", "text.py", "    if (b > a) {\n        return 0;\n    }\n", "", ""),
    ("a structure in memory is handed over where it stands", "values.py", "or value.effect == PURE and re", "or re", ""),
    ("a structure that its function sets is handed over by a pointer", "signature.py", "if i not in own and", "if", ""),
    ("variants whose fields differ have one member", "declared.py", "return same if len({of[i][j] for i in same}) == 1 else [k]", "return same", ""),
    ("the other branch is never come to", "control.py", "second if never(first) else first", "first if never(first) else second", ""),
    ("an array is made of what it overwrites", "held.py", "if self.fills(statement, value) or", "if", ""),
    ("a call is made behind what reads beside it", "held.py", "value.effect == values.CALLS and self.looks(statement, local)", "False", ""),
    ("of a structure's pieces the arrays are left out", "body.py", "            if isinstance(part, Array):\n", "            if False:\n", ""),
    ("a slice that is kept has its old count", "body.py", "zip(target.parts(), value.parts())]", "zip(target.parts()[:1], value.parts())]", ""),
    ("the sign bit is the wrong one", "text.py", "(a ^ 0x8000u) < (b ^ 0x8000u)", "(a ^ 0x4000u) < (b ^ 0x4000u)", "monitor"),
    ("a negative number is one more", "text.py", "(int32_t)(bits - INT32_MAX - 1) + INT32_MIN", "(int32_t)(bits - INT32_MAX) + INT32_MIN", "tape"),
]


def run(*words):
    return subprocess.run(list(map(str, words)), capture_output=True, text=True, check=False, timeout=LONGEST)


def prepared(work):
    """The right libraries and the digest as objects, and the digest they come to."""
    work.mkdir(parents=True, exist_ok=True)
    objects = {}
    for place in [*(HOME / "source" / f"{name}.c" for name in LIBRARIES), HOME / "parcel/source/digest.c", HOME / "tests/portable/digest_host.c"]:
        objects[place.stem] = work / f"{place.stem}.o"
        run("cc", *FLAGS[:2], *FLAGS[-2:], "-c", "-o", objects[place.stem], place).check_returncode()
    run("cc", "-o", work / "right", *objects.values()).check_returncode()
    return objects, run(work / "right", ROUNDS).stdout


def edited(place, name, old, new):
    """A copy of the translator with one edit."""
    shutil.rmtree(place, ignore_errors=True)
    shutil.copytree(HOME / "portable", place / "portable", ignore=shutil.ignore_patterns("__pycache__"))
    for folder in ("crates", "include", "crates.txt"):
        os.symlink(HOME / folder, place / folder)
    text = (place / "portable" / name).read_text(encoding="utf-8")
    if text.count(old) != 1:
        sys.exit(f"wrong: {name} has the text of an edit {text.count(old)} times: {old}")
    (place / "portable" / name).write_text(text.replace(old, new), encoding="utf-8")


def noticed(mir, work, objects, digest, case):
    """How a wrong translator is noticed, or None."""
    number, (_, name, old, new, libraries) = case
    place, libraries = work / str(number), libraries.split()
    edited(place, name, old, new)
    if not libraries:
        return by_small_functions(place)
    made = run(sys.executable, "-B", place / "portable", mir, place / "out", *libraries)
    if made.returncode != 0:
        return "refused by the translator" if "is not made" in made.stderr else "the translator breaks off"
    if all((place / "out" / f"{one}.c").read_bytes() == (HOME / "source" / f"{one}.c").read_bytes() for one in libraries):
        return None
    parts = {**objects, **{one: place / f"{one}.o" for one in libraries}}
    for one in libraries:
        if run("cc", *FLAGS, "-c", "-o", parts[one], place / "out" / f"{one}.c").returncode != 0:
            return "by the compiler"
    run("cc", "-o", place / "program", *parts.values()).check_returncode()
    try:
        return "by the digest" if run(place / "program", ROUNDS).stdout != digest else None
    except subprocess.TimeoutExpired:
        return "it comes to no end"


def by_small_functions(place):
    """Whether the small functions notice the translator of that folder."""
    tried = ["test", "-q", "tests.portable.test_translator", "tests.portable.test_forms", "tests.portable.test_kit",
             "tests.portable.test_handing"]
    program = f"import sys, unittest; sys.path[:0] = [{str(place)!r}]; unittest.main(None, argv={tried!r})"
    try:
        ended = subprocess.run([sys.executable, "-B", "-c", program], capture_output=True, text=True, check=False, timeout=LONGEST, cwd=HOME)
    except subprocess.TimeoutExpired:
        return "it comes to no end"
    return "by small functions" if ended.returncode != 0 and ("FAIL" in ended.stderr or "CalledProcessError" in ended.stderr) else None


def main(mir):
    with tempfile.TemporaryDirectory() as folder, ThreadPoolExecutor(2) as pool:  # outside: in the repository the kit wants one crates.txt
        objects, digest = prepared(Path(folder))
        found = list(pool.map(lambda case: noticed(mir, Path(folder), objects, digest, case), enumerate(WRONG)))
    for (what, *_), how in zip(WRONG, found):
        if how is None:
            print(f"wrong: not noticed: {what}")
    counts = ", ".join(f"{found.count(how)} {how}" for how in sorted(set(filter(None, found))))
    print(f"{len(WRONG) - found.count(None)} of {len(WRONG)} wrong translators are noticed: {counts}.")
    return 1 if None in found else 0


if __name__ == "__main__":
    sys.exit(main(Path(sys.argv[1]).resolve()))
