"""Tells which conditional jumps of the proved archive go one way only. bench/one-way is its starter.

one_way.py [--tools PREFIX] ARCHIVE FACTS PROGRAM PROFILE [PROGRAM PROFILE ..]
one_way.py [--tools PREFIX] --range ARCHIVE PROGRAM

Each PROGRAM is linked with the ARCHIVE, and its PROFILE says what a run of it executed. It is what callgrind wrote: instructions by
their addresses, jumps collected, nothing compressed. Or it is a table of blocks, of an emulator's trace: after a line of just 'blocks'
the addresses at which two blocks of instructions began, one right after the other, and how often. A jump is known by its function and
its place in it, so that several programs can be added up. FACTS has a line for each jump that goes one way only: function, which of
its conditional jumps, the way, and why there is no other. PREFIX stands before the names of nm and objdump. With --range, prints the
first and the last address of the archive's functions in the program.
"""

import argparse
import re
import subprocess
import sys
import textwrap
from collections import Counter, namedtuple

Jump = namedtuple("Jump", "function ordinal offset name before target behind")
Fact = namedtuple("Fact", "way words")
CONDITIONAL = re.compile(r"j(?!mp)[a-z]+$")
ENDS_BLOCK = re.compile(r"(j[a-z]+|call|ret)[a-z]?$")
TESTS = re.compile(r"(cmp|test|add|sub|adc|sbb|and|or|xor|inc|dec|neg|shl|shr|sar|bt|imul)[bwlq]?$")  # they set what a jump goes by
PAGE = 4096  # bytes; no block of instructions goes beyond its page
SHOWN = 6  # so many instructions before a jump are shown, for who writes its fact
BOTH, TAKEN, PASSED, UNREACHED = "both", "taken", "passed", "unreached"
TOLD = {TAKEN: "always taken", PASSED: "never taken", UNREACHED: "never reached"}


class Broken(Exception):
    """What was read can't be so."""


def output_of(*command):
    return subprocess.run(command, check=True, capture_output=True, text=True).stdout


def functions_of(archive, tools):
    """The names of the archive's functions."""
    symbols = (line.split() for line in output_of(tools + "nm", "--defined-only", archive).splitlines())
    return {words[2] for words in symbols if len(words) == 3 and words[1] in "tT"}


def code_of(program, functions, tools):
    """The instructions of those functions in a program, (address, text) each, by function."""
    code, name = {}, None
    for line in output_of(tools + "objdump", "-d", "--no-show-raw-insn", program).splitlines():
        head = re.match(r"[0-9a-f]+ <(.+)>:$", line)
        if head:
            name = head[1] if head[1] in functions else None
            if name in code:
                raise Broken(f"{program} has two functions of the name {name}")
            if name:
                code[name] = []
        elif name and ":\t" in line:
            address, text = line.split(":\t")
            code[name].append((int(address, 16), " ".join(text.split())))
    if set(code) != functions:
        raise Broken(f"{program} lacks {', '.join(sorted(functions - set(code)))}")
    return code


def jumps_of(code):
    """The conditional jumps of that code, by address."""
    found = {}
    for function, lines in code.items():
        ordinal = 0
        for place, (address, text) in enumerate(lines):
            words = text.split()
            if CONDITIONAL.match(words[0]):
                ordinal += 1
                before = [earlier for _, earlier in lines[:place]]
                behind = lines[place + 1][0] if place + 1 < len(lines) else None
                found[address] = Jump(function, ordinal, address - lines[0][0], words[0], before, int(words[1], 16), behind)
    return found


def range_of(code):
    """The first and the last address of that code."""
    places = [address for lines in code.values() for address, _ in lines]
    return min(places), max(places)


def counts_of(profile, code):
    """How often each instruction was executed, and how often it led to another place than the next one, by address."""
    with open(profile) as lines:
        if lines.readline() == "blocks\n":
            return counts_of_blocks(lines, code)
    return counts_of_calls(profile)


def counts_of_blocks(lines, code):
    """The same by which block followed which. A block goes up to its first jump, call or return, or to the end of its page."""
    executed, left, after = Counter(), Counter(), {}
    for instructions in code.values():
        for (address, text), (behind, _) in zip(instructions, instructions[1:] + [(None, None)]):
            after[address] = text.split()[0], behind
    for line in lines:
        began, following, times = (int(word, base) for word, base in zip(line.split(), (16, 16, 10)))
        place = began
        while place in after:
            executed[place] += times
            name, behind = after[place]
            if ENDS_BLOCK.match(name):
                left[place] += times if following != behind else 0
                break
            if following == behind and not on_page(began, after.get(behind, (None, None))[1]):
                break
            place = behind
    return executed, left


def on_page(began, end):
    """What ends there lies in the page of the block that began there."""
    return end is not None and (end - 1) // PAGE == began // PAGE


def counts_of_calls(profile):
    """The same by what callgrind wrote.

    A jump or call has two lines: its count and its target, then its source. A conditional jump into another function is a call."""
    executed, left, leaving = Counter(), Counter(), None
    with open(profile) as lines:
        for line in lines:
            if line.startswith("0x"):
                words = line.split()
                if leaving is None:
                    executed[int(words[0], 16)] += int(words[2])
                else:
                    left[int(words[0], 16)] += leaving
                leaving = None
            elif line.startswith(("calls=", "jcnd=")):
                leaving = int(re.match(r"[a-z]+=(\d+)", line)[1])
            elif line.startswith("jump="):
                leaving = 0
            elif line.startswith(("positions:", "events:")) and line.split()[1:] not in (["instr", "line"], ["Ir"]):
                raise Broken(f"{profile} is laid out otherwise: {line.strip()}")
    return executed, left


def check(jump, times, taken, executed):
    """A count that the instructions around a jump contradict is a mistake of the reading."""
    passed = times - taken
    if passed < 0 or executed[jump.behind] < passed or executed[jump.target] < taken:
        raise Broken(f"the counts around {jump.function}+{jump.offset:#x} can't be: {times} times, {taken} taken")


def add_up(programs, functions, tools):
    """Each jump of the archive, with how often it was executed and how often taken in all programs together."""
    executions, takings, jumps = Counter(), Counter(), {}
    for program, profile in programs:
        code = code_of(program, functions, tools)
        executed, left = counts_of(profile, code)
        for address, jump in jumps_of(code).items():
            check(jump, executed[address], left[address], executed)
            key = jump.function, jump.ordinal
            jumps[key] = jump
            executions[key] += executed[address]
            takings[key] += left[address]
    return {key: (jump, executions[key], takings[key]) for key, jump in sorted(jumps.items())}


def way(times, taken):
    if times == 0:
        return UNREACHED
    return BOTH if 0 < taken < times else TAKEN if taken else PASSED


def read_facts(path):
    """The facts by function and jump; a line that begins with '#' is a remark."""
    facts = {}
    with open(path, encoding="utf-8") as lines:
        for number, line in enumerate(lines, 1):
            if not line.strip() or line.startswith("#"):
                continue
            words = line.split(None, 3)
            if len(words) < 4 or not words[1].isdigit() or words[2] not in TOLD:
                raise Broken(f"{path}: line {number} is not FUNCTION JUMP WAY FACT")
            key = words[0], int(words[1])
            if key in facts:
                raise Broken(f"{path}: line {number} is the second for jump {key[1]} of {key[0]}")
            facts[key] = Fact(words[2], words[3].strip())
    return facts


def test_of(jump):
    """The instruction that a jump goes by, as far as it can be told: the last test before it."""
    tests = [text for text in jump.before if TESTS.match(text.split()[0])]
    return tests[-1] if tests else "?"


def tell_jump(jump, times, taken, fact):
    here = way(times, taken)
    often = f" in {times:,}" if times else ""
    print(f"{jump.function}+{jump.offset:#x}, jump {jump.ordinal}, {test_of(jump)}; {jump.name}: {TOLD[here]}{often}")
    if fact and fact.way == here:
        print(textwrap.fill(fact.words, 116, initial_indent="    ", subsequent_indent="    "))
    else:
        print(f"    no fact written: {jump.function} {jump.ordinal} {here} ..")
        print("\n".join(f"        {text}" for text in jump.before[-SHOWN:]))


def stale_facts(facts, counted):
    """The facts that tell what the run didn't show, each in a sentence."""
    for key, fact in sorted(facts.items()):
        name = f"jump {key[1]} of {key[0]}"
        if key not in counted:
            yield f"There is no {name}, of which a fact is written."
        elif way(*counted[key][1:]) == BOTH:
            yield f"The fact of {name} is stale: it goes both ways."
        elif way(*counted[key][1:]) != fact.way:
            yield f"The fact of {name} is stale: it says {TOLD[fact.way]}, and it is {TOLD[way(*counted[key][1:])]}."


def tell(counted, facts):
    """Prints the counts and each jump that doesn't go both ways; gives whether the facts are complete and none is stale."""
    ways = Counter(way(times, taken) for _, times, taken in counted.values())
    print(f"{len(counted)} conditional jumps: {ways[BOTH]} go both ways, {ways[TAKEN] + ways[PASSED]} one way only, "
          f"{ways[UNREACHED]} were never reached.")
    for jump, times, taken in counted.values():
        if way(times, taken) != BOTH:
            tell_jump(jump, times, taken, facts.get((jump.function, jump.ordinal)))
    missing = sum(key not in facts and way(*counts) != BOTH for key, (_, *counts) in counted.items())
    stale = list(stale_facts(facts, counted))
    print("\n".join([*stale, f"{missing} without a fact, {len(stale)} stale."]))
    return missing == 0 and not stale


def main():
    words = argparse.ArgumentParser(prog="one_way.py", description="Tells which conditional jumps of an archive go one way only.")
    words.add_argument("--tools", default="", help="stands before the names of nm and objdump")
    words.add_argument("--range", action="store_true", help="print where the archive's functions stand in the program")
    words.add_argument("archive")
    words.add_argument("files", nargs="+", help="facts and then programs, each with its profile; or a program")
    asked = words.parse_args()
    try:
        functions = functions_of(asked.archive, asked.tools)
        if asked.range:
            print("%#x..%#x" % range_of(code_of(asked.files[0], functions, asked.tools)))
            return 0
        facts, *programs = asked.files
        counted = add_up(zip(programs[::2], programs[1::2]), functions, asked.tools)
        return 0 if tell(counted, read_facts(facts)) else 1
    except (Broken, OSError, subprocess.CalledProcessError) as wrong:
        print(f"bench/one-way: {wrong}.", file=sys.stderr)
        return 2


if __name__ == "__main__":
    sys.exit(main())
