"""The page docs/RATES.md as bench/rates writes it: its tables, and one page that was printed wrong, told by ./explain."""

import os
import re
import subprocess

from tests.station.plain import built_in_words, printed

PAGE = os.path.join("docs", "RATES.md")
PROGRAM = ("desk/station/station.c", "desk/station/keeping.c", "desk/tape/input.c")
EXAMPLE = "freed"  # the slip that the printed page shows
PAGES, CLEANS = 300, 60
SHORT, WIDTH = (6, 14), 56  # lines of a printed page that is shown, and its columns
OUTFIT = ["--edition", "1", "--semaphores", "1,1"]
SEND, WAIT_EVENT, ANSWER, SPELLER = "01", "03", 2, 2


def figure(number):
    """A number with two places behind its point, and where it is large with none."""
    if number == 0:
        return "0"
    return f"{number:,.0f}" if number >= 100 else f"{number:.1f}" if number >= 10 else f"{number:.2f}"


def table(head, rows):
    """A table of Markdown, its figures on the right."""
    lines = [head, ["---", *("---:" for _ in head[1:])], *rows]
    return "\n".join("| " + " | ".join(map(str, line)) + " |" for line in lines)


def fenced(lines):
    return "```text\n" + "\n".join(line.rstrip() for line in lines) + "\n```"


def calls_of(log):
    """Each accepted call of a log with its answer: line, call, a, words, kind, buffer, words."""
    with open(log, encoding="ascii") as file:
        lines = file.read().split("\n")
    words = lambda digits: tuple(digits[at:at + 4] for at in range(0, len(digits), 4))
    for number, (call, answer) in enumerate(zip(lines, lines[1:]), 1):
        if answer.startswith("> 00") and not call.startswith(">"):
            kind, buffer = (int(answer[at:at + 4], 16) for at in (4, 8))
            yield number, call[:2], int(call[2:6], 16), words(call[10:]), kind, buffer, words(answer[16:])


def wrong_answer(log):
    """The first answer that names another line than was asked about in its buffer: the buffer, and from which line of the log to which it
    went: from the question that it belongs to."""
    asked, before = {}, {}
    for line, call, a, sent, kind, buffer, got in calls_of(log):
        if call == SEND and a == SPELLER:
            before[buffer], asked[buffer] = asked.get(buffer), (line, sent[1])
        elif call == WAIT_EVENT and kind == ANSWER and buffer in asked and got[0] != "8000" and got[1] != asked[buffer][1]:
            return buffer, before[buffer][0], line
    return None


def pages_of(text):
    return [page.split("\n") for page in re.split(r"\n\n(?=PAGE|\Z)", text) if page]


def with_marks(page):
    """Each line of a printed page with the marks under it, which may be none."""
    pairs = []
    for line in page:
        if line and not line.strip("^ "):
            pairs[-1][1] = line
        else:
            pairs.append([line, ""])
    return pairs


def beside(came, right):
    """A page as it was printed, and as it should have been."""
    yield f"{'as it was printed':<{WIDTH}}as it should have been"
    for (line, marks), (same, due) in zip(with_marks(came), with_marks(right)):
        yield f"{line:<{WIDTH}}{same}"
        if marks or due:
            yield f"{marks:<{WIDTH}}{due}"


def example(build, out):
    """A page that was printed wrong, beside what it should be, and what ./explain tells of its buffer."""
    program, log = build(EXAMPLE, around=PROGRAM), os.path.join(out, "log")
    with open(f"{out}/text", "rb") as file:
        right = pages_of(printed(file.read(), built_in_words(), PAGES).decode())
    for seed in range(1, 100):
        words = [program, "--pages", str(PAGES), "--cleans", str(CLEANS), "--seed", str(seed), "--log", log, f"{out}/text"]
        came = pages_of(subprocess.run(words, capture_output=True, text=True, check=True).stdout)
        wrong, found = [n for n in range(PAGES) if came[n] != right[n]], wrong_answer(log)
        if wrong and found and SHORT[0] <= len(right[wrong[0]]) <= SHORT[1]:
            break
    buffer, first, last = found
    words = ["./explain", "--answers", *OUTFIT, "--buffer", str(buffer), "--lines", f"{first}-{last + 1}", log]
    told = subprocess.run(words, capture_output=True, text=True, check=False).stdout.split("\nSummary\n")[0].rstrip("\n").split("\n")
    return {"pages": fenced(beside(came[wrong[0]], right[wrong[0]])), "told": fenced(told)}


def write(made):
    """Puts what was made between its marks."""
    with open(PAGE, encoding="utf-8") as file:
        page = file.read()
    for name, text in made.items():
        begin = page.index(f"<!-- {name} -->\n") + len(f"<!-- {name} -->\n")
        page = page[:begin] + text + "\n" + page[page.index("<!-- end -->", begin):]
    with open(PAGE, "w", encoding="utf-8") as file:
        file.write(page)


def has_rows(made):
    """Whether the page has every row of these tables, word for word."""
    with open(PAGE, encoding="utf-8") as file:
        page = file.read().split("\n")
    missing = [row for name in ("rates", "damage") for row in made[name].split("\n")[2:] if row not in page]
    for row in missing:
        print(f"rates: {PAGE} hasn't this row, which was measured: {row}")
    return not missing
