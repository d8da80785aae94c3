"""The language: every form and every mistake, and both ways of turning, over logs that are there and over thousands drawn."""

import glob
import os
import re
import unittest

from desk.console.calling import GIVES_LINES, lines_of, raw_call
from desk.console.forms import BESIDE, FORMS, GROUPS
from desk.console.mistakes import Mistake, distance, nearest
from desk.console.naming import Names
from desk.console.operands import EXPECTED, READERS, Reference
from desk.console.reading import ANSWERED, Statement, read_line, read_script
from desk.console.saying import log_said, settings_said
from desk.console.tokens import cut, quoted
from tests.console.drawing import Drawing

HOME = os.path.dirname(os.path.dirname(os.path.dirname(os.path.abspath(__file__))))
LOGS = [path for pattern in ("examples/*.log", "examples/*/*.log", "tests/vectors/replay/*.in") for path in glob.glob(os.path.join(HOME, pattern))]
LAID = "process READ priority 5 buffers 2\nprocess SPELL priority 3\n"
SCRIPTS, LOGS_DRAWN = 10000, 3000


def raws_of(data):
    """The lines of a log, and whether the last has no end."""
    raws = data.split(b"\n")
    return (raws[:-1], False) if raws[-1] == b"" else (raws, True)


def words_of(data):
    """A log in words."""
    return "".join(line + "\n" for line in log_said(*raws_of(data)))


def log_of(words):
    """The bytes of the log that some words come to, without running them."""
    statements, mistakes = read_script(words)
    if mistakes:
        raise mistakes[0]
    names, gathered = Names(), []
    for statement in statements:
        for raw in lines_of(statement, names) if statement.name in GIVES_LINES else ():
            names.take(raw)
            gathered.append(raw)
    torn = bool(statements) and statements[-1].name == "torn"
    return b"".join(raw + b"\n" for raw in gathered)[:-1 if torn else None]


def digits(*parts):
    """A line of 26 digits."""
    return raw_call(*parts)


class FormsTest(unittest.TestCase):
    def test_every_call(self):
        self.assertEqual(LAID and log_of(LAID).split(), [digits(0, 5, 2, (0x5245, 0x4144, 0, 0)), digits(0, 3, 0, (0x5350, 0x454C, 0x4C00, 0))])
        page = (0x7061, 0x6765, 0x2037, 0)
        for said, line in (
                ('send SPELL "page 7"', digits(1, 2, 0, page)), ("send SPELL 7061 6765 2037 0000", digits(1, 2, 0, page)),
                ("send 99", digits(1, 99)), ("Send spell 8000", digits(1, 2, 0, (0x8000, 0, 0, 0))), ("send 2 ffff", digits(1, 2, 0, (0xFFFF, 0, 0, 0))),
                ("wait answer 1", digits(2, 1)), ("wait event", digits(3)), ("WAIT Event 10", digits(3, 10)),
                ('answer 1 "ok"', digits(4, 1, 0, (0x6F6B, 0, 0, 0))), ("answer 7", digits(4, 7)),
                ("wait interrupt 3", digits(5, 3)), ("wait interrupt 64 9", digits(5, 64, 9)), ("interrupt 3", digits(10, 3)),
                ("start READ", digits(6, 1)), ("stop SPELL", digits(7, 2)), ("clean 1", digits(8, 1)), ("tick", digits(9)),
                ("tick 3", b"\n".join([digits(9)] * 3)), ("list read", digits(11, 1)), ("lower 1", digits(12, 1)), ("raise 65535", digits(13, 65535)),
                ("call 2A", digits(42)), ("call 0c 0001 0002", digits(12, 1, 2)), ("call FF 0001 0002 0003 0004 0005 0006", digits(255, 1, 2, (3, 4, 5, 6))),
                ('line "06 0001"', b"06 0001"), (r'line "\x0D\"\\"', b'\r"\\'), ("> FF", b"> FF"), ("READ: send SPELL", digits(1, 2)),
                ('start "READ"', digits(6, 1)), ('"READ": wait event', digits(3)), (' \tstart READ # "remark', digits(6, 1)), ("start READ\r", digits(6, 1))):
            with self.subTest(said=said):
                self.assertEqual(log_of(LAID + said), log_of(LAID) + line + b"\n")

    def test_what_gives_no_line(self):
        for said in ("", "# all of it", "edition 1", "semaphore 0", "torn", *BESIDE - {"stuck", "save", "load"},
                     "stuck READ", "save 'x'", 'load "a b"', "help send"):
            self.assertEqual(log_of(said), b"", said)
        self.assertEqual(read_line("edition 1"), Statement("edition", None, (1,)))
        self.assertEqual(read_line('save "a b.log"').values, (b"a b.log",))
        self.assertEqual(read_line("READ: lower 2"), Statement("lower", Reference(b"READ", None, 1), (2,)))

    def test_every_form_is_read_and_each_operand_has_a_reader(self):
        stand_ins = {"NAME": "X", "PROCESS": "1", "MESSAGE": '"m"', "CALL": "0E", "PARTS": "0001", "TEXT": '"t"', "FILE": "f", "WORD": "tick"}
        self.assertEqual(set(READERS), set(EXPECTED))
        for form in FORMS.values():
            for end in form.ends:
                said = " ".join(part if part.islower() else stand_ins.get(part, "1") for part in form.parts[:end])
                self.assertEqual(read_line(said).name, form.name, said)
        self.assertEqual(set(FORMS), GIVES_LINES - {ANSWERED} | BESIDE | {"edition", "semaphore", "torn"})

    def test_names(self):
        both = "process Read priority 1\nprocess READ priority 1\nprocess 'x priority 1\n"
        for said, number in (("start Read", 1), ("start READ", 2), ("start 'X", 3), ("start 2", 2)):
            self.assertEqual(log_of(both + said).split()[-1], digits(6, number))
        self.assertEqual(words_of(log_of(both + "start 1")).split("\n")[3], "start Read")
        self.assertIn("\nstart 1\n", words_of(log_of('process "7" priority 1\nstart 1')))
        self.assertIn("\nstart 2\n", words_of(log_of("process X priority 1\nprocess X priority 1\nstart 2")))
        self.assertEqual(words_of(log_of('process "" priority 0 buffers 65535')), 'process "" priority 0 buffers 65535\n')
        self.assertEqual(log_of('process "\u00dc" priority 1'), digits(0, 1, 0, (0xC39C, 0, 0, 0)) + b"\n")
        too_late = log_of(LAID + "start READ\nprocess PRINT priority 1")
        self.assertTrue(words_of(too_late).endswith("start READ\nprocess PRINT priority 1 buffers 0\n"))


class MistakesTest(unittest.TestCase):
    MISTAKES = (  # a line behind the layout, the column, and what is said
        ("sned SPELL", 1, "expected the first word of a form ('help' names them all), and found 'sned'; the nearest word is send."),
        ("zebra", 1, "expected the first word of a form ('help' names them all), and found 'zebra'."),
        ('"send" 1', 1, "expected the first word of a form ('help' names them all), and found '\"send\"'."),
        ("send", 5, "expected a process, by name or number, and found the end of the line."),
        ("send   # nobody", 5, "expected a process, by name or number, and found the end of the line."),
        ("send SPEL", 6, "there is no process 'SPEL'; the nearest name is SPELL."),
        ("start PRINT", 7, "there is no process 'PRINT'; there are READ, SPELL."),
        ("READ: send :", 12, "expected a process, by name or number, and found ':'."),
        ('send SPELL "123456789"', 12, "a message has eight bytes, and this text has 9."),
        ("send SPELL ok", 12, "expected a text in quotes of at most eight bytes, or one to four words of four hexadecimal digits, and found 'ok'."),
        ("send SPELL 0001 2", 17, "expected a text in quotes of at most eight bytes, or one to four words of four hexadecimal digits, and found '2'."),
        ("send SPELL 0001 0002 0003 0004 0005", 32, "expected the end of the line, and found '0005'."),
        ('send SPELL "a" "b"', 16, "expected the end of the line, and found '\"b\"'."),
        ('send SPELL "a', 12, "the text that begins here has no quote at its end."),
        (r'send SPELL "a\q"', 14, r"behind \ in a text stands a quote, another \, or x and two hexadecimal digits."),
        (r'send SPELL "a\x1"', 14, r"behind \ in a text stands a quote, another \, or x and two hexadecimal digits."),
        ("wait", 5, "expected answer, event or interrupt, and found the end of the line."),
        ("wait evnt", 6, "expected answer, event or interrupt, and found 'evnt'; the nearest word is event."),
        ("wait answer", 12, "expected a buffer's number, and found the end of the line."),
        ("wait answer one", 13, "expected a buffer's number, and found 'one'."),
        ("wait event ten", 12, "expected a number of ticks, and found 'ten'."),
        ("wait interrupt -1", 16, "expected a device's number, 0 to 63, and found '-1'."),
        ("interrupt 65536", 11, "expected a device's number, 0 to 63, and a number is from 0 to 65535 here."),
        ("answer READ", 8, "expected a buffer's number, and found 'READ'."),
        ("tick 0", 6, "expected a number of ticks, and a number is from 1 to 65535 here."),
        ("tick \u0663", 6, "expected a number of ticks, and found '\u0663'."),
        ("lower", 6, "expected a semaphore's number, and found the end of the line."),
        ("process", 8, "expected a name of one to five letters, and found the end of the line."),
        ("process 12 priority 1", 9, 'a name that is a number would be taken for one; write it in quotes, as "12".'),
        ("process PRINTER priority 1", 9, "expected a name of one to five letters, and this one has 7; a line of the log has room for six."),
        ("process PRINT", 14, "expected 'priority', and found the end of the line."),
        ("process PRINT prority 1", 15, "expected 'priority', and found 'prority'; the nearest word is priority."),
        ("process PRINT priority high", 24, "expected a priority, 1 to 255, and found 'high'."),
        ("process PRINT priority 1 bufers 2", 26, "expected 'buffers', and found 'bufers'; the nearest word is buffers."),
        ("process PRINT priority 1 buffers", 33, "expected how many buffers it owns, and found the end of the line."),
        ("edition", 8, "expected an edition, 0 or 1, and found the end of the line."),
        ("semaphore x", 11, "expected a counter, 0 to 32767, and found 'x'."),
        ("call 2", 6, "expected a call of two hexadecimal digits, and found '2'."),
        ("call 2A 1", 9, "expected one to six words of four hexadecimal digits: a, b and four words, and found '1'."),
        ("line 06", 6, "expected a text in quotes, and found '06'."),
        (r'line "a\x0Ab"', 6, r"a line can't have a line end, \x0A, inside."),
        (">FF", 1, "expected the first word of a form ('help' names them all), and found '>FF'."),
        ("READ: tick", 7, "'tick' comes from outside, so no process calls it; leave the name and the colon out."),
        ("READ:", 6, "expected a call of who runs, and found the end of the line."),
        ("READ: sned SPELL", 7, "expected a call of who runs, and found 'sned'; the nearest word is send."),
        (": send 1", 1, "expected the first word of a form ('help' names them all), and found ':'."),
        ("save", 5, "expected the name of a file, and found the end of the line."),
        ('save ""', 6, "a file's name has a letter at least, and no zero byte."),
        ("save a b", 8, "expected the end of the line, and found 'b'."),
        ('help "send"', 6, "expected a word of this language, and found '\"send\"'."),
        ("quit now", 6, "expected the end of the line, and found 'now'."),
    )

    def test_every_mistake(self):
        for said, column, sentence in self.MISTAKES:
            with self.subTest(said=said):
                with self.assertRaises(Mistake) as caught:
                    log_of(LAID + said)
                self.assertEqual((caught.exception.column, caught.exception.sentence), (column, sentence))

    def test_every_operand_has_been_mistaken(self):
        told = " ".join(sentence for _, _, sentence in self.MISTAKES)
        self.assertEqual([operand for operand, words in EXPECTED.items() if words not in told], [])

    def test_places_and_several(self):
        _, mistakes = read_script("tick\nsned 1\n\nwait\n")
        self.assertEqual([mistake.told().split(":")[0] for mistake in mistakes], ["line 2, column 1", "line 4, column 5"])

    def test_names_that_several_bear(self):
        for head, said in (("process X priority 1\nprocess X priority 1\n", "start X"), ("process Ab priority 1\nprocess aB priority 1\n", "start AB")):
            with self.assertRaisesRegex(Mistake, "processes 1 and 2 are both called so; say which by its number."):
                log_of(head + said)
        with self.assertRaisesRegex(Mistake, "there is no process 'READ'; none is laid out yet."):
            log_of("start READ")

    def test_nearness(self):
        self.assertEqual([distance(*two) for two in (("", "abc"), ("send", "sned"), ("spell", "spel"), ("kitten", "sitting"), ("a", "a"))], [3, 1, 1, 3, 0])
        self.assertEqual((nearest("clear", ["clean", "list"]), nearest("xyz", ["clean"]), nearest("a" * 99, ["clean"]), nearest("a", [])),
                         ("clean", None, None, None))


class ThereAndBackTest(unittest.TestCase):
    def same(self, data):
        """A log is the same bytes after it was in words, line for line."""
        words = words_of(data)
        self.assertEqual(log_of(words), data)
        self.assertTrue(words.isascii())
        raws, torn = raws_of(data)
        self.assertEqual(words.count("\n"), len(raws) + torn)

    def test_every_log_that_is_there(self):
        self.assertGreater(len(LOGS), 15)
        for path in LOGS:
            with self.subTest(log=path), open(path, "rb") as file:
                self.same(file.read())

    def test_odd_logs(self):
        every_byte = bytes(byte for byte in range(256) if byte != 10)
        for data in (b"", b"\n", b"\n\n", b"06", every_byte, b"> \n", b"> " + every_byte + b"\n", b">\n", b"06000100000000000000000000\r\n",
                     b"00000100014100000000000001\n", b"0c0001\n", b"0C000100010000000000000000\n", b"\xef\xbb\xbf06\n"):
            with self.subTest(data=data):
                self.same(data)

    def test_scripts_drawn_at_random(self):
        lines = 0
        for seed in range(SCRIPTS):
            script = Drawing(seed).script()
            data = log_of(script)
            words = words_of(data)
            lines += data.count(b"\n")
            self.assertEqual(log_of(words), data, (seed, script))
            self.assertEqual(words_of(log_of(words)), words, seed)
        self.assertGreater(lines, 5 * SCRIPTS)

    def test_logs_drawn_at_random(self):
        for seed in range(1, LOGS_DRAWN + 1):
            self.same(Drawing(-seed).log())

    def test_texts(self):
        for seed in range(1000):
            data = Drawing(seed).bytes_of_line()
            self.assertEqual([token.said for token in cut(f"{quoted(data)} # {quoted(data)}")], [data])

    def test_what_a_log_has_no_line_for(self):
        self.assertEqual(settings_said(0, ()), [])
        said = settings_said(1, (1, 0))
        self.assertEqual(said, ["edition 1", "semaphore 1", "semaphore 0"])
        self.assertEqual([read_line(line).values for line in said], [(1,), (1,), (0,)])


class PageTest(unittest.TestCase):
    def setUp(self):
        with open(os.path.join(HOME, "docs", "CONSOLE.md"), encoding="utf-8") as file:
            self.page = file.read()

    def test_the_page_has_every_form_and_operand(self):
        for group, forms in GROUPS.items():
            self.assertIn(group, self.page.lower())
            for pattern, _ in forms:
                self.assertIn(f"| `{pattern}` |", self.page)
        for operand in EXPECTED:
            self.assertRegex(self.page, rf"(?m)^ +{operand} +=")

    def test_the_scripts_of_the_page_are_read(self):
        scripts = re.findall(r"```words\n(.*?)```", self.page, re.DOTALL)
        self.assertGreater(len(scripts), 2)
        for script in scripts:
            log_of(script)


if __name__ == "__main__":
    unittest.main()
