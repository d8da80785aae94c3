"""What the translator keeps in order, on small functions where it matters; and what it refuses, by name."""
import tempfile
import unittest

from portable.term import Unknown
from tests.portable.terms import (AT, BOOL, COUNT, DEREF, INDEX, NONE, POINTER, RETURN, SKIP, SLICE, UNIT, WORD, call, choice, copy, element,
                                  exit_by, function, listed, loop, number, run, sequence, setting, translated, two, use, word)

PUT = function("put", UNIT, [POINTER], element(4, 0), setting(4, use(copy(2)), DEREF), setting(0, use(NONE)), RETURN)
NEXT = function("next", WORD, [POINTER, WORD], element(4, 0), setting(5, two("add unsigned", copy(4, DEREF), word(1))),
                setting(4, use(copy(5)), DEREF), setting(0, use(copy(5))), RETURN)
FIRST = (element(4, 0), setting(5, use(copy(4, DEREF))))


def test(local):
    return choice(local, SKIP, exit_by(1))


class OrderTest(unittest.TestCase):
    """A value that is read once may stand where it is read, unless something comes between."""

    def gives(self, wanted, check, *body, more=(), locals_=(POINTER, WORD, WORD, WORD, BOOL, BOOL)):
        made = function("tried", WORD, locals_, *body)
        with tempfile.TemporaryDirectory() as folder:
            self.assertEqual(run(translated([*more, made], ["tried"]), folder, [check]), [wanted])

    def test_memory_that_is_written(self):
        self.gives(7 * 16 + 9, "t[0] = 7, t[1] = tried(t, 8, 9, 0), t[1] * 16 + t[0]", *FIRST,
                   setting(4, use(copy(2)), DEREF), setting(0, use(copy(5))), RETURN)

    def test_a_call_that_writes(self):
        self.gives(7, "t[0] = 7, tried(t, 8, 9, 0)", *FIRST, call("put", 10), setting(0, use(copy(5))), RETURN, more=[PUT],
                   locals_=(POINTER, WORD, WORD, WORD, BOOL, BOOL, UNIT))

    def test_a_variable_that_is_set(self):
        self.gives(2 + 3 + 2 * 103, "tried(t, 8, 2, 3)", setting(5, two("add unsigned", copy(2), copy(3))),
                   setting(2, two("add unsigned", copy(3), word(100))), setting(6, two("add unsigned", copy(2), copy(2))),
                   setting(0, two("add unsigned", copy(5), copy(6))), RETURN)

    def test_a_parameter_that_is_set_in_a_branch(self):
        for a, wanted in ((1, 8), (2, 2)):
            self.gives(wanted, f"tried(t, 8, {a}, 3)", setting(8, two("eq", copy(2), word(1))), choice(8, setting(2, use(word(8)))),
                       setting(0, use(copy(2))), RETURN)

    def test_a_value_that_is_wanted_later(self):
        self.gives(2 * (2 + 3) + 3, "tried(t, 8, 2, 3)", setting(5, two("add unsigned", copy(2), copy(3))),
                   setting(6, two("add unsigned", copy(5), copy(3))), setting(0, two("add unsigned", copy(5), copy(6))), RETURN)

    def test_two_calls_in_their_order(self):
        self.gives(65535, "t[0] = 0, tried(t, 8, 0, 0)", call("next", 5), call("next", 6),
                   setting(0, two("sub unsigned", copy(5), copy(6))), RETURN, more=[NEXT])

    def test_a_call_behind_something_false(self):
        self.gives(1, "t[0] = 0, tried(t, 8, 0, 0), t[0]", setting(8, two("eq", copy(2), word(1))), call("next", 5),
                   setting(9, two("eq", copy(5), word(99))), setting(8, two("bit_and", copy(8), copy(9))),
                   choice(8, setting(0, use(word(1))), setting(0, use(word(2)))), RETURN, more=[NEXT])

    def test_a_variable_that_a_loop_carries(self):
        for first in (use(word(7)), two("add unsigned", copy(3), word(4))):
            self.gives(7 * 4, "tried(t, 8, 5, 3)", setting(5, use(word(0))), setting(6, use(word(0))),
                       loop(setting(8, two("lt unsigned", copy(6), copy(2))), test(8), setting(9, two("eq", copy(6), word(0))),
                            choice(9, setting(7, first), setting(5, two("add unsigned", copy(5), copy(7)))),
                            setting(6, two("add unsigned", copy(6), word(1)))),
                       setting(0, use(copy(5))), RETURN)

    def test_a_loop_whose_test_is_read_again(self):
        self.gives(4 + 3 + 2 + 1, "t[0] = 4, tried(t, 8, 0, 0)", setting(6, use(word(0))), element(4, 0),
                   loop(setting(5, use(copy(4, DEREF))), setting(8, two("ne", copy(5), word(0))), test(8),
                        setting(6, two("add unsigned", copy(6), copy(5))), setting(7, two("sub unsigned", copy(5), word(1))),
                        setting(4, use(copy(7)), DEREF)),
                   setting(0, use(copy(6))), RETURN)

    def test_a_part_of_a_part(self):
        self.gives(44, "t[3] = 44, tried(t, 8, 0, 0)", setting(4, two("offset", copy(1, AT), number(64, 4))),
                   setting(6, f"(Syntax.aggregate {listed([copy(4), copy(1, COUNT)])})"),
                   setting(5, two("offset", copy(6, AT), number(64, 2))), setting(0, use(copy(5, DEREF))), RETURN,
                   locals_=(POINTER, POINTER, SLICE))

    def test_numbers(self):
        for operation, a, b, wanted in (("mul unsigned", 65535, 65535, 1), ("sub signed", 3, 5, 65534), ("add signed", 65535, 2, 1)):
            self.gives(wanted, f"tried(t, 8, {a}, {b})", setting(0, two(operation, copy(2), copy(3))), RETURN)
        for a, b, wanted in ((65535, 0, 1), (0, 65535, 0), (32768, 32767, 1), (5, 5, 0)):
            self.gives(wanted, f"tried(t, 8, {a}, {b})", setting(8, two("lt signed", copy(2), copy(3))),
                       setting(0, f"(Syntax.op1 (Syntax.cast Syntax.unsigned Syntax.unsigned Syntax.w16) {copy(8)})"), RETURN)


class RefusalTest(unittest.TestCase):
    def refused(self, sentence, *body, locals_=(POINTER, WORD, WORD, WORD, BOOL, INDEX)):
        with self.assertRaisesRegex(Unknown, sentence):
            translated([function("tried", WORD, locals_, *body, RETURN)], ["tried"])

    def test_what_it_does_not_know(self):
        self.refused("a statement 'call_v'", "(Syntax.call_v Syntax.opd_unit Syntax.sig List.[] (Syntax.place 5 List.[]))")
        self.refused("an operation 'shl'", setting(5, two("shl", copy(2), copy(3))))
        self.refused("a signed operation 'div'", setting(5, two("div signed", copy(2), copy(3))))
        self.refused("a type 'ty_float'", setting(5, use(word(1))), locals_=("(Syntax.ty_float Syntax.binary32)",))
        self.refused("a number of so many bits 'w128'", setting(5, use(word(1))), locals_=(POINTER, "(Syntax.ty_int Syntax.w128)"))
        self.refused("the number 65536 in 16 bits", setting(5, use(word(65536))))
        self.refused("not so many elements", setting(4, two("offset", copy(1, AT), number(64, 3))), setting(0, use(copy(4, DEREF))))
        self.refused("not so many elements", setting(4, two("offset", copy(1, AT), copy(9))), setting(0, use(copy(4, DEREF))))
        self.refused("another type", element(4, 0), setting(0, use(copy(4, "(Syntax.deref (Syntax.ty_int Syntax.w8))"))))
        self.refused("no function 'Rattle.cases.proofs.other.Symbol'", call("other", 5))
        self.refused("leads to no block's end", loop(setting(8, two("eq", copy(2), word(1))), choice(8, SKIP, exit_by(2)), SKIP))
        self.refused("a value 'select'", setting(5, f"(Syntax.select {copy(2)} {copy(2)} {copy(3)})"))
        self.refused("a step 'variant'", setting(5, use(copy(2, "(Syntax.variant 1)"))))


if __name__ == "__main__":
    unittest.main()
