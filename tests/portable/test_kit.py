"""What is said in C for the functions of the kit's library that the crates call: numbers that stay at their ends, and `?`."""
import tempfile
import unittest

from portable.term import Unknown
from tests.portable.terms import (BOOL, COUNT, INDEX, RESULT, RETURN, UNIT, WORD, call, choice, copy, declared, function, impl, made, number, run, sequence,
                                  setting, switch, translated, two, use, variant, word)

REFUSED, FLOW = "core::result::ErrResidual", "core::ops::ControlFlow"
SAME, OTHER = impl("AnyFrom::from", of="core::convert"), impl("other")


class KitTest(unittest.TestCase):
    def gives(self, wanted, checks, *body, locals_=(), more=()):
        tried = function("tried", WORD, locals_, *body, RETURN)
        with tempfile.TemporaryDirectory() as folder:
            self.assertEqual(run(translated([*more, tried], ["tried"]), folder, checks), wanted)

    def test_numbers_stay_at_their_ends(self):
        cases = {"larger": {(5, 3): 5, (3, 5): 5, (7, 7): 7, (0, 65535): 65535}, "full-sum": {(1, 2): 3, (65535, 0): 65535, (65535, 1): 65535,
                 (40000, 25535): 65535, (40000, 25534): 65534, (40000, 40000): 65535}, "difference": {(5, 3): 2, (3, 5): 0, (0, 65535): 0, (65535, 1): 65534}}
        for name, said in cases.items():
            self.gives(list(said.values()), [f"tried(t, 8, {a}, {b})" for a, b in said], call(name, 0, copy(2), copy(3)))

    def test_indices_stay_at_their_ends(self):
        for name, said in {"smaller": {7: 7, 8: 8, 9: 8}, "index-difference": {7: 0, 8: 0, 9: 1}}.items():
            self.gives(list(said.values()), [f"tried(t, {count}, 0, 0)" for count in said], *(
                [call(name, 4, copy(1, COUNT), number(64, 8))]), setting(0, "(Syntax.op1 (Syntax.cast Syntax.unsigned Syntax.unsigned Syntax.w16) "
                                                                         f"{copy(4)})"), locals_=[INDEX])

    def asked(self, wanted, impls=(SAME,), of=WORD, behind=(), more_locals=()):
        """What comes of a? where a is below 5, of the refusal b from there on."""
        checked, out, told = declared(RESULT, of, WORD), declared(RESULT, BOOL, WORD), declared(REFUSED, WORD)
        going = [setting(7, use(copy(5, *variant(0, 1))))] if of == WORD else [setting(7, use(word(4)))]
        self.gives(wanted, ["tried(t, 8, 4, 77)", "tried(t, 8, 5, 77)"], setting(6, two("lt unsigned", copy(2), word(5))),
                   choice(6, setting(4, made(number(8, 0), copy(2) if of == WORD else "Syntax.opd_unit")), setting(4, made(number(8, 1), copy(3)))),
                   call("branch", 5, copy(4), of=([of, WORD], [])), *behind,
                   switch(copy(5, *variant(0, 0)), ([0], sequence(*going)), ([1], sequence(
                       setting(8, use(copy(5, *variant(1, 1)))), call("back", 9, copy(8), of=([BOOL, WORD, WORD], list(impls))),
                       setting(0, use(copy(9, *variant(1, 1)))), RETURN))), setting(0, two("add unsigned", copy(7), word(100))),
                   locals_=[checked, declared(FLOW, told, of), BOOL, WORD, told, out, *more_locals], more=[function("other", WORD, [], RETURN)])

    def test_a_refusal_is_given_back(self):
        self.asked([104, 77])
        self.asked([104, 77], of=UNIT)

    def test_what_was_asked_stays(self):
        self.asked([104, 77], behind=[setting(4, made(number(8, 1), word(9)))])

    def test_what_it_does_not_know(self):
        with self.assertRaisesRegex(Unknown, "another refusal back"):
            self.asked([], impls=[OTHER])
        with self.assertRaisesRegex(Unknown, "hands on what the kit's library says"):
            self.asked([], behind=[setting(10, use(copy(5)))], more_locals=[declared(FLOW, declared(REFUSED, WORD), WORD)])
        with self.assertRaisesRegex(Unknown, "no function 'core::int::u16::pow'"):
            self.gives([], [], call("power", 0, copy(2), copy(3)))


if __name__ == "__main__":
    unittest.main()
