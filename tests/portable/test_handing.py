"""How structures are handed over: a large one by a pointer to what nobody changes meanwhile, and one of which a part is set as a copy."""
import tempfile
import unittest

from tests.portable.terms import (BOOL, DEREF, HELD, PAIR, POINTER, QUEUE, RESULT, RETURN, WORD, address, call, choice, copy, declared, deref, element,
                                  function, made, number, run, setting, switch, translated, two, use, variant, word)

FIRST, PAIR_OF, LAST = "(Syntax.field 0)", "(Syntax.field 2)", "(Syntax.field 1)"
LENT = f"(Syntax.ty_ref (Syntax.named 0) Syntax.mut {HELD})"
TAKES = [HELD, WORD]  # a structure of 12 bytes, and a word
ADDED = setting(0, two("add unsigned", copy(1, FIRST), copy(2)))
QUEUE_OF_3 = made(number(8, 1), word(3))


def held(first):
    """A structure of that first word, a queue, and a pair."""
    return [setting(5, QUEUE_OF_3), setting(6, made(word(20), word(30))), setting(4, made(first, copy(5), copy(6)))]


class HandingTest(unittest.TestCase):
    def gives(self, wanted, checks, functions, *body, locals_=(), slots=()):
        tried = function("tried", WORD, [HELD, QUEUE, PAIR, *locals_], *body, RETURN, slots=slots)
        with tempfile.TemporaryDirectory() as folder:
            made_of = translated([*functions, tried], ["tried"])
            self.assertEqual(run(made_of, folder, checks), wanted)
            return made_of

    def test_by_a_pointer(self):
        inner = function("inner", WORD, [], ADDED, RETURN, parameters=TAKES)
        outer = function("outer", WORD, [WORD], call("inner", 3, copy(1), copy(2)), setting(0, two("add unsigned", copy(3), copy(1, PAIR_OF, LAST))), RETURN,
                         parameters=TAKES)
        text = self.gives([5 + 6 + 30], ["tried(t, 8, 5, 6)"], [inner, outer], *held(copy(2)), call("outer", 0, copy(4), copy(3)))
        self.assertIn("cases_inner(const struct cases_held *held1, uint16_t word2)", text)

    def test_a_part_that_is_set_is_set_in_a_copy(self):
        setter = function("setter", WORD, [], setting(1, use(word(9)), FIRST), ADDED, RETURN, parameters=TAKES)
        self.gives([9 + 6 + 5], ["tried(t, 8, 5, 6)"], [setter], *held(copy(2)), call("setter", 7, copy(4), copy(3)),
                   setting(0, two("add unsigned", copy(7), copy(4, FIRST))), locals_=[WORD])

    def test_what_is_lent_too_is_handed_over_as_a_copy(self):
        both = function("both", WORD, [], setting(2, use(word(50)), deref(HELD), FIRST), setting(0, use(copy(1, FIRST))), RETURN, parameters=[HELD, LENT])
        self.gives([5], ["tried(t, 8, 5, 6)"], [both], *held(copy(2)), setting(7, address(4)), call("both", 0, copy(4), copy(7)), locals_=[LENT], slots=[4])
        through = function("through", WORD, [], call("both", 0, copy(1, deref(HELD)), copy(1)), RETURN, parameters=[LENT])
        self.gives([5], ["tried(t, 8, 5, 6)"], [both, through], *held(copy(2)), setting(7, address(4)), call("through", 0, copy(7)), locals_=[LENT], slots=[4])

    def test_what_a_call_gives_is_handed_over(self):
        giver = function("giver", HELD, [QUEUE, PAIR], setting(2, QUEUE_OF_3), setting(3, made(word(1), word(2))),
                         setting(0, made(copy(1), copy(2), copy(3))), RETURN, parameters=[WORD])
        inner = function("inner", WORD, [], ADDED, RETURN, parameters=TAKES)
        self.gives([11, 12], ["tried(t, 8, 5, 6)", "tried(t, 8, 6, 6)"], [giver, inner], call("giver", 4, copy(2)), call("inner", 0, copy(4), copy(3)))

    def test_what_nobody_reads_is_called_all_the_same(self):
        clear = function("clear", WORD, [POINTER], element(4, 0), setting(4, use(word(7)), DEREF), setting(0, use(word(9))), RETURN)
        first = function("first", WORD, [], setting(0, use(copy(1))), RETURN, parameters=[WORD, WORD])
        text = self.gives([6, 7], ["tried(t, 8, 5, 6)", "t[0]"], [clear, first], call("clear", 7), call("first", 0, copy(3), copy(7)), locals_=[WORD])
        self.assertNotIn("word7", text)

    def test_variants_of_one_type_have_one_member(self):
        either = declared(RESULT, WORD, WORD)
        text = self.gives([105, 23], ["tried(t, 8, 5, 6)", "tried(t, 8, 3, 6)"], [], setting(8, two("eq", copy(2), word(5))),
                          choice(8, setting(7, made(number(8, 0), copy(2))), setting(7, made(number(8, 1), copy(2)))),
                          switch(copy(7, *variant(0, 0)), ([0], setting(0, two("add unsigned", copy(7, *variant(0, 1)), word(100)))),
                                 ([1], setting(0, two("add unsigned", copy(7, *variant(1, 1)), word(20))))), locals_=[either, BOOL])
        self.assertIn("ok_or_err", text)

    def test_apart(self):
        apart = function("apart", WORD, [], setting(0, two("add unsigned", copy(2), word(1))), RETURN)
        self.assertIn("static MONITOR_APART uint16_t cases_apart(", self.gives([6], ["tried(t, 8, 5, 6)"], [apart], call("apart", 0)))


if __name__ == "__main__":
    unittest.main()
