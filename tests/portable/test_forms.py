"""What today's forms come to: enums, Option and Result, switches, exits of every kind, numbers that wrap; and what of them is refused."""
import tempfile
import unittest

from portable.term import Unknown
from tests.portable.terms import (AT, BOOL, COUNT, DEREF, FIRST_TYPE, HELD, INDEX, MIXED, NONE, OPTION, PAIR, POINTER, QUEUE, RESULT, RETURN, SKIP,
                                  SLICE, UNIT, WORD, address, block, call, choice, copy, declared, deref, element, exit_by, function, impl, lent, listed,
                                  loop, made, method, number, parts, run, sequence, setting, switch, translated, two, use, variant, word)

LOCALS = (WORD, WORD, BOOL, BOOL, QUEUE, PAIR, HELD, POINTER)  # 4 and 5 words, 6 and 7 truths, 8 a queue, 9 a pair, 10 what has both
TAG, LEFT, RIGHT = variant(0, 0), "(Syntax.field 0)", "(Syntax.field 1)"
MUTABLE = f"(Syntax.ty_ref (Syntax.named 0) Syntax.mut {PAIR})"
CLEAR = function("clear", WORD, [], setting(1, use(word(0)), deref(PAIR), LEFT), setting(0, use(word(7))), RETURN, parameters=[MUTABLE])
COUNTED = function("counted", BOOL, [POINTER, WORD], element(4, 0), setting(5, two("add unsigned", copy(4, DEREF), word(1))),
                   setting(4, use(copy(5)), DEREF), setting(0, use("Syntax.opd_true")), RETURN)


def tag(amount):
    return number(8, amount)


def add(local, amount):
    return setting(local, two("add unsigned", copy(local), word(amount)))


class FormsTest(unittest.TestCase):
    def gives(self, wanted, check, *body, more=(), locals_=LOCALS, slots=()):
        made_of = function("tried", WORD, locals_, *body, slots=slots)
        with tempfile.TemporaryDirectory() as folder:
            self.assertEqual(run(translated([*more, made_of], ["tried"]), folder, [check]), [wanted])

    def of(self, cases, *body, **more):
        """What the function gives of a number a, for each of these."""
        for a, wanted in cases.items():
            self.gives(wanted, f"tried(t, 8, {a}, 3)", *body, **more)


class EnumTest(FormsTest):
    def test_each_arm_is_for_its_numbers(self):
        arms = ([1, 3], setting(4, use(word(10)))), ([0], setting(4, use(word(20)))), ([2], setting(4, use(word(30))))
        self.of({0: 20, 1: 10, 2: 30, 3: 10}, switch(copy(2), *arms), setting(0, use(copy(4))), RETURN)
        self.of({0: 20, 1: 10, 2: 30, 5: 40}, switch(copy(2), *arms, default=setting(4, use(word(40)))), setting(0, use(copy(4))), RETURN)
        self.of({0: 3, 1: 10, 2: 3, 3: 10}, setting(4, use(copy(3))), switch(copy(2), arms[0], ([0, 2], SKIP)), setting(0, use(copy(4))), RETURN)

    def test_an_arm_that_no_call_comes_to(self):
        stuck = sequence(setting(4, use(word(9))), "Syntax.unreachable")
        self.of({0: 20, 1: 10}, switch(copy(2), ([2], stuck), ([1], setting(4, use(word(10)))), default=setting(4, use(word(20)))),
                setting(0, use(copy(4))), RETURN)
        self.of({0: 20, 1: 20}, setting(6, two("lt unsigned", copy(2), word(5))), choice(6, setting(4, use(word(20))), stuck),
                setting(7, two("le unsigned", word(5), copy(2))), choice(7, stuck), setting(0, use(copy(4))), RETURN)

    def test_each_variant_has_its_fields(self):
        read = switch(copy(8, *TAG), ([0], setting(4, use(word(9)))), ([1], setting(4, use(copy(8, *variant(1, 1))))),
                      ([2], setting(4, two("sub unsigned", copy(8, *variant(2, 1)), copy(8, *variant(2, 2))))), ([3], setting(4, use(word(8)))))
        for parts, wanted in (([tag(0)], 9), ([tag(1), word(5)], 5), ([tag(2), word(50), word(8)], 42), ([tag(3), "Syntax.opd_true"], 8)):
            self.gives(wanted, "tried(t, 8, 2, 3)", setting(8, made(*parts)), read, setting(0, use(copy(4))), RETURN)

    def test_a_variant_over_another(self):
        self.gives(5 + 6, "tried(t, 8, 5, 6)", setting(8, made(tag(1), copy(2))), setting(4, use(copy(8, *variant(1, 1)))),
                   setting(8, made(tag(2), word(4), copy(3))), setting(0, two("add unsigned", copy(4), copy(8, *variant(2, 2)))), RETURN)

    def test_options_of_two_types(self):
        words, flags = declared(OPTION, WORD), declared(OPTION, BOOL)
        self.of({4: 5, 9: 9}, setting(6, two("lt unsigned", copy(2), word(5))), setting(5, made(tag(1), copy(6))), setting(4, made(tag(1), copy(2))),
                switch(copy(5, *TAG), ([0], SKIP), ([1], setting(7, use(copy(5, *variant(1, 1)))))),
                setting(8, use(copy(4, *variant(1, 1)))), choice(7, add(8, 1)), setting(0, use(copy(8))), RETURN,
                locals_=(words, flags, BOOL, BOOL, WORD))

    def test_a_result_of_nothing(self):
        checked = declared(RESULT, UNIT, QUEUE)
        self.of({4: 1, 5: 5}, setting(4, made(tag(0), NONE)), setting(5, two("eq", copy(2), word(5))), setting(6, made(tag(1), copy(2))),
                choice(5, setting(4, made(tag(1), copy(6)))), switch(copy(4, *TAG), ([0], setting(7, use(copy(4, *variant(0, 1))))), ([1], sequence(
                    setting(0, use(copy(4, *variant(1, 1), *variant(1, 1)))), RETURN))), setting(0, use(word(1))), RETURN,
                locals_=(checked, BOOL, QUEUE, UNIT))

    def test_elements_by_their_size(self):
        one, two_words = made(tag(1), copy(2)), made(tag(2), word(1), word(2))
        for kind, first, last, step in ((QUEUE, two_words, one, variant(1, 1)), (MIXED, made(tag(0), word(1), tag(2)), made(tag(1), copy(2), tag(1)), [RIGHT])):
            array = f"(Syntax.ty_array {kind} 3)"  # each takes 6 bytes: behind the first one is one that is none of it
            self.gives(77, "tried(t, 8, 77, 6)", setting(5, last), setting(6, first), setting(4, made(copy(6), copy(6), copy(5))),
                       setting(7, address(4)), setting(8, two("offset", copy(7), number(64, 12))), setting(0, use(copy(8, deref(kind), *step))),
                       RETURN, locals_=(array, kind, kind, POINTER, POINTER), slots=[4])

    def test_a_part_that_is_set(self):
        self.gives(8 * 5 + 6, "tried(t, 8, 5, 6)", setting(9, made(copy(2), copy(3))), setting(4, use(copy(9, LEFT))),
                   setting(9, use(word(8)), LEFT), setting(5, two("mul unsigned", copy(9, LEFT), copy(4))),
                   setting(0, two("add unsigned", copy(5), copy(9, RIGHT))), RETURN)

    def test_a_part_of_a_copy(self):
        split = function("split", WORD, [PAIR, WORD], setting(2, use(copy(1))), setting(2, use(word(1)), LEFT), setting(3, two(
            "mul unsigned", copy(1, LEFT), word(10))), setting(0, two("add unsigned", copy(3), copy(2, LEFT))), RETURN, parameters=[PAIR])
        self.gives(5 * 10 + 1, "tried(t, 8, 5, 6)", setting(9, made(copy(2), copy(3))), call("split", 0, copy(9)), RETURN, more=[split])

    def test_what_is_lent_is_memory(self):
        self.gives(5, "tried(t, 8, 5, 6)", setting(4, made(copy(2), copy(3))), setting(6, use(copy(4, LEFT))), setting(5, address(4)),
                   call("clear", 7, copy(5)), setting(0, two("add unsigned", copy(6), copy(4, LEFT))), RETURN, more=[CLEAR],
                   locals_=(PAIR, MUTABLE, WORD, WORD), slots=[4])


class ExitTest(FormsTest):
    def test_out_of_one_block_and_out_of_two(self):
        self.of({1: 7, 2: 3, 3: 5}, setting(4, use(word(0))), setting(6, two("eq", copy(2), word(1))), setting(7, two("eq", copy(2), word(2))),
                block(block(choice(6, sequence(add(4, 7), exit_by(1))), choice(7, exit_by(0)), add(4, 2)), add(4, 3)),
                setting(0, use(copy(4))), RETURN)

    def test_out_of_tests_inside_one_another(self):
        self.of({1: 14, 2: 24, 3: 24, 6: 24}, setting(6, two("lt unsigned", copy(2), word(3))), setting(7, two("ne", copy(2), word(2))),
                block(choice(6, choice(7, sequence(setting(4, use(word(10))), exit_by(0)))), setting(4, use(word(20)))), add(4, 4),
                setting(0, use(copy(4))), RETURN)
        self.of({1: 14, 2: 26, 3: 24}, setting(6, two("lt unsigned", copy(2), word(3))), setting(5, use(word(4))), setting(7, two("ne", copy(2), word(2))),
                block(choice(6, sequence(choice(7, sequence(setting(4, use(word(10))), exit_by(0))), add(5, 2))), setting(4, use(word(20)))),
                setting(0, two("add unsigned", copy(4), copy(5))), RETURN)

    def test_rounds_that_are_cut_short_and_loops_that_are_left(self):
        body = (setting(6, two("lt unsigned", copy(4), word(9))), choice(6, SKIP, exit_by(1)), add(4, 1),
                setting(6, two("eq", copy(4), word(3))),
                block(choice(6, exit_by(1)), setting(7, two("eq", copy(4), copy(2))), choice(7, exit_by(2)), add(5, 1)),
                add(5, 10))
        self.of({5: 33, 3: 88, 20: 88}, setting(4, use(word(0))), setting(5, use(word(0))), loop(*body), setting(0, use(copy(5))), RETURN)

    def test_a_loop_left_at_its_second_test(self):
        self.of({5: 12, 2: 0, 3: 3}, setting(4, use(copy(3))), setting(5, use(word(0))),
                loop(setting(6, two("le unsigned", copy(4), copy(2))), choice(6, SKIP, exit_by(1)), setting(5, two("wrap_add", copy(5), copy(4))),
                     setting(7, two("lt unsigned", copy(4), copy(2))), choice(7, SKIP, exit_by(1)), add(4, 1)),
                setting(0, use(copy(5))), RETURN)

    def test_out_of_a_loop_inside_a_loop(self):
        inner = loop(setting(6, two("lt unsigned", copy(5), word(3))), choice(6, SKIP, exit_by(1)), add(5, 1),
                     setting(7, two("eq", copy(5), copy(2))), choice(7, exit_by(3)))
        outer = loop(setting(6, two("lt unsigned", copy(4), word(4))), choice(6, SKIP, exit_by(1)), add(4, 1), setting(5, use(word(0))), inner)
        self.of({2: 12, 7: 43}, setting(4, use(word(0))), outer, setting(4, two("mul unsigned", copy(4), word(10))),
                setting(0, two("add unsigned", copy(4), copy(5))), RETURN)

    def test_a_call_that_is_left_out(self):
        for joint, counts in (("and", {1: 1, 2: 0}), ("or", {1: 0, 2: 1})):
            second = sequence(call("counted", 7), setting(6, use(copy(7))))
            body = choice(6, second) if joint == "and" else choice(6, SKIP, second)
            for a, wanted in counts.items():
                self.gives(wanted, f"t[0] = 0, tried(t, 8, {a}, 3), t[0]", setting(6, two("eq", copy(2), word(1))), body,
                           choice(6, setting(4, use(word(1))), setting(4, use(word(2)))), setting(0, use(copy(4))), RETURN, more=[COUNTED])

    def test_what_is_tested_in_a_loop_is_tested_in_each_round(self):
        second = sequence(setting(7, two("ne", copy(4), copy(2))), setting(6, use(copy(7))))
        self.of({3: 3, 12: 9}, setting(4, use(word(0))),
                loop(setting(6, two("lt unsigned", copy(4), word(9))), choice(6, second), choice(6, SKIP, exit_by(1)), add(4, 1)),
                setting(0, use(copy(4))), RETURN)


class GenericTest(FormsTest):
    def test_at_two_types(self):
        later = function("later", FIRST_TYPE, [], choice(3, setting(0, use(copy(1))), setting(0, use(copy(2)))), RETURN,
                         parameters=[FIRST_TYPE, FIRST_TYPE, BOOL], takes=(["a_type"], 0))
        self.of({3: 5, 4: 0}, setting(6, two("eq", copy(2), word(3))), call("later", 8, copy(9), copy(10), copy(6), of=([QUEUE], ())),
                setting(8, made(tag(1), word(5))), setting(9, made(tag(0))), call("later", 10, copy(8), copy(9), copy(6), of=([QUEUE], ())),
                call("later", 4, word(1), word(0), copy(6), of=([WORD], ())), setting(5, use(word(0))),
                switch(copy(10, *TAG), ([1], setting(5, two("mul unsigned", copy(4), copy(10, *variant(1, 1))))), default=SKIP),
                setting(0, use(copy(5))), RETURN, more=[later], locals_=(WORD, WORD, BOOL, BOOL, QUEUE, QUEUE, QUEUE))

    def test_a_number_that_is_given(self):
        array, reference = "(Syntax.ty_array_p (Syntax.ty_int Syntax.w16) 0)", "(Syntax.ty_ref (Syntax.named 0) Syntax.imm {})"
        last = function("last", WORD, [POINTER, INDEX, INDEX, POINTER], setting(2, address(1, deref(array))), setting(3, two(
            "sub unsigned", "(Syntax.num_of Syntax.w64 (Syntax.ty_param 0))", number(64, 1))), setting(4, two("mul unsigned", copy(3), number(64, 2))),
            setting(5, two("offset", copy(2), copy(4))), setting(0, use(copy(5, DEREF))), RETURN, parameters=[reference.format(array)],
            takes=(["a_number"], 0))
        locals_ = [text for n in (2, 3) for text in (f"(Syntax.ty_array {WORD} {n})", reference.format(f"(Syntax.ty_array {WORD} {n})"))]
        self.gives(6 * 10 + 5, "tried(t, 8, 5, 6)", setting(4, made(copy(2), copy(3))), setting(5, address(4)),
                   setting(6, made(copy(3), copy(3), copy(2))), setting(7, address(6)), call("last", 8, copy(5), of=(["(Syntax.ty_const 2)"], ())),
                   call("last", 9, copy(7), of=(["(Syntax.ty_const 3)"], ())), setting(8, two("mul unsigned", copy(8), word(10))),
                   setting(0, two("add unsigned", copy(8), copy(9))), RETURN, more=[last], locals_=(*locals_, WORD, WORD), slots=[4, 6])

    def test_methods_of_impls(self):
        own = [function(name, WORD, [], setting(0, two(sign, copy(1), word(n))), RETURN, parameters=[WORD])
               for name, sign, n in (("plus", "add unsigned", 3), ("times", "mul unsigned", 4))]
        left = function("left", WORD, [], setting(0, use(copy(1, LEFT))), RETURN, parameters=[PAIR])
        both = function("both", WORD, [WORD], method(0, 2, copy(1)), method(1, 0, copy(2)), RETURN, parameters=[FIRST_TYPE], takes=(["a_type"], 1))
        through = function("through", WORD, [], call("both", 0, copy(1), of=([FIRST_TYPE], ["(Syntax.given 0)"])), RETURN,
                           parameters=[FIRST_TYPE], takes=(["a_type"], 1))
        self.gives((5 + 3) * 4 + (6 + 3), "tried(t, 8, 5, 6)", call("through", 4, copy(2), of=([WORD], [impl("plus", "times")])),
                   setting(9, made(copy(3), copy(2))), call("both", 5, copy(9), of=([PAIR], [impl("left", "plus")])),
                   setting(0, two("add unsigned", copy(4), copy(5))), RETURN, more=[*own, left, both, through])


class LentTest(FormsTest):
    def test_constants(self):
        reference = "(Syntax.ty_ref Syntax.erased Syntax.imm {})"
        words, queues = f"(Syntax.ty_array {WORD} 3)", f"(Syntax.ty_array {QUEUE} 2)"
        bare, full = parts("(Syntax.c_int Syntax.w8 0)"), parts("(Syntax.c_int Syntax.w8 2)", "(Syntax.c_int Syntax.w16 70)", "(Syntax.c_int Syntax.w16 9)")
        for a, wanted in ((0, 50 + 9), (2, 70 + 9)):
            self.gives(wanted, f"tried(t, 8, {a}, 6)", lent(4, words, f"(Syntax.c_ints Syntax.w16 {listed(['50', '60', '70'])})"),
                       lent(5, queues, parts(bare, full)), setting(6, address(4, deref(words))), setting(10, f"(Syntax.op1 (Syntax.cast "
                       f"Syntax.unsigned Syntax.unsigned Syntax.w64) {copy(2)})"), setting(11, two("mul unsigned", copy(10), number(64, 2))),
                       setting(7, two("offset", copy(6), copy(11))), setting(8, address(5, deref(queues))),
                       setting(9, two("offset", copy(8), number(64, 6))),
                       setting(0, two("add unsigned", copy(7, DEREF), copy(9, deref(QUEUE), *variant(2, 2)))), RETURN,
                       locals_=(reference.format(words), reference.format(queues), POINTER, POINTER, POINTER, POINTER, INDEX, INDEX))

    def test_a_pointer_that_is_read_twice(self):
        self.gives(3 * 4 + 4, "t[1] = 4, t[2] = 3, tried(t, 8, 1, 6)", setting(7, two("offset", copy(1, AT), number(64, 4))),
                   setting(8, two("offset", copy(1, AT), number(64, 2))), setting(6, two("eq", copy(2), word(1))),
                   choice(6, setting(5, two("mul unsigned", copy(7, DEREF), copy(8, DEREF))), setting(5, use(copy(7, DEREF)))),
                   setting(0, two("add unsigned", copy(5), copy(8, DEREF))), RETURN, locals_=(WORD, WORD, BOOL, POINTER, POINTER))

    def test_a_structure_that_holds_a_slice(self):
        kept = declared("cases::Kept")
        self.gives(8 + 7, "t[7] = 7, tried(t, 8, 1, 6)", setting(4, made(copy(1), copy(2))), setting(5, use(copy(4))),
                   setting(6, two("offset", copy(5, LEFT, AT), number(64, 14))), setting(7, f"(Syntax.op1 (Syntax.cast Syntax.unsigned "
                   f"Syntax.unsigned Syntax.w16) {copy(5, LEFT, COUNT)})"), setting(0, two("add unsigned", copy(7), copy(6, DEREF))), RETURN,
                   locals_=(kept, kept, POINTER, WORD))


    def test_a_slice_that_is_kept_is_cut(self):
        kept = declared("cases::Kept")
        cut = (setting(5, two("offset", copy(4, LEFT, AT), number(64, 4))), setting(6, two("sub unsigned", copy(4, LEFT, COUNT), number(64, 2))),
               setting(7, made(copy(5), copy(6))), setting(4, use(copy(7)), LEFT))
        self.gives(4 * 10 + 7, "t[4] = 7, tried(t, 8, 1, 6)", setting(4, made(copy(1), copy(2))), *cut, *cut, setting(8, "(Syntax.op1 (Syntax.cast "
                   f"Syntax.unsigned Syntax.unsigned Syntax.w16) {copy(4, LEFT, COUNT)})"), setting(9, two("mul unsigned", copy(8), word(10))),
                   setting(5, two("offset", copy(4, LEFT, AT), number(64, 0))), setting(0, two("add unsigned", copy(9), copy(5, DEREF))), RETURN,
                   locals_=(kept, POINTER, INDEX, SLICE, WORD, WORD))

    def test_arrays_in_structures(self):
        row, array = declared("cases::Row"), f"(Syntax.ty_array {WORD} 3)"
        self.gives(6 * 10 + 5, "t[1] = 6, tried(t, 8, 5, 2)", setting(9, two("offset", copy(1, AT), number(64, 2))), setting(10, use(copy(9, DEREF))),
                   setting(4, made(copy(2), copy(10), copy(3))), setting(5, made(copy(4), copy(2))), setting(6, use(copy(5))), setting(7, address(6, LEFT)),
                   setting(8, two("offset", copy(7), number(64, 2))), setting(10, two("mul unsigned", copy(8, DEREF), word(10))),
                   setting(8, two("offset", copy(7), number(64, 0))), setting(11, use(copy(8, DEREF))),
                   setting(0, two("add unsigned", copy(10), copy(11))), RETURN,
                   locals_=(array, row, row, POINTER, POINTER, POINTER, WORD, WORD), slots=[4, 6])
        self.gives(2 * 10 + 5, "tried(t, 8, 5, 2)", setting(4, made(copy(2), copy(2), copy(3))), setting(5, made(copy(4), copy(3))), setting(4, made(
            copy(3), copy(3), copy(3))), setting(6, use(copy(5))), setting(5, use(copy(4)), LEFT), setting(7, address(5, LEFT)),
                   setting(10, two("mul unsigned", copy(7, DEREF), word(10))), setting(8, address(6, LEFT)),
                   setting(0, two("add unsigned", copy(10), copy(8, DEREF))), RETURN,
                   locals_=(array, row, row, POINTER, POINTER, POINTER, WORD, WORD), slots=[4, 5, 6])

    def test_a_call_before_an_array_is_read(self):
        array = f"(Syntax.ty_array {WORD} 3)"
        lent_array = f"(Syntax.ty_ref Syntax.erased Syntax.mut {array})"
        put = function("put", WORD, [POINTER], setting(2, address(1, deref(array))), setting(2, use(word(8)), DEREF), setting(0, use(word(4))),
                       RETURN, parameters=[lent_array])
        self.gives(8 * 10 + 4, "tried(t, 8, 5, 2)", setting(4, made(copy(2), copy(2), copy(3))), setting(5, address(4)), call("put", 6, copy(5)),
                   setting(7, made(copy(4), copy(6))), setting(8, address(7, LEFT)), setting(9, two("mul unsigned", copy(8, DEREF), word(10))),
                   setting(0, two("add unsigned", copy(9), copy(7, RIGHT))), RETURN, more=[put],
                   locals_=(array, lent_array, WORD, declared("cases::Row"), POINTER, WORD), slots=[4, 7])

    def test_an_array_of_what_it_overwrites(self):
        array = f"(Syntax.ty_array {WORD} 2)"
        self.gives(2 * 10 + 5, "tried(t, 8, 5, 2)", setting(4, made(copy(2), copy(3))), setting(5, address(4)), setting(6, two(
            "offset", copy(5), number(64, 2))), setting(7, use(copy(6, DEREF))), setting(8, use(copy(5, DEREF))), setting(4, made(copy(7), copy(8))),
                   setting(9, two("mul unsigned", copy(5, DEREF), word(10))), setting(0, two("add unsigned", copy(9), copy(6, DEREF))), RETURN,
                   locals_=(array, POINTER, POINTER, WORD, WORD, WORD), slots=[4])

    def test_a_reference_that_is_lent(self):
        once = f"(Syntax.ty_ref Syntax.erased Syntax.imm {WORD})"
        twice = f"(Syntax.ty_ref Syntax.erased Syntax.imm {once})"
        through = function("through", WORD, [], setting(0, use(copy(1, deref(once), DEREF))), RETURN, parameters=[twice])
        self.gives(9, "t[3] = 9, tried(t, 8, 1, 6)", setting(4, two("offset", copy(1, AT), number(64, 6))), setting(5, address(4, DEREF)),
                   setting(6, address(5)), call("through", 0, copy(6)), RETURN, more=[through], locals_=(POINTER, once, twice), slots=[5])

    def test_an_element_by_the_size_of_its_type(self):
        self.gives(9, "t[3] = 9, tried(t, 8, 3, 6)", setting(4, f"(Syntax.op1 (Syntax.cast Syntax.unsigned Syntax.unsigned Syntax.w64) {copy(2)})"),
                   setting(5, two("mul unsigned", copy(4), f"(Syntax.size_of {WORD})")), setting(6, two("offset", copy(1, AT), copy(5))),
                   setting(0, use(copy(6, DEREF))), RETURN, locals_=(INDEX, INDEX, POINTER))


class WrapTest(FormsTest):
    def test_numbers_that_wrap(self):
        for operation, a, b, wanted in (("wrap_add", 65535, 3, 2), ("wrap_sub", 2, 3, 65535), ("wrap_mul", 65535, 65535, 1)):
            self.gives(wanted, f"tried(t, 8, {a}, {b})", setting(0, two(operation, copy(2), copy(3))), RETURN)
        self.gives(254, "tried(t, 8, 1, 3)", setting(4, two("wrap_sub", number(8, 1), number(8, 3))),
                   setting(0, "(Syntax.op1 (Syntax.cast Syntax.unsigned Syntax.unsigned Syntax.w16) (Syntax.copy (Syntax.place 4 List.[])))"),
                   RETURN, locals_=("(Syntax.ty_int Syntax.w8)",))


class RefusalTest(unittest.TestCase):
    def refused(self, sentence, *body, locals_=(*LOCALS, INDEX), **more):
        with self.assertRaisesRegex(Unknown, sentence):
            translated([function("tried", WORD, locals_, *body, RETURN, **more)], ["tried"])

    def test_what_it_does_not_know(self):
        one = setting(4, use(word(1)))
        self.refused("an arm that is never taken", switch(copy(2), ([1, 2], one), ([2], one)))
        self.refused("an arm 'other'", "(Syntax.switch (Syntax.copy (Syntax.place 2 List.[])) Syntax.other)")
        self.refused("a field of 'cases::Queue' that it doesn't have", setting(4, use(copy(8, *variant(2, 3)))))
        self.refused("a variant of 'cases::Queue' that it doesn't have", setting(4, use(copy(8, *variant(4, 1)))))
        self.refused("a step 'variant'", setting(4, use(copy(8, "(Syntax.variant 1)", "(Syntax.variant 1)", LEFT))))
        self.refused("another number of parts", setting(8, made(tag(2), word(1))))
        self.refused("another number of types", setting(4, use(copy(12, *TAG))), locals_=(*LOCALS, declared(OPTION)))
        self.refused("a field of 'cases::Other' that it doesn't have", setting(0, use(copy(12, LEFT))), locals_=(*LOCALS, declared("cases::Other")))
        self.refused("neither in memory nor behind a pointer", setting(12, address(9)), locals_=(*LOCALS, MUTABLE))
        self.refused("wraps a number of 64 bits", setting(12, two("wrap_sub", copy(12), number(64, 1))))
        self.refused("leads to no block's end", block(switch(copy(2), ([1], exit_by(1)), default=SKIP)))
        self.refused("not so many elements", setting(12, address(4)), setting(13, two("offset", copy(12), number(64, 8))),
                     setting(0, use(copy(13, deref(QUEUE), *variant(1, 1)))),
                     locals_=(f"(Syntax.ty_array {QUEUE} 3)", *LOCALS[1:], POINTER, POINTER), slots=[4])


if __name__ == "__main__":
    unittest.main()
