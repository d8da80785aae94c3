"""What the trial of the wrong programs would miss if it were wrong itself."""

import unittest

from .__main__ import listed, told_faults
from .programs import Place, faults_of, programs_in, said_of

SHEET = """# Wrong programs, each in a function of its own.

wrong: joined_to_itself
refused: proofs/links/join/Answers.antt: returns: the result isn't the contract's
file: src/links.rt
old: join(x, y);
new: join(x, x);

wrong: last_is_first
refused: table::links::last itself: it is no longer proved by what it computes
file: src/links.rt
old: last
new: first
"""

ONE = """refused: specs/Worked.antt: worked: a row comes out otherwise
file: specs/Step.antt
old: older
new: younger
"""

LOG = """./proofs/links/join/Answers.antt:22:5: error: `returns`: the two types differ
./proofs/links/join/Answers.antt:25:13: error: `returns-2`: `helper` was not admitted (..), so this cannot be checked
./proofs/links/remove/Proof.antt:82:5: error: 1 declaration that depends on `close`, which was not admitted, was not checked: remove-spec
note: src/links.rt:30:9: it is not proved that what the function ensures holds when it returns (`returns-then-a`)
fn table::links::join: not proved
fn table::links::remove: not proved; it calls `table::links::join`, which is not proved
fn table::links::after: no proof: it calls `table::links::join`, which is not proved
fn table::events::unlink: no proof: expected answers in ./proofs/events/unlink/Answers.antt; `search` fails; it calls `table::links::remove`
"""

CYCLE = """fn stuck::chain::one: no proof: expected answers in ./proofs/chain/+one_two/Answers.antt; `search` did not prove `one-returns`
fn stuck::chain::two: no proof: expected answers in ./proofs/chain/+one_two/Answers.antt; `search` did not prove `one-returns`
"""

ALONE = "fn table::links::last: no proof: expected answers in ./proofs/links/last/Answers.antt; `search` did not prove `returns`\n"

JOIN = Place("proofs/links/join/Answers.antt", "returns")


class Programs(unittest.TestCase):
    def test_a_sheet_is_read(self):
        first, second = programs_in("table", "sheet_1", SHEET)
        self.assertEqual(first, ("table", "joined_to_itself", "sheet_1", JOIN, "the result isn't the contract's"))
        self.assertEqual((second.name, second.place), ("last_is_first", Place(None, "table::links::last")))

    def test_a_file_of_one_is_read(self):
        program, = programs_in("machine", "age_falls", ONE)
        self.assertEqual((program.name, program.place), ("age_falls", Place("specs/Worked.antt", "worked")))
        self.assertEqual(program.fact, "a row comes out otherwise")

    def test_one_that_says_nothing_of_its_refusal_is_found(self):
        programs = programs_in("table", "sheet_1", SHEET.replace("refused: table::links::last itself:", "# it is"))
        self.assertEqual([program.place for program in programs], [JOIN, None])
        self.assertEqual(len(list(told_faults(programs))), 1)
        self.assertEqual(list(told_faults(programs_in("table", "sheet_1", SHEET))), [])

    def test_the_list_says_of_each_where_and_why(self):
        self.assertEqual(list(listed(programs_in("table", "sheet_1", SHEET))), [
            "table", "  joined to itself  proofs/links/join/Answers.antt: returns: the result isn't the contract's",
            "  last is first     table::links::last itself: it is no longer proved by what it computes", "", "2 wrong programs"])

    def test_who_only_leans_on_a_refused_function_has_no_error_of_its_own(self):
        said = said_of(LOG)
        self.assertEqual(said.errors, [JOIN])
        self.assertEqual(said.alone, [])

    def test_a_function_with_errors_in_its_files_is_not_alone(self):
        one = "./proofs/links/last/Answers.antt:7:1: error: `place`: no\nfn table::links::last: not proved\n"
        self.assertEqual(said_of(one).alone, [])
        self.assertEqual(said_of(one.split("\n", 1)[1]).alone, ["table::links::last"])
        self.assertEqual(said_of(one.replace("links/last", "links/+last")).alone, [])

    def test_refused_as_said(self):
        self.assertEqual(list(faults_of("sheet", {"joined_to_itself": JOIN}, said_of(LOG))), [])

    def test_one_of_two_that_is_proved_is_found(self):
        places = {"joined_to_itself": JOIN, "next_record": Place("proofs/indices/of_buffer/Answers.antt", "returns")}
        self.assertEqual(len(list(faults_of("sheet", places, said_of(LOG)))), 1)

    def test_one_that_only_leans_is_found(self):
        places = {"joined_to_itself": JOIN, "leaver": Place("proofs/links/remove/Proof.antt", "remove-spec")}
        self.assertEqual(len(list(faults_of("sheet", places, said_of(LOG)))), 1)

    def test_another_fact_is_found(self):
        self.assertEqual(len(list(faults_of("sheet", {"joined_to_itself": JOIN._replace(name="returns-2")}, said_of(LOG)))), 1)

    def test_a_function_without_a_proof_file(self):
        places = {"joined_to_itself": JOIN, "last_is_first": Place(None, "table::links::last")}
        self.assertEqual(len(list(faults_of("sheet", places, said_of(LOG)))), 1)
        self.assertEqual(list(faults_of("sheet", places, said_of(LOG + ALONE))), [])

    def test_a_refusal_that_nobody_told_of_is_found(self):
        places = {"joined_to_itself": JOIN, "last_is_first": Place(None, "table::links::last")}
        wiped = "./proofs/words/wipe/Answers.antt:18:5: error: `returns`: the two types differ\n"
        self.assertEqual(len(list(faults_of("sheet", places, said_of(LOG + ALONE + wiped)))), 1)
        places = {"joined_to_itself": JOIN, "wiped": Place("proofs/words/wipe/Answers.antt", "returns")}
        self.assertEqual(len(list(faults_of("sheet", places, said_of(LOG + ALONE + wiped)))), 1)

    def test_functions_of_one_cycle_count_as_one(self):
        self.assertEqual(said_of(CYCLE).alone, ["stuck::chain::one"])
        self.assertEqual(said_of("./proofs/chain/+one_two/Answers.antt:3:4: error: `two-returns`: the two types differ\n" + CYCLE).alone, [])

    def test_two_in_one_function_are_found(self):
        self.assertEqual(len(list(faults_of("sheet", {"a": JOIN, "b": JOIN}, said_of(LOG)))), 1)


if __name__ == "__main__":
    unittest.main()
