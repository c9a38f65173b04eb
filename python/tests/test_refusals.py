"""Each refusal, with its number and place, of every call that has it; what was given is as it was; and the sentence that each prints."""
import copy
import dataclasses
import pathlib
import pickle
import re
import unittest

from sievecrest import Fault, Place, Problem, Refusal, Rule, Word, advise
from sievecrest.numbers import GUESSES
from sievecrest.refusal import SENTENCES

BLOCK = 512
WRAPPER = pathlib.Path(__file__).resolve().parents[2] / "rust" / "src" / "refusal.rs"


def proper():
    """Three words and two rules, all proper; word 2 has width 1."""
    return Problem([Word.open(4), Word(4, 8, 15), Word.open(1)], [Rule.add(0, 0, 1), Rule.ite(0, 0, 1, 2)], GUESSES)


def with_word(word):
    problem = proper()
    problem.words[1] = word
    return problem


def with_rule(rule):
    problem = proper()
    problem.rules[1] = rule
    return problem


def faulty():
    """Faulty problems with the refusal of each, all but that of a limit."""
    add = Rule.add(0, 0, 1)
    yield Problem([Word.open(1)] * 33), Fault.SIZE, 0
    yield Problem(proper().words, [Rule.ne(0, 2)] * 253), Fault.SIZE, 0
    for width in (0, 65, (1 << 64) - 1):
        yield with_word(Word.open(width)), Fault.WIDTH, 1
    for word in (Word(4, 2, 13), Word.fixed(4, 16), Word(4, 0, (1 << 64) - 1)):
        yield with_word(word), Fault.TABLE, 1
    for kind in (0, 15, 255):
        yield with_rule(dataclasses.replace(add, kind=kind)), Fault.KIND, 1
    for rule in (Rule.add(0, 0, 3), Rule.add(255, 0, 1), dataclasses.replace(add, s=2), dataclasses.replace(Rule.ne(0, 1), k=1)):
        yield with_rule(rule), Fault.FIELD, 1
    for rule in (Rule.add(0, 1, 2), Rule.ite(0, 0, 1, 1), Rule.shr(0, 2, 1), Rule.join(0, 1, 2)):
        yield with_rule(rule), Fault.FIT, 1


def seal(block):
    """A block with the check that makes its sum right."""
    total = sum(int.from_bytes(block[i : i + 2], "little") for i in range(0, BLOCK, 2) if i != 6) % 65536
    return block[:6] + (65535 - total).to_bytes(2, "little") + block[8:]


def altered(number, byte, value, sealed=True):
    """The file of the proper problem, three blocks, with one byte of one block altered; its sum mended, or not."""
    file = bytearray(proper().write())
    file[BLOCK * number + byte] = value
    if sealed:
        file[BLOCK * number : BLOCK * (number + 1)] = seal(bytes(file[BLOCK * number : BLOCK * (number + 1)]))
    return bytes(file)


class Refusals(unittest.TestCase):
    def refused(self, call, fault, place):
        with self.assertRaises(Refusal) as caught:
            call()
        self.assertEqual((caught.exception.number, caught.exception.place), (fault, place))

    def test_every_call_refuses_a_faulty_problem_and_leaves_it(self):
        for problem, fault, place in faulty():
            before = copy.deepcopy(problem)
            with self.subTest(problem=problem):
                for call in (problem.check, problem.tighten, problem.solve, lambda: problem.explain(0, Place.R, 0), problem.cause, problem.write):
                    self.refused(call, fault, place)
                self.assertEqual(problem, before)

    def test_answers_leave_the_problem_too(self):
        problem = proper()
        for call in (problem.check, problem.tighten, problem.solve, lambda: problem.explain(0, Place.R, 0), problem.cause, problem.write):
            call()
        self.assertEqual(problem, proper())

    def test_a_limit_is_refused_by_the_calls_that_take_one(self):
        for limit in (GUESSES + 1, (1 << 32) - 1, 1 << 32, 1 << 70):
            problem = dataclasses.replace(proper(), limit=limit)
            for call in (problem.check, problem.solve, problem.cause, problem.write):
                self.refused(call, Fault.LIMIT, 0)
            problem.tighten()
            problem.explain(0, Place.R, 0)

    def test_the_first_fault_is_refused(self):
        problem = with_word(Word(4, 2, 13))
        problem.rules = [Rule.add(0, 1, 2), dataclasses.replace(Rule.ne(9, 9), kind=0)]
        problem.limit = 1 << 40
        self.refused(problem.check, Fault.TABLE, 1)
        problem.words[1] = Word.open(4)
        self.refused(problem.check, Fault.FIT, 0)
        del problem.rules[0]
        self.refused(problem.check, Fault.KIND, 0)

    def test_an_explanation_is_asked_for_an_open_bit(self):
        most = (1 << 64) - 1
        asked = [(2, Place.R, 0), (most, Place.R, 0), (0, Place.S, 0), (1, Place.S, 1), (0, Place.A, 4), (0, Place.B, 3), (0, Place.B, most), (0, 4, 0)]
        for question in asked:
            with self.subTest(question=question):
                self.refused(lambda: proper().explain(*question), Fault.ASK, 0)
        proper().explain(1, Place.S, 0)

    def test_every_refusal_of_a_file(self):
        whole = proper().write()
        cases = [
            (b"", Fault.SIZE, 0),
            (whole[: BLOCK - 1], Fault.SIZE, 0),
            (bytes(8 * BLOCK), Fault.SIZE, 0),
            (altered(0, 9, 1, False), Fault.CHECK, 0),
            (altered(2, 300, 1, False), Fault.CHECK, 2),
            (altered(1, 1, 2), Fault.LAYOUT, 1),
            (altered(2, 4, 1), Fault.LAYOUT, 2),
            (whole[: 2 * BLOCK], Fault.LAYOUT, 1),
            (altered(0, 8 + 24, 65), Fault.WIDTH, 1),
            (altered(0, 8 + 24 + 8, 16), Fault.TABLE, 1),
            (altered(1, 8 + 8, 15), Fault.KIND, 1),
            (altered(1, 8 + 8 + 1, 3), Fault.FIELD, 1),
            (altered(1, 8 + 8 + 1, 2), Fault.FIT, 1),
            (altered(2, 8 + 3, 255), Fault.LIMIT, 0),
        ]
        for file, fault, place in cases:
            with self.subTest(fault=fault):
                self.refused(lambda: Problem.read(file), fault, place)
                self.assertEqual(advise(file), f"refused {fault.value} {place}\n".encode())

    def test_sentences_say_what_and_where_and_what_to_do(self):
        self.assertEqual(str(Refusal(2, 3)), "refused, 2 CHECK, block 3: the block's sum is wrong; fetch the file again, or write it anew")
        self.assertEqual(str(Refusal(4, 31)), "refused, 4 WIDTH, word 31: the word's width is not 1 to 64; give the register's width")
        self.assertEqual(str(Refusal(6, 251)), "refused, 6 KIND, rule 251: the rule's kind is not 1 to 14; use the number of a kind")
        self.assertEqual(str(Refusal(9, 0)), "refused, 9 LIMIT: the limit is over 1000000; give a smaller one")

    def test_every_refusal_has_its_own_sentence_with_its_place(self):
        places = ["", ", block 5", ", block 5", ", word 5", ", word 5", ", rule 5", ", rule 5", ", rule 5", "", "", ""]
        self.assertEqual([fault.value for fault in Fault], list(range(1, 12)))
        for fault, place in zip(Fault, places):
            self.assertEqual(str(Refusal(fault, 5)), f"refused, {fault.value} {fault.name}{place}: {SENTENCES[fault]}")
            self.assertIn("; ", SENTENCES[fault])
        self.assertEqual(len(set(SENTENCES.values())), len(Fault))

    def test_sentences_are_those_of_the_wrapper_for_rust(self):
        said = re.findall(r'"((?:[^"\\]|\\.)*)"', WRAPPER.read_text(encoding="utf-8"))
        for fault in Fault:
            self.assertIn(SENTENCES[fault], said, fault)

    def test_a_refusal_can_be_pickled_and_compared(self):
        refusal = Refusal(8, 2)
        self.assertEqual(pickle.loads(pickle.dumps(refusal)), refusal)
        self.assertEqual(len({refusal, Refusal(8, 2), Refusal(8, 3), Refusal(7, 2)}), 3)
        self.assertNotEqual(refusal, (8, 2))


class Values(unittest.TestCase):
    """What cannot be lent is no refusal but a ValueError that says what to do."""

    def test_numbers_that_do_not_fit(self):
        for make in (
            lambda: Word(1 << 64, 0, 0),
            lambda: Word(4, -1, 3),
            lambda: Word(4, 0, 1 << 64),
            lambda: Word("4", 0, 15),
            lambda: Word.open(-1),
            lambda: Word.open(None),
            lambda: Rule(256),
            lambda: Rule.add(0, 1, -1),
            lambda: Rule.shl(0, 0, 256),
            lambda: Rule.shl(0, 0, 1.0),
            lambda: Problem(limit=-1).check(),
            lambda: Problem(limit="9").solve(),
        ):
            with self.assertRaisesRegex(ValueError, "give a number from 0 to"):
                make()

    def test_questions_that_do_not_fit(self):
        for question in ((-1, 0, 0), (0, 1 << 64, 0), (0, 0, -5)):
            with self.assertRaisesRegex(OverflowError, "is no number of 64 bits"):
                proper().explain(*question)

    def test_a_file_is_bytes(self):
        for file in (5, "text", None):
            self.assertRaises(TypeError, Problem.read, file)
            self.assertRaises(TypeError, advise, file)
        whole = proper().write()
        for file in (bytearray(whole), memoryview(whole)):
            self.assertEqual(Problem.read(file), proper())

    def test_open_bits_are_the_ones_of_lo_xor_hi(self):
        self.assertEqual([Word.open(width).open_bits for width in range(1, 65)], list(range(1, 65)))
        self.assertEqual((Word(4, 8, 15).open_bits, Word.fixed(4, 9).open_bits), (3, 0))


if __name__ == "__main__":
    unittest.main()
