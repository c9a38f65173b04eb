"""The boards that the product's paper works by hand, A to L, through every call that they concern."""
import threading
import unittest

from sievecrest import Cause, Conflict, Exists, Fault, FixedBit, Forced, Found, Free, GaveUp, NoSettings, Place, Problem, Refusal, Rule, Tight, Word, advise
from sievecrest.numbers import GUESSES, RULES, WORDS

BIT = Word.open(1)
SUM = [Word.open(2), Word.open(2), Word.fixed(2, 3)]


def reason(*entries):
    """Entries as the paper lists them, 64 times place plus bit."""
    return [FixedBit(Place(entry // 64), entry % 64) for entry in entries]


def lines(problem):
    """The lines for the problem's own file."""
    return advise(problem.write()).decode("ascii")


class Boards(unittest.TestCase):
    def test_a_no_words_and_no_rules(self):
        a = Problem()
        self.assertIsNone(a.check())
        self.assertEqual(a.tighten(), Tight([]))
        self.assertEqual(a.solve(), Found([], 0))
        self.assertEqual(a.cause(), Exists(0))
        self.assertEqual(a.write(), bytes([3, 1, 0, 0, 0, 0, 252, 254]) + bytes(504))
        self.assertEqual(Problem.read(a.write()), a)
        self.assertEqual(lines(a), "sat 0\n")

    def test_b_one_open_bit(self):
        self.assertEqual(Problem([BIT]).solve(), GaveUp(0))
        self.assertEqual(Problem([BIT], limit=1).solve(), Found([0], 1))
        self.assertEqual(lines(Problem([BIT])), "unknown 0\n")

    def test_c_sums_wrap_at_the_words_own_width(self):
        for width in (4, 64):
            ones = (1 << width) - 1
            c = Problem([Word.fixed(width, ones), Word.fixed(width, 1), Word.open(width)], [Rule.add(2, 0, 1)])
            self.assertEqual(c.tighten(), Tight(c.words[:2] + [Word.fixed(width, 0)]))
            self.assertEqual(c.solve(), Found([ones, 1, 0], 0))

    def test_d_a_word_that_differs_from_itself(self):
        d = Problem([BIT], [Rule.ne(0, 0)], GUESSES)
        self.assertEqual(d.tighten(), Tight([BIT]))
        self.assertEqual(d.solve(), NoSettings(1))
        self.assertEqual(d.cause(), Cause([0], 2))
        self.assertEqual(lines(d), "unsat 1\ncause 2 0\n")
        d.limit = 0
        self.assertEqual(d.solve(), GaveUp(0))
        self.assertEqual(d.cause(), GaveUp(0))

    def test_e_the_highest_open_bit_is_guessed(self):
        self.assertEqual(Problem([Word.open(2), Word.fixed(2, 0)], [Rule.ne(0, 1)], GUESSES).solve(), Found([1, 0], 1))

    def test_f_two_words_with_a_sum(self):
        f = Problem(SUM, [Rule.add(2, 0, 1)], 15)
        self.assertEqual(f.tighten(), Tight(SUM))
        self.assertEqual(f.solve(), Found([0, 3, 3], 2))
        self.assertEqual(f.explain(0, Place.A, 1), Free())

    def test_g_two_words_with_a_sum_and_an_order(self):
        g = Problem(SUM, [Rule.add(2, 0, 1), Rule.ule(1, 0)], 100)
        self.assertEqual(g.solve(), Found([2, 1, 3], 2))
        self.assertEqual(g.cause(), Exists(2))
        self.assertEqual(lines(g), "sat 2\n0 2 10\n1 2 01\n2 2 11\n")
        self.assertEqual(Problem.read(g.write()), g)

    def test_h_the_cause_is_not_every_rule_that_was_touched(self):
        h = Problem([BIT, BIT], [Rule.ult(0, 1), Rule.ult(0, 1), Rule.ne(0, 1), Rule.ult(1, 0)], GUESSES)
        self.assertEqual(h.tighten(), Conflict())
        self.assertEqual(h.solve(), NoSettings(0))
        self.assertEqual(h.cause(), Cause([0, 3], 0))
        self.assertEqual(lines(h), "unsat 0\ncause 0 0 3\n")

    def test_i_an_order_forces_the_highest_bit(self):
        high = Word(4, 8, 15)
        i = Problem([high, Word.open(4)], [Rule.ule(0, 1)])
        self.assertEqual(i.explain(0, Place.B, 3), Forced(1, reason(67)))
        self.assertEqual(i.explain(0, Place.B, 2), Free())
        self.assertEqual(i.tighten(), Tight([high, high]))

    def test_j_a_difference_forces_the_last_open_bit(self):
        j = Problem([Word.fixed(3, 5), Word(3, 5, 7)], [Rule.ne(0, 1)])
        self.assertEqual(j.explain(0, Place.B, 1), Forced(1, reason(64, 65, 66, 128, 130)))

    def test_k_a_product_of_bits_forces_0(self):
        zero, one = Word.fixed(1, 0), Word.fixed(1, 1)
        self.assertEqual(Problem([zero, BIT, one], [Rule.and_(0, 1, 2)]).explain(0, Place.A, 0), Forced(0, reason(0, 128)))
        self.assertEqual(Problem([one, BIT, zero], [Rule.and_(0, 1, 2)]).explain(0, Place.A, 0), Conflict(reason(0, 128)))

    def test_l_the_last_that_passes_and_the_first_that_is_refused(self):
        fixed, four = Word.fixed(1, 0), [Word.open(4), Word.open(8)]
        cases = [
            (Problem(limit=GUESSES), Problem(limit=GUESSES + 1), Fault.LIMIT),
            (Problem([fixed] * WORDS), Problem([fixed] * (WORDS + 1)), Fault.SIZE),
            (Problem([fixed], [Rule.ule(0, 0)] * RULES), Problem([fixed], [Rule.ule(0, 0)] * (RULES + 1)), Fault.SIZE),
            (Problem(four, [Rule.slice(0, 1, 4)]), Problem(four, [Rule.slice(0, 1, 5)]), Fault.FIT),
            (Problem(four, [Rule.shl(0, 0, 255)]), Problem(four, [Rule.shl(0, 1, 0)]), Fault.FIT),
        ]
        for passes, refused, fault in cases:
            self.assertIsNone(passes.check())
            self.assertEqual(Problem.read(passes.write()), passes)
            for call in (refused.check, refused.solve):
                with self.assertRaises(Refusal) as caught:
                    call()
                self.assertEqual(caught.exception, Refusal(fault, 0))

    def test_l_a_shift_may_be_as_long_as_the_word_and_longer(self):
        for rule in (Rule.shl(0, 1, 4), Rule.shr(0, 1, 4), Rule.shl(0, 1, 255), Rule.shr(0, 1, 255)):
            board = Problem([Word.open(4), Word.open(4)], [rule], limit=4)
            self.assertIsNone(board.check(), rule)
            self.assertEqual(board.tighten(), Tight([Word.fixed(4, 0), Word.open(4)]), rule)
            self.assertEqual(board.solve(), Found([0, 0], 4), rule)
            self.assertEqual(board.explain(0, Place.R, 3), Forced(0, []), rule)
            self.assertEqual(board.explain(0, Place.A, 3), Free(), rule)

    def test_a_reason_may_be_empty(self):
        self.assertEqual(Problem([Word.open(4), Word.open(4)], [Rule.shl(0, 1, 2)]).explain(0, Place.R, 1), Forced(0, []))

    def test_a_cause_may_be_out_of_reach_where_the_whole_is_not(self):
        trial = Problem([Word.fixed(1, 0), BIT], [Rule.ult(1, 0), Rule.copy(0, 0)])
        self.assertEqual(trial.solve(), NoSettings(0))
        self.assertEqual(trial.cause(), GaveUp(0))
        self.assertEqual(lines(trial), "unsat 0\ncause unknown 0\n")

    def test_every_result_is_computed(self):
        fixed = [Word.fixed(4, 12), Word.fixed(4, 10), Word.fixed(1, 0)]
        cases = [
            (Rule.copy(3, 0), 4, 12),
            (Rule.not_(3, 0), 4, 3),
            (Rule.and_(3, 0, 1), 4, 8),
            (Rule.or_(3, 0, 1), 4, 14),
            (Rule.xor(3, 0, 1), 4, 6),
            (Rule.add(3, 0, 1), 4, 6),
            (Rule.ite(3, 0, 1, 2), 4, 10),
            (Rule.slice(3, 0, 1), 3, 6),
            (Rule.join(3, 0, 1), 8, 202),
            (Rule.shl(3, 0, 1), 4, 8),
            (Rule.shr(3, 0, 2), 4, 3),
            (Rule.shl(3, 0, 4), 4, 0),
            (Rule.shr(3, 0, 64), 4, 0),
        ]
        for rule, width, value in cases:
            self.assertEqual(Problem(fixed + [Word.open(width)], [rule]).solve(), Found([12, 10, 0, value], 0), rule)

    def test_every_comparison_holds_or_is_a_conflict(self):
        words = [Word.fixed(4, 10), Word.fixed(4, 12), Word.fixed(4, 12)]
        for rule in (Rule.ule(0, 1), Rule.ule(1, 2), Rule.ult(0, 1), Rule.ne(0, 1)):
            self.assertEqual(Problem(words, [rule]).tighten(), Tight(words), rule)
        for rule in (Rule.ule(1, 0), Rule.ult(1, 2), Rule.ult(1, 0), Rule.ne(1, 2)):
            self.assertEqual(Problem(words, [rule]).tighten(), Conflict(), rule)

    def test_the_deepest_search_in_a_thread_of_its_own(self):
        """2,048 levels on the stack that Python gives a thread."""
        came = []
        deepest = Problem([Word.open(64)] * WORDS, [Rule.ule(31, 31)], GUESSES)
        thread = threading.Thread(target=lambda: came.append(deepest.solve()))
        thread.start()
        thread.join()
        self.assertEqual(came, [Found([0] * WORDS, 2048)])


if __name__ == "__main__":
    unittest.main()
