"""Made-up numbers: those that a call can return give their answers, every other one is a mismatch that says what to do."""
import unittest

from sievecrest import Answer, Cause, Fault, FixedBit, Forced, Mismatch, Place, Refusal, Rule, Word, decode
from sievecrest.numbers import COUNT_SHIFT, MORE_SHIFT

PROBLEM = [Fault.SIZE, Fault.WIDTH, Fault.TABLE, Fault.KIND, Fault.FIELD, Fault.FIT]
# each call over nothing lent, with the numbers that are its own
CALLS = {
    decode.check: [Answer.OK, Fault.LIMIT] + PROBLEM,
    lambda x: decode.tighten(x, []): [Answer.TIGHT, Answer.CONFLICT] + PROBLEM,
    lambda x: decode.solve(x, []): [Answer.FOUND, Answer.NONE, Answer.GAVE_UP, Fault.LIMIT] + PROBLEM,
    lambda x: decode.explain(x, []): [Answer.CONFLICT, Answer.FORCED, Answer.FREE, Fault.ASK] + PROBLEM,
    lambda x: decode.cause(x, []): [Answer.EXISTS, Answer.GAVE_UP, Answer.CAUSE, Fault.LIMIT, Fault.EMPTY] + PROBLEM,
    lambda x: decode.read(x, [], b""): [Answer.OK, Fault.CHECK, Fault.LAYOUT, Fault.LIMIT] + PROBLEM,
    lambda x: decode.write(x, b""): [Answer.OK, Fault.LIMIT] + PROBLEM,
    lambda x: decode.advise(x, b""): [Answer.OK],
}


def packed(number, count=0, more=0):
    return number + (count << COUNT_SHIFT) + (more << MORE_SHIFT)


class Decode(unittest.TestCase):
    def test_each_call_takes_its_own_numbers_and_no_other(self):
        for call, own in CALLS.items():
            for number in range(256):
                try:
                    call(number)
                    taken = number >= 32
                except Refusal as refusal:
                    taken = refusal == Refusal(number, 0)
                except Mismatch:
                    taken = False
                self.assertEqual(taken, number in own, number)

    def test_a_mismatch_says_what_to_do(self):
        wanted = "^the library answers solve by 41, 7, 3, which this package does not know: build both from the same sources$"
        with self.assertRaisesRegex(Mismatch, wanted):
            decode.solve(packed(Answer.CAUSE, 7, 3), [])

    def test_a_number_where_nothing_can_stand_is_a_mismatch(self):
        for call, number in (
            (decode.check, packed(Answer.OK, 1)),
            (decode.check, packed(Fault.FIT, 2, 1)),
            (lambda x: decode.tighten(x, []), packed(Answer.TIGHT, 1)),
            (lambda x: decode.tighten(x, []), packed(Answer.CONFLICT, 0, 1)),
            (lambda x: decode.solve(x, []), packed(Answer.FOUND, 1, 1)),
            (lambda x: decode.explain(x, []), packed(Answer.FREE, 0, 1)),
            (lambda x: decode.explain(x, []), packed(Answer.FORCED, 2)),
            (lambda x: decode.explain(x, [0] * 193), packed(Answer.FORCED, 1, 194)),
            (lambda x: decode.explain(x, [256]), packed(Answer.CONFLICT, 0, 1)),
            (lambda x: decode.cause(x, []), packed(Answer.EXISTS, 1, 1)),
            (lambda x: decode.cause(x, [0] * 3), packed(Answer.CAUSE, 0, 4)),
            (lambda x: decode.read(x, [0] * 96, bytes(1512)), packed(Answer.OK, 0, 33)),
            (lambda x: decode.read(x, [0] * 96, bytes(1512)), packed(Answer.OK, 0, 253 << 8)),
            (lambda x: decode.write(x, bytes(512)), packed(Answer.OK, 512, 1)),
            (lambda x: decode.write(x, bytes(3584)), packed(Answer.OK, 3585)),
            (lambda x: decode.advise(x, bytes(2304)), packed(Answer.OK, 2305)),
        ):
            self.assertRaises(Mismatch, call, number)

    def test_lists_are_cut_to_their_entries(self):
        reason = [FixedBit(Place.A, 3), FixedBit(Place.S, 0)]
        self.assertEqual(decode.explain(packed(Answer.FORCED, 1, 2), [67, 192, 9]), Forced(1, reason))
        self.assertEqual(decode.cause(packed(Answer.CAUSE, 5, 2), [0, 3, 9, 9]), Cause([0, 3], 5))

    def test_a_read_problem_has_its_words_rules_and_limit(self):
        came = decode.read(packed(Answer.OK, 77, 1 + (2 << 8)), [3, 0, 7, 9, 9, 9], bytes([14, 0, 1, 2, 0, 0, 1, 2, 3, 0, 0, 0, 8]))
        self.assertEqual(came, ([Word.open(3)], [Rule.ne(1, 2), Rule.copy(2, 3)], 77))


if __name__ == "__main__":
    unittest.main()
