"""Lent memory: the lengths of `numbers` are the least that each call takes, memory is left as promised, and what the library cannot test is tested."""
import ctypes
import unittest
from array import array

from sievecrest import Answer, Fault, numbers, raw

DIRT = 7


def dirty(kind, length):
    """Memory with a pattern, so that a write shows."""
    return bytearray([DIRT] * length) if kind == "B" else array(kind, [DIRT] * length)


def is_dirty(memory):
    return all(number == DIRT for number in memory)


def is_clear(memory):
    return not any(memory)


def packed(number, count=0, more=0):
    return number + (count << numbers.COUNT_SHIFT) + (more << numbers.MORE_SHIFT)


# board E: word 0 of width 2 is open, word 1 is 0, and they differ; the first settings are 1 and 0, after 1 guess
E = array("Q", [2, 0, 3, 2, 0, 0]), bytearray([14, 0, 0, 1, 0, 0])
# board D: word 0 of width 1 is open and differs from itself, which rule 0 alone says; 2 guesses in all
D = array("Q", [1, 0, 1]), bytearray([14, 0, 0, 0, 0, 0])


class Lengths(unittest.TestCase):
    def test_tighten(self):
        words, rules = array("Q", [4, 8, 15, 4, 0, 15]), bytearray([12, 0, 0, 1, 0, 0])
        short = dirty("Q", numbers.TIGHTEN_WORK - 1)
        self.assertEqual(raw.tighten(words, rules, short), Fault.SIZE)
        self.assertEqual(list(words), [4, 8, 15, 4, 0, 15])
        self.assertTrue(is_dirty(short))
        work = dirty("Q", numbers.TIGHTEN_WORK)
        self.assertEqual(raw.tighten(words, rules, work), Answer.TIGHT)
        self.assertEqual(list(words), [4, 8, 15, 4, 8, 15])
        self.assertTrue(is_clear(work))

    def test_solve(self):
        for model_length, work_length in ((1, numbers.SOLVE_WORK), (2, numbers.SOLVE_WORK - 1), (0, 0)):
            model, work = dirty("Q", model_length), dirty("Q", work_length)
            self.assertEqual(raw.solve(*E, 9, model, work), Fault.SIZE)
            self.assertTrue(is_dirty(model) and is_dirty(work))
        model, work = dirty("Q", 3), dirty("Q", numbers.SOLVE_WORK)
        self.assertEqual(raw.solve(*E, 9, model, work), packed(Answer.FOUND, 1))
        self.assertEqual(list(model), [1, 0, DIRT])
        self.assertTrue(is_clear(work))

    def test_explain(self):
        words, rules = array("Q", [1, 0, 0, 1, 0, 1, 1, 1, 1]), bytearray([3, 0, 1, 2, 0, 0])
        short = dirty("H", numbers.REASON_ENTRIES - 1)
        self.assertEqual(raw.explain(words, rules, 0, 1, 0, short), Fault.SIZE)
        self.assertTrue(is_dirty(short))
        entries = dirty("H", numbers.REASON_ENTRIES)
        self.assertEqual(raw.explain(words, rules, 0, 1, 0, entries), packed(Answer.FORCED, 0, 2))
        self.assertEqual(list(entries[:2]), [0, 128])
        self.assertTrue(is_dirty(entries[2:]))

    def test_cause(self):
        for list_length, work_length in ((0, numbers.CAUSE_WORK), (1, numbers.CAUSE_WORK - 1)):
            entries, work = dirty("H", list_length), dirty("Q", work_length)
            self.assertEqual(raw.cause(*D, 9, entries, work), Fault.SIZE)
            self.assertTrue(is_dirty(entries) and is_dirty(work))
        entries, work = dirty("H", 2), dirty("Q", numbers.CAUSE_WORK)
        self.assertEqual(raw.cause(*D, 9, entries, work), packed(Answer.CAUSE, 2, 1))
        self.assertEqual(list(entries), [0, DIRT])
        self.assertTrue(is_clear(work))

    def file_of_e(self):
        """The file of board E with limit 9: a block of words, one of rules, one end block."""
        file = dirty("B", numbers.FILE_BYTES)
        self.assertEqual(raw.write(*E, 9, file), packed(Answer.OK, 1536))
        self.assertTrue(is_dirty(file[1536:]))
        return bytes(file[:1536])

    def test_write(self):
        short, enough = dirty("B", 1535), dirty("B", 1536)
        self.assertEqual(raw.write(*E, 9, short), Fault.SIZE)
        self.assertTrue(is_dirty(short))
        self.assertEqual(raw.write(*E, 9, enough), packed(Answer.OK, 1536))
        self.assertEqual(enough, self.file_of_e())

    def test_read(self):
        most_words, most_rules = numbers.STRIDE * numbers.WORDS, numbers.FIELDS * numbers.RULES
        for words_length, rules_length in ((most_words - 1, most_rules), (most_words, most_rules - 1)):
            words, rules = dirty("Q", words_length), dirty("B", rules_length)
            self.assertEqual(raw.read(self.file_of_e(), words, rules), Fault.SIZE)
            self.assertTrue(is_dirty(words) and is_dirty(rules))
        words, rules = dirty("Q", most_words), dirty("B", most_rules)
        self.assertEqual(raw.read(self.file_of_e(), words, rules), packed(Answer.OK, 9, 2) + (1 << numbers.RULES_SHIFT))
        self.assertEqual((words[:6], rules[:6]), E)
        self.assertTrue(is_dirty(words[6:]) and is_dirty(rules[6:]))

    def test_advise(self):
        for out_length, work_length in ((numbers.LINES_BYTES - 1, numbers.ADVISE_WORK), (numbers.LINES_BYTES, numbers.ADVISE_WORK - 1)):
            out, work = dirty("B", out_length), dirty("Q", work_length)
            self.assertEqual(raw.advise(self.file_of_e(), out, work), Fault.SIZE)
            self.assertTrue(is_dirty(out) and is_dirty(work))
        out, work = dirty("B", numbers.LINES_BYTES), dirty("Q", numbers.ADVISE_WORK)
        self.assertEqual(raw.advise(self.file_of_e(), out, work), packed(Answer.OK, 20))
        self.assertEqual(out[:20], b"sat 1\n0 2 01\n1 2 00\n")
        self.assertTrue(is_dirty(out[20:]) and is_clear(work))

    def test_limits_are_of_32_bits(self):
        self.assertEqual(raw.check(*E, numbers.GUESSES), Answer.OK)
        self.assertEqual(raw.check(*E, numbers.GUESSES + 1), Fault.LIMIT)
        self.assertEqual(raw.check(*E, (1 << 32) - 1), Fault.LIMIT)
        for limit in (1 << 32, -1):
            self.assertRaises(OverflowError, raw.check, *E, limit)

    def test_nothing_may_be_lent(self):
        none = array("Q")
        self.assertEqual(raw.check(none, b"", 0), Answer.OK)
        self.assertEqual(raw.solve(none, bytearray(), 0, array("Q"), dirty("Q", numbers.SOLVE_WORK)), Answer.FOUND)
        self.assertEqual(raw.read(b"", array("Q"), bytearray()), Fault.SIZE)
        self.assertEqual(raw.advise(b"", bytearray(), array("Q")), Fault.SIZE)


class Buffers(unittest.TestCase):
    def test_other_kinds_of_numbers(self):
        for words in (bytearray(6), array("I", [1, 0, 1]), [1, 0, 1], memoryview(bytes(24)).cast("Q", [3, 1]), memoryview(array("Q", [0] * 6))[::2]):
            self.assertRaises(TypeError, raw.check, words, bytearray(), 0)
        self.assertRaises(TypeError, raw.check, E[0], array("Q", [0] * 6), 0)
        self.assertRaises(TypeError, raw.explain, *E, 0, 0, 0, array("Q", [0] * 193))

    def test_what_is_only_read_may_be_any_buffer(self):
        words, rules = E
        for lent in (memoryview(bytes(words)).cast("Q"), memoryview(words), (ctypes.c_uint64 * 6)(*words)):
            self.assertEqual(raw.check(lent, bytes(rules), 0), Answer.OK)

    def test_what_is_written_must_be_writable(self):
        self.assertRaises(TypeError, raw.write, *E, 9, bytes(1536))
        self.assertRaises(TypeError, raw.solve, *E, 9, memoryview(bytes(16)).cast("Q"), dirty("Q", numbers.SOLVE_WORK))

    def test_buffers_that_overlap(self):
        work = dirty("Q", 2 * numbers.SOLVE_WORK)
        view = memoryview(work)
        for model, rest in ((work, work), (view[:2], view[1:]), (view[-1:], view[1:])):
            with self.assertRaisesRegex(ValueError, "overlaps"):
                raw.solve(*E, 9, model, rest)
        self.assertTrue(is_dirty(work))
        self.assertEqual(raw.solve(*E, 9, view[:2], view[2:]), packed(Answer.FOUND, 1))
        self.assertEqual(list(work[:2]), [1, 0])
        numbers_twice = dirty("Q", 320)
        self.assertRaises(ValueError, raw.tighten, numbers_twice, b"", numbers_twice)

    def test_buffers_that_are_not_aligned(self):
        odd = memoryview(bytearray(8 * 3 + 8))
        start = ctypes.addressof(ctypes.c_char.from_buffer(odd)) % 8
        words = odd[(1 - start) % 8 :][:24].cast("Q")
        with self.assertRaisesRegex(ValueError, "not aligned"):
            raw.check(words, b"", 0)


if __name__ == "__main__":
    unittest.main()
