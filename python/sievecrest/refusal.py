"""Refusals: the number of the first fault, and its place. A refusal is an exception that prints as one sentence."""
from .numbers import Fault

# what the place counts, where it counts something
COUNTED = {
    Fault.CHECK: "block",
    Fault.LAYOUT: "block",
    Fault.WIDTH: "word",
    Fault.TABLE: "word",
    Fault.KIND: "rule",
    Fault.FIELD: "rule",
    Fault.FIT: "rule",
}

# what is wrong, and what to do; the texts of the wrapper for Rust and of the C header
SENTENCES = {
    Fault.SIZE: "over 32 words or 252 rules, a record cut short, a file not of 1 to 7 blocks, or a short buffer; split it, give the whole file, or lend more",
    Fault.CHECK: "the block's sum is wrong; fetch the file again, or write it anew",
    Fault.LAYOUT: "the block cannot stand there; look at its kind, edition, number, record count and zeros, or write the file anew",
    Fault.WIDTH: "the word's width is not 1 to 64; give the register's width",
    Fault.TABLE: "the word's lo has a 1 where hi has 0, or a bound has a 1 at or above the width; look at what the board fixes",
    Fault.KIND: "the rule's kind is not 1 to 14; use the number of a kind",
    Fault.FIELD: "the rule names a word that is not there, or sets a field that its kind does not use; name a word, or clear the field",
    Fault.FIT: "the rule's widths, or the k of a SLICE, do not fit; compare the widths with what its kind asks for",
    Fault.LIMIT: "the limit is over 1000000; give a smaller one",
    Fault.ASK: "no such rule, a place that its kind does not use, or a bit not below the width or not open; ask for an open bit",
    Fault.EMPTY: "a cause without any rule, which is proved never to come; report it with the problem",
}


class Refusal(Exception):
    """The first fault of what a call was given: what is wrong, where, and what to do."""

    def __init__(self, number, place):
        super().__init__(number, place)
        self.number = Fault(number)
        """Which fault."""
        self.place = place
        """Where: the number of a block, a word or a rule; else 0."""

    def __str__(self):
        counted = COUNTED.get(self.number)
        where = f", {counted} {self.place}" if counted else ""
        return f"refused, {self.number.value} {self.number.name}{where}: {SENTENCES[self.number]}"

    def __eq__(self, other):
        return isinstance(other, Refusal) and (self.number, self.place) == (other.number, other.place)

    def __hash__(self):
        return hash((self.number, self.place))
