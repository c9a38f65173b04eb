"""Advises board makers on setup registers, for Python: types for words, rules, problems and answers over the proved library libsievecrest.a.

Given the words of a chip's registers, the bits that the board has fixed and the rules between them, it gives the first settings in word order, or says that
there are none and names conflicting rules. The library decides what is refused; this package adds types, lends memory of the right lengths, and checks
nothing that the library checks. `raw` has the calls over lent buffers.
"""
from .answers import Cause, Conflict, Exists, FixedBit, Forced, Found, Free, GaveUp, NoSettings, Place, Tight
from .decode import Mismatch
from .library import Unavailable
from .numbers import Answer, Fault
from .problem import Problem, advise
from .refusal import Refusal
from .rule import Kind, Rule
from .word import Word

__all__ = [
    "Answer",
    "Cause",
    "Conflict",
    "Exists",
    "Fault",
    "FixedBit",
    "Forced",
    "Found",
    "Free",
    "GaveUp",
    "Kind",
    "Mismatch",
    "NoSettings",
    "Place",
    "Problem",
    "Refusal",
    "Rule",
    "Tight",
    "Unavailable",
    "Word",
    "advise",
]
