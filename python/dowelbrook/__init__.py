"""Dowelbrook's calls for Python, over its proved library.

Rings are sequences of whole numbers, lists, tuples, arrays or NumPy arrays, and what a call writes comes back as the
kind that was given (of two rings, as the kind of the last):

>>> mix([1, 2, 0], [1, 0, 5], 10)
[1, 2, 5]
>>> from array import array
>>> unmix([1, 2, 0], array("I", [1, 2, 5]), 10)
array('I', [1, 0, 5])

What a call refuses is raised, in words and with its numbers:

>>> try:
...     mix([1, 2, 0], [1, 10, 5], 10)
... except Refusal as refusal:
...     print(refusal)
...     print(refusal.number, refusal.name, refusal.ring, refusal.place)
refused 6: entry 1 of ring b is 10, not below the modulus 10
6 COEFFICIENT 2 1

>>> try:
...     invert([1, 2, 0], 18, factors=[(2, 1), (9, 1)])
... except Refusal as refusal:
...     print(refusal)
...     print(refusal.number, refusal.name, refusal.place)
refused 11: entry 1 of the factor list 2^1 9^1: 9 is not a prime
11 PRIME 1

What is no ring never gets that far:

>>> mix([1, 2, 0], [1, -1, 5], 10)
Traceback (most recent call last):
ValueError: entry 1 of ring b: -1 is not from 0 to 4294967295
>>> mix([1, 2, 0], {1, 0, 5}, 10)
Traceback (most recent call last):
TypeError: ring b: a sequence of whole numbers is wanted, such as a list, not of type set
"""

from .calls import factor, fold, invert, mix, reduce, same_feeding, unmix
from .logger import Logger
from .numbers import NUMBERS
from .refusals import Refusal, Singular
from .sheets import Sheet, read_sheet, report
from .version import __version__

__all__ = [
    "Logger",
    "NUMBERS",
    "Refusal",
    "Sheet",
    "Singular",
    "__version__",
    "factor",
    "fold",
    "invert",
    "mix",
    "read_sheet",
    "reduce",
    "report",
    "same_feeding",
    "unmix",
]
