"""The answers that are more than a number, for python/jemqolu.py, which hands them on: those of reads, cold with a number
or a reuse distance, that of a split, and the smallest size with the words read."""
import operator
from array import array
from collections.abc import Sequence
from typing import NamedTuple

# a cold read is written as this plus its number, any other read as its reuse distance
COLD_BASE = 65_536
# the largest number of 32 bits
MOST = 4_294_967_295


def number_of(value, most=MOST):
    """The value, where it is a number from 0 to `most`, else OverflowError is raised."""
    number = operator.index(value)
    if not 0 <= number <= most:
        raise OverflowError("a number from 0 to {:,} is wanted".format(most))
    return number


class Answer:
    """A read's answer, which cannot be changed. `word` is as the library writes it: a distance where it is below
    COLD_BASE, otherwise COLD_BASE plus a cold read's number. A number that makes no such word raises OverflowError."""

    __slots__ = ("word",)

    def __new__(cls, word):
        answer = super().__new__(cls)
        object.__setattr__(answer, "word", number_of(word))
        return answer

    @classmethod
    def at(cls, distance):
        """The answer of a read of this reuse distance."""
        return cls(number_of(distance, COLD_BASE - 1))

    @classmethod
    def newcomer(cls, number):
        """The answer of a cold read of this number."""
        return cls(COLD_BASE + number_of(number, MOST - COLD_BASE))

    @property
    def cold(self):
        """Whether this is the first read of its extent."""
        return self.word >= COLD_BASE

    @property
    def number(self):
        """How many different extents the log has had, itself included, so 1 for the first; None where it is not cold."""
        return self.word - COLD_BASE if self.cold else None

    @property
    def distance(self):
        """The reuse distance; None where it is cold."""
        return None if self.cold else self.word

    def __setattr__(self, name, *value):
        raise AttributeError("an Answer cannot be changed")

    __delattr__ = __setattr__

    def __reduce__(self):
        return Answer, (self.word,)

    def __eq__(self, other):
        return self.word == other.word if isinstance(other, Answer) else NotImplemented

    def __hash__(self):
        return hash(self.word)

    def __repr__(self):
        return "Answer.newcomer(%d)" % self.number if self.cold else "Answer.at(%d)" % self.distance

    def __str__(self):
        return "cold %d" % self.number if self.cold else "%d" % self.distance


class Answers(Sequence):
    """The answers of reads, in their order. `words` is the array('I') that they stand in as the library wrote it, 4 bytes
    each. An Answer is made when it is asked for; a slice is Answers with a copy of its words."""

    _SHOWN = 8

    def __init__(self, words):
        if not isinstance(words, array) or words.typecode != "I":
            raise TypeError("an array('I') of words is wanted")
        self.words = words

    def __len__(self):
        return len(self.words)

    def __getitem__(self, place):
        found = self.words[place]
        return Answers(found) if isinstance(found, array) else Answer(found)

    def __eq__(self, other):
        return self.words == other.words if isinstance(other, Answers) else NotImplemented

    def __repr__(self):
        shown = ", ".join(map(str, self[: self._SHOWN]))
        return "<Answers [%s%s]>" % (shown, ", ... %d in all" % len(self) if len(self) > self._SHOWN else "")


class Split(NamedTuple):
    """The misses in all, and the shares, one for each customer, as an array('I')."""

    misses: int
    shares: array


class Smallest(NamedTuple):
    """The size, and how many words of H the search for it read, which is the same number."""

    size: int
    words_read: int
