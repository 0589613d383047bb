#!/usr/bin/env python3
"""Tests of the smallest cache for a miss allowance: the first of all sizes that suffices, by a store that reads the log
at each of them, and all that the call can be handed.

Run python/build first. The store is the one of test_one_more.py, simulated extent by extent, without distances.
"""
import ctypes
import functools
import itertools
import random
import sys
import unittest
from array import array

sys.dont_write_bytecode = True
import jemqolu  # noqa: E402
from jemqolu import MAX_EXTENTS, MAX_READS, Smallest, smallest  # noqa: E402
from test_answers import cut_in_three, summary_of  # noqa: E402
from test_jemqolu import LOG, MOST, ONES, SUMMARY, Beside, Index, Refusing  # noqa: E402
from test_jemqolu import bad_summaries, words_in_all_forms  # noqa: E402
from test_limits import EXTENTS, PARTS  # noqa: E402
from test_one_more import Doing, counted, emptying, misses_of  # noqa: E402

# allowances that suffice for every log, some of which are negative or small where bits are cut off
LARGE = (MAX_READS, MAX_READS + 1, (1 << 31) - 1, 1 << 31, (1 << 31) + 2, MOST - 1, MOST)


def all_misses(log):
    """The misses of every size from 0 to the number of extents, by the store; a larger one misses no fewer."""
    return [counted(log, size) for size in range(len(set(log)) + 1)]


def first_within(misses, allowed):
    """The place of the first of these misses that is at most so many, or None."""
    return next((size for size, count in enumerate(misses) if count <= allowed), None)


def around(misses):
    """Allowances at, below and above each of these misses, the smallest and the large ones."""
    return sorted({0, 1, *LARGE, *(count + step for count in misses for step in (-1, 0, 1) if count + step >= 0)})


def reads_of(source, extents, count):
    """So many reads of the extents, the first of them more often than the last."""
    return source.choices(extents, [1 / rank for rank in range(1, len(extents) + 1)], k=count)


class Sizes(Refusing):
    """What the call answers."""

    def compare(self, words, misses, allowances):
        """The call answers the first of the misses within each allowance, or is refused where there is none."""
        for allowed in allowances:
            size = first_within(misses, allowed)
            if size is None:
                self.refused(12, smallest, words, allowed)
            else:
                self.assertEqual(smallest(words, allowed), (size, size), (misses, allowed))

    def test_rows(self):
        self.assertEqual([smallest(SUMMARY, misses).size for misses in (7, 6, 5, 4, 3)], [0, 1, 2, 2, 3])
        self.refused(12, smallest, SUMMARY, 2)
        # no read has distance 2: size 2 misses as often as size 1
        zero = jemqolu.summarize([1, 1, 2, 3, 1])
        self.assertEqual(all_misses((1, 1, 2, 3, 1)), [5, 4, 4, 3])
        self.assertEqual([smallest(zero, misses).size for misses in (6, 5, 4, 3)], [0, 0, 1, 3])
        self.refused(12, smallest, zero, 2)

    def test_the_answer_has_names(self):
        answer = smallest(SUMMARY, 4)
        self.assertEqual((type(answer), answer.size, answer.words_read), (Smallest, 2, 2))
        self.assertEqual(repr(answer), "Smallest(size=2, words_read=2)")

    def test_a_log_of_no_reads(self):
        for misses in (0, 1, 2, *LARGE):
            self.assertEqual(smallest([0, 0], misses), (0, 0))

    def test_all_short_logs(self):
        for log in (log for reads in range(7) for log in itertools.product((0, 7, 9, MOST), repeat=reads)):
            self.compare(summary_of(log), all_misses(log), (*range(len(log) + 2), MOST))

    def test_longer_logs(self):
        source = random.Random(9)
        for turn in range(24):
            extents = source.sample(EXTENTS, (5, 20, 60)[turn % 3])
            log = tuple(reads_of(source, extents, source.randrange(300)))
            misses = all_misses(log)
            self.compare(jemqolu.summarize(log), misses, around(misses))

    def test_logs_of_the_most_extents(self):
        source = random.Random(10)
        for _ in range(12):
            log = EXTENTS + reads_of(source, EXTENTS, 2000)
            words = jemqolu.summarize(log)
            for allowed in (MAX_EXTENTS, MAX_EXTENTS + 1, source.randrange(MAX_EXTENTS, len(log)), len(log) - 1):
                size = smallest(words, allowed).size
                self.assertLessEqual(misses_of(log, size), allowed)
                self.assertGreater(misses_of(log, size - 1), allowed)
            self.assertEqual(smallest(words, len(log)), (0, 0))

    def test_logs_of_the_most_reads(self):
        for extents in (1, 2, MAX_EXTENTS):
            words = jemqolu.summarize(array("I", EXTENTS[:extents] * (MAX_READS // extents)))
            self.compare(words, [MAX_READS] * extents + [extents], [*range(extents + 2), MAX_READS - 1, *LARGE])

    def test_words_that_no_log_has(self):
        source = random.Random(11)
        for turn in range(60):
            extents = EXTENTS[: turn % 20]
            counts = [source.choice((0, 0, 1, 5)) for _ in extents]
            words = [len(extents) + sum(counts), len(extents), *extents, *source.sample(extents, len(extents)), *counts]
            misses = [len(extents) + sum(counts[size:]) for size in range(len(extents) + 1)]
            self.assertEqual([jemqolu.misses(words, size) for size in range(len(extents) + 1)], misses)
            self.compare(words, misses, around(misses))

    def test_joined_summaries(self):
        for log in ((1, 1, 2, 3, 1), tuple(LOG), (5, 6, 5, 5, 6, 8, 8)):
            for a, b, c in cut_in_three(log):
                joined = jemqolu.join(jemqolu.join(summary_of(a), summary_of(b)), summary_of(c))
                self.compare(joined, all_misses(log), range(len(log) + 2))
        joined = functools.reduce(jemqolu.join, map(jemqolu.summarize, PARTS))
        misses = [jemqolu.misses(joined, size) for size in range(MAX_EXTENTS + 1)]
        self.compare(joined, misses, {MAX_EXTENTS - 1, *misses[::50], *misses[-9:]})


class Refusals(Refusing):
    """Each refusal under its condition only, and the first of those that apply."""

    def test_fewer_misses_than_cold_reads(self):
        for cold in (1, 2, 3, 255, 256, 257, MAX_EXTENTS - 1, MAX_EXTENTS):
            for again in ([], EXTENTS[:1], EXTENTS[:cold]):
                words = jemqolu.summarize(EXTENTS[:cold] + again)
                self.assertEqual(smallest(words, cold).size, cold if again else 0)
                for misses in {0, cold // 2, cold - 1}:
                    self.refused(12, smallest, words, misses)

    def test_bad_summaries(self):
        for words in bad_summaries():
            for misses in (0, 1, 2, 3, 4, MAX_EXTENTS, MAX_EXTENTS + 1, MAX_READS, MOST):
                self.refused(5, smallest, words, misses)
        for words in (SUMMARY[:-1], SUMMARY + [0], [8, *SUMMARY[1:]], [*SUMMARY[:5], 7, *SUMMARY[6:]]):
            for misses in (*range(10), MOST):
                self.refused(5, smallest, words, misses)

    def test_a_refusal_leaves_the_words_read(self):
        words = array("I", [5, 77, 5])
        read = ctypes.c_uint32.from_buffer(words, 4)
        for number, summary, misses in ((5, SUMMARY[1:], 4), (5, SUMMARY[:-1], 2), (12, SUMMARY, 2), (12, SUMMARY, 0)):
            with memoryview(array("I", summary)) as lent:
                self.refused(number, jemqolu._call, "smallest", lent, misses, ctypes.byref(read))
            self.assertEqual(words.tolist(), [5, 77, 5])
        for misses, size in ((4, 2), (7, 0)):
            with memoryview(array("I", SUMMARY)) as lent:
                self.assertEqual(jemqolu._call("smallest", lent, misses, ctypes.byref(read)), size)
            self.assertEqual(words.tolist(), [5, size, 5])


class Arguments(Refusing):
    """What the call takes; other words and numbers are tested in test_jemqolu.py, with those of all calls."""

    def test_summaries_in_all_forms(self):
        for words in words_in_all_forms(SUMMARY):
            self.assertEqual(smallest(words, 4), (2, 2))
        for none in words_in_all_forms([]):
            self.refused(5, smallest, none, 4)
        words = array("I", SUMMARY)
        smallest(words, 4)
        self.assertEqual(words.tolist(), SUMMARY)
        words.append(1)

    def test_allowances(self):
        for misses in (b"4", 4j, object(), array("I", [4]), ctypes.c_uint32(4), Index("4"), Index(4.0), Index(None)):
            self.assertRaises(TypeError, smallest, SUMMARY, misses)
        for misses in (-1, 4 - (1 << 32), 4 + (1 << 32), 4 - (1 << 64), 4 + (1 << 64), Index(-1), Index(MOST + 1)):
            self.assertRaises(OverflowError, smallest, SUMMARY, misses)
        self.assertEqual([smallest(ONES, misses).size for misses in (Index(2), Index(1), True)], [0, 1, 1])
        self.refused(12, smallest, ONES, False)

    def test_lengths_that_are_not_true(self):
        class Lying(list):
            def __len__(self):
                return length

            __length_hint__ = __len__

        for length in (0, 1, len(SUMMARY) - 1, len(SUMMARY) + 1, 1 << 20):
            self.assertEqual(smallest(Lying(SUMMARY), 4), (2, 2))

    def test_allowances_that_empty_the_summary(self):
        words, numbers = array("I", SUMMARY), SUMMARY[:]
        # held while the library reads it
        self.assertRaises(BufferError, smallest, words, emptying(words, 4))
        self.assertEqual(words.tolist(), SUMMARY)
        # copied before the allowance is asked for
        self.assertEqual((smallest(numbers, emptying(numbers, 4)), numbers), ((2, 2), []))

    def test_allowances_that_release_a_view(self):
        held = array("I", SUMMARY)
        view = memoryview(held)
        self.assertEqual(smallest(view, Doing(4, view.release)), (2, 2))
        self.assertRaises(ValueError, smallest, view, 4)
        held.append(1)

    def test_a_failed_call_lets_go(self):
        words, failures = array("I", SUMMARY), []
        for misses in (2, None, MOST + 1, Doing(4, lambda: 1 // 0)):
            try:
                smallest(words, misses)
            except (jemqolu.Refusal, TypeError, OverflowError, ZeroDivisionError) as failure:
                failures.append(failure)
                words.append(words.pop())
        self.assertEqual(len(failures), 4)

    def test_numbers_that_empty_their_list(self):
        words = [Index(number) for number in SUMMARY]
        words[3] = emptying(words, SUMMARY[3])
        self.assertEqual((smallest(words, 4), words), ((2, 2), []))


class Threads(Beside):
    """Another thread beside the call; one that writes to the words is tested in test_jemqolu.py."""

    def test_summaries_that_another_thread_resizes(self):
        for words in (array("I", SUMMARY), SUMMARY[:]):
            self.beside(self.resizing(words, words[:]), lambda: smallest(words, 4), 1000)


if __name__ == "__main__":
    unittest.main()
