#!/usr/bin/env python3
"""Tests of what one more read can do: the change of the misses, by a store that reads both logs, and all that the call can
be handed.

Run python/build first. The store is simulated extent by extent, without distances.
"""
import ctypes
import functools
import itertools
import random
import sys
import threading
import unittest
from array import array
from collections import OrderedDict

sys.dont_write_bytecode = True
import jemqolu  # noqa: E402
from jemqolu import MAX_EXTENTS, MAX_READS, one_more  # noqa: E402
from test_jemqolu import LOG, MOST, Beside, Index, Refusing, words_in_all_forms  # noqa: E402
from test_limits import EXTENTS, MORE  # noqa: E402

# numbers above the length of every log, some of which are small modulo a power of 2
FAR = (MOST, MOST + 1, MOST + 2, sys.maxsize, sys.maxsize + 1, (1 << 64) - 1, 1 << 64, (1 << 64) + 1, 1 << 20_000)


def misses_of(log, size):
    """The misses of a store of this size: the extents that it holds, the one whose last read is oldest first."""
    held, misses = OrderedDict(), 0
    for extent in log:
        if extent in held:
            held.move_to_end(extent)
            continue
        misses += 1
        if held and len(held) == size:
            held.popitem(last=False)
        if size:
            held[extent] = True
    return misses


# the misses of a short log, counted once for all logs that it is made from
counted = functools.lru_cache(maxsize=None)(misses_of)


def with_read(log, place, extent):
    """The log with the read put in."""
    return (*log[:place], extent, *log[place:])


def stray(size):
    """A log and a read put in that does the most harm to a store of this size, with the change."""
    return [*range(size)] * 2, size, size, size, size + 1


def spared(size):
    """A log and a read put in that spares a store of this size, 2 or more, a miss, with the change."""
    return [*range(size + 1), 0], size, 0, size, -1


class Doing(Index):
    """A number that does something whenever it is asked for."""

    def __init__(self, value, act):
        super().__init__(value)
        self.act = act

    def __index__(self):
        self.act()
        return self.value


def emptying(cells, value):
    """A number that takes all cells away whenever it is asked for."""
    return Doing(value, lambda: cells.__delitem__(slice(None)))


class Changes(unittest.TestCase):
    """What the call answers."""

    def compare(self, rows):
        for *asked, change in rows:
            self.assertEqual(one_more(*asked), change, "log, place, extent, size: %r" % asked)

    def test_rows(self):
        self.compare([([4, 4], 1, 5, 1, 2), ([1, 2, 3, 1], 2, 1, 2, -1), ([1, 2, 1, 2], 2, 3, 2, 3)])
        self.compare([([4, 4], place, 5, 0, 1) for place in range(3)] + [([], 0, 5, size, 1) for size in (0, 1, MOST)])
        self.compare([(LOG, 3, 3, 2, -1), (LOG, 4, 8, 2, 2), (LOG, 7, 9, 2, 0)])

    def test_all_short_logs(self):
        known, seen = (0, 7, MOST), set()
        for log in (log for reads in range(6) for log in itertools.product(known, repeat=reads)):
            words = array("I", log)
            for place, extent in itertools.product(range(len(log) + 1), (*known, 5)):
                longer = with_read(log, place, extent)
                for size in (0, 1, 2, 3, 4, MOST):
                    change = one_more(words, place, extent, size)
                    self.assertEqual(change, counted(longer, size) - counted(log, size), (log, place, extent, size))
                    seen.add((size, change))
        reached = {size: sorted(change for at, change in seen if at == size) for size in (0, 1, 2, MOST)}
        self.assertEqual(reached, {0: [1], 1: [0, 1, 2], 2: [-1, 0, 1, 2, 3], MOST: [0, 1]})

    def test_the_ends_are_reached(self):
        sizes = (2, 3, 10, 255, 256, 257, MAX_EXTENTS - 2, MAX_EXTENTS - 1)
        self.compare(map(stray, (0, 1, *sizes)))
        self.compare(map(spared, sizes))

    def test_beside_the_same_extent(self):
        for place, extent in enumerate(LOG):
            for beside, size in itertools.product((place, place + 1), (0, 1, 2, 3, MAX_EXTENTS, MOST)):
                self.assertEqual(one_more(LOG, beside, extent, size), 0 if size else 1)

    def test_longer_logs(self):
        source, seen = random.Random(7), set()
        for turn in range(120):
            extents = source.sample(EXTENTS, (20, 100, MAX_EXTENTS - 1)[turn % 3])
            count = source.randrange(3000)
            log = source.choices(extents, [1 / rank ** (turn % 2) for rank in range(1, len(extents) + 1)], k=count)
            place, extent = source.choice((0, source.randrange(count + 1), count)), source.choice((MORE, *extents[:9]))
            for size in (1, len(extents) // 4, len(extents) // 2, len(extents) - 1):
                change = one_more(log, place, extent, size)
                self.assertEqual(change, misses_of(with_read(log, place, extent), size) - misses_of(log, size))
                seen.add(change)
        self.assertLessEqual({-1, 0, 1, 2, 3, 4}, seen)

    def test_sizes_that_hold_all_extents(self):
        for size in (MAX_EXTENTS, MAX_EXTENTS + 1, 1 << 31, MOST):
            self.compare([(EXTENTS, place, EXTENTS[5], size, 0) for place in (0, 5, 6, 700, MAX_EXTENTS)])
            self.compare([(EXTENTS[1:], place, MORE, size, 1) for place in (0, 5, MAX_EXTENTS - 1)])


class Refusals(Refusing):
    """Each refusal under its condition only, and the first of those that apply."""

    def test_a_place_past_the_end(self):
        for log in ([], [5], LOG):
            one_more(log, len(log), 5, 1)
            for place in (len(log) + 1, len(log) + 2, *FAR, Index(len(log) + 1)):
                self.refused(2, one_more, log, place, 5, 1)

    def test_the_most_reads(self):
        log = array("I", bytes(4 * (MAX_READS - 1)))
        for place in (0, MAX_READS // 2, MAX_READS - 1):
            self.assertEqual([one_more(log, place, extent, 1) for extent in (0, 5)], [0, 1 + (0 < place < len(log))])
        for reads in (MAX_READS, MAX_READS + 1, 2 * MAX_READS):
            log.extend(array("I", bytes(4 * (reads - len(log)))))
            for place, size in ((0, 0), (reads // 2, 1), (reads, MOST)):
                self.refused(8, one_more, log, place, 0, size)

    def test_the_most_extents(self):
        for place, size in itertools.product((0, 1, 700, MAX_EXTENTS - 1), (0, 1, MAX_EXTENTS, MOST)):
            self.assertEqual(one_more(EXTENTS[1:], place, MORE, size), 1)
            self.refused(9, one_more, EXTENTS, place, MORE, size)
            self.refused(9, one_more, [*EXTENTS, MORE], place, MORE, size)
            self.refused(9, one_more, [MORE, *EXTENTS], place, EXTENTS[0], size)
        self.refused(9, one_more, EXTENTS, MAX_EXTENTS, MORE, 1)

    def test_faults_together(self):
        # a log of all extents that with one more read has the most reads, and the same with one extent more
        logs = [array("I", [*EXTENTS, last] + [last] * (MAX_READS - MAX_EXTENTS - 2)) for last in (EXTENTS[-1], MORE)]
        for place, reads in itertools.product((0, 1), (0, 1)):
            for log, extent in itertools.product(logs, (EXTENTS[0], MORE)):
                faults = [2] * place + [8] * reads + [9] * (MORE in (extent, log[-1]))
                asked = log + log[-1:] * reads, len(log) + reads + place, extent, 2
                if faults:
                    self.refused(faults[0], one_more, *asked)
                else:
                    self.assertEqual(one_more(*asked), 1)

    def test_a_refusal_leaves_the_change(self):
        words = array("q", [5, 77, 5])
        change = ctypes.c_int64.from_buffer(words, 8)
        for number, log, place in ((2, [4, 4], 3), (8, bytes(4 * MAX_READS), 0), (9, [*EXTENTS, MORE], 0)):
            with memoryview(array("I", log)) as lent:
                self.refused(number, jemqolu._call, "one_more", lent, place, 4, 1, ctypes.byref(change))
            self.assertEqual(words.tolist(), [5, 77, 5])
        with memoryview(array("I", [4, 4])) as lent:
            self.assertEqual(jemqolu._call("one_more", lent, 1, 5, 1, ctypes.byref(change)), 0)
        self.assertEqual(words.tolist(), [5, 2, 5])


class Arguments(Refusing):
    """What the call takes; other logs, extents and sizes are tested in test_jemqolu.py, with those of all calls."""

    def test_logs_in_all_forms(self):
        for log in words_in_all_forms(LOG):
            self.assertEqual(one_more(log, 4, 8, 2), 2)
        for none in words_in_all_forms([]):
            self.assertEqual(one_more(none, 0, 8, 2), 1)
        log = array("I", LOG)
        one_more(log, 4, 8, 2)
        self.assertEqual(log.tolist(), LOG)
        log.append(1)

    def test_places(self):
        for place in (None, 2.0, "2", b"2", [2], jemqolu.Answer.at(2)):
            self.assertRaises(TypeError, one_more, LOG, place, 8, 2)
        for place in (-1, -7, False - 1, -(1 << 32), -(1 << 64), 4 - (1 << 64), -(1 << 20_000), Index(-1)):
            self.assertRaises(OverflowError, one_more, LOG, place, 8, 2)
        self.assertEqual([one_more([4, 4], place, 5, 1) for place in (Index(1), True, False)], [2, 2, 1])

    def test_numbers_that_empty_the_log(self):
        log = array("I", LOG)
        # held while the library reads it
        self.assertRaises(BufferError, one_more, log, 4, emptying(log, 8), 2)
        self.assertRaises(BufferError, one_more, log, 4, 8, emptying(log, 2))
        self.assertEqual(log.tolist(), LOG)
        # the place is asked for before
        self.refused(2, one_more, log, emptying(log, 4), 8, 2)
        self.assertEqual((log.tolist(), one_more(log, emptying(log, 0), 8, 2)), ([], 1))

    def test_numbers_that_change_a_list(self):
        log = LOG[:]
        self.assertEqual(one_more(log, 4, Doing(8, log.clear), 2), 2)
        log[:] = [7, Doing(3, log.clear), *LOG[2:]]
        self.assertEqual((one_more(log, 4, 8, 2), log), (2, []))
        log[:] = LOG
        self.assertEqual(one_more(log, Doing(5, lambda: log.insert(0, 6)), 8, 2), 2)

    def test_numbers_that_release_a_view(self):
        held = array("I", LOG)
        view = memoryview(held)
        self.assertEqual(one_more(view, 4, Doing(8, view.release), 2), 2)
        self.assertRaises(ValueError, one_more, view, 4, 8, 2)
        held.append(1)


class Threads(Beside):
    """Other threads beside the call."""

    def test_logs_that_another_thread_resizes(self):
        for log in (array("I", LOG * 300), LOG * 300):
            self.beside(self.resizing(log, log[:]), lambda: one_more(log, 3, 8, 2), 300)

    def test_calls_side_by_side(self):
        log = memoryview(array("I", LOG * 20_000).tobytes()).cast("I")
        got = [None] * 8

        def ask(place):
            got[place] = one_more(log, place, 8, 2)

        threads = [threading.Thread(target=ask, args=[place]) for place in range(8)]
        for thread in threads:
            thread.start()
        for thread in threads:
            thread.join()
        self.assertEqual(got, [misses_of(with_read(LOG * 2, place, 8), 2) - misses_of(LOG * 2, 2) for place in range(8)])


if __name__ == "__main__":
    unittest.main()
