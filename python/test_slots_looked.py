#!/usr/bin/env python3
"""Tests of what a session tells of its last accepted read: the sums read and the slots looked at.

Run python/build first. Both are compared with an account by the log alone.
"""
import copy
import ctypes
import itertools
import pickle
import random
import sys
import unittest
from array import array

sys.dont_write_bytecode = True
import jemqolu  # noqa: E402
from jemqolu import MAX_EXTENTS, MAX_READS, SESSION_WORDS, SLOTS  # noqa: E402
from test_jemqolu import LOG, MOST, Index, Refusing, session_of  # noqa: E402

# the slot with the largest number, and the binary digits of a slot's number: a sum is read for each that is 0
LAST = SLOTS - 1
DIGITS = LAST.bit_length()
# where the parts of a session begin in its words
F, H, SLOT, NEXT = 1, 1 + MAX_EXTENTS, 1 + 2 * MAX_EXTENTS, SESSION_WORDS - 1
COUNT, RIGHT = SLOT + SLOTS, SLOT + SLOTS + 1
# the root among the nodes of the tree: a number below SLOTS is a slot, SLOTS + p is branching point p
ROOT = 2 * SLOTS - 2
# of each read of LOG: the sums read and the slots looked at
ROW = [(0, 0), (0, 1), (DIGITS, 2), (0, 3), (DIGITS - 1, 3), (DIGITS - 1, 1), (DIGITS - 2, 3)]


def zeros(slot):
    """The zeros of the slot's number in DIGITS binary digits."""
    return DIGITS - bin(slot).count("1")


def numbered_again(slots):
    """The slots by extent after the marks move: from 0 on, in order."""
    return {extent: place for place, extent in enumerate(sorted(slots, key=slots.get))}


def account(log, marks=(), next_slot=0):
    """The sums read and the slots looked at of each read of a log, by the log alone: a counter, which is the next slot,
    and its value at each extent's last read; at SLOTS the extents are numbered again from 0, in order. The log goes on
    from these marks and this next slot."""
    counts, slots = [], dict(marks)
    for extent in log:
        if next_slot == SLOTS:
            slots = numbered_again(slots)
            next_slot = len(slots)
        if extent in slots:
            counts.append((zeros(slots[extent]), next_slot - slots[extent]))
        else:
            counts.append((0, next_slot))
        slots[extent] = next_slot
        next_slot += 1
    return counts


def told(session):
    """What the session tells of its last accepted read."""
    return session.sums_read, session.slots_looked


def points_over(slot):
    """The branching points that have the slot under their right child."""
    node = slot
    while node != ROOT:
        point = node // 2
        if node == 2 * point + 1:
            yield point
        node = SLOTS + point


def made(marks, next_slot, reads=None):
    """The words of a session with these marks, a dict of slots by extent, and this next slot; all of its reads that are
    not cold have distance 1."""
    words = array("I", bytes(4 * SESSION_WORDS))
    words[0] = len(marks) if reads is None else reads
    words[H] = words[0] - len(marks)
    for place, (extent, slot) in enumerate(marks.items()):
        words[F + place] = words[SLOT + slot] = extent
        for point in points_over(slot):
            words[RIGHT + point] += 1
    words[COUNT], words[NEXT] = len(marks), next_slot
    return words


def changed(words, place, value):
    """A copy of the words with one of them changed."""
    copied = words[:]
    copied[place] = value
    return copied


def refused_reads():
    """The number of a refusal, words, and an extent whose read from them is refused so."""
    sound = made({7: 2, 3: 5}, 6)
    for place, value in ((0, 3), (F, 4), (H, 1), (SLOT + 2, 3), (SLOT, 9), (COUNT, 1), (COUNT, 3), (NEXT, 5)):
        yield 7, changed(sound, place, value), 7
    # slot 5 is the right child of point 2, slot 1 that of point 0
    yield from ((7, changed(sound, RIGHT + 2, 0), 7), (7, changed(sound, RIGHT, 1), 7))
    yield from ((7, changed(sound, NEXT, SLOTS + 1), 7), (7, changed(sound, NEXT, MOST), 8), (7, sound[:-1], 7))
    yield 7, array("I", [MOST]) * SESSION_WORDS, MOST
    full = {extent: extent + 200 for extent in range(MAX_EXTENTS)}
    for next_slot in (MAX_EXTENTS + 200, LAST, SLOTS):
        last = made(full, next_slot, MAX_READS)
        yield from ((8, last, extent) for extent in (0, MAX_EXTENTS - 1, MAX_EXTENTS, MOST))
        yield from ((9, made(full, next_slot), MAX_EXTENTS), (9, made(full, next_slot, MAX_READS - 1), MOST))


def logs(reads):
    """Ten logs of so many reads: by chance, in turn, to and fro, skewed, and one working set after another."""
    source = random.Random(3)
    extents = [0, MOST] + source.sample(range(1, MOST), MAX_EXTENTS - 2)
    for count in (1, 2, 3, 40, MAX_EXTENTS - 1, MAX_EXTENTS):
        yield source.choices(extents[:count], k=reads)
    yield [extents[place % MAX_EXTENTS] for place in range(reads)]
    to_and_fro = [*extents, *extents[-2:0:-1]]
    yield [to_and_fro[place % len(to_and_fro)] for place in range(reads)]
    yield source.choices(extents, [1 / rank for rank in range(1, MAX_EXTENTS + 1)], k=reads)
    sets = MAX_EXTENTS // 8 - 1
    yield [extents[8 * (place * sets // reads) + source.randrange(16)] for place in range(reads)]


def some_after(slot):
    """Next slots above a slot and below SLOTS: the first and the last ones, and each 41st."""
    above = range(slot + 1, SLOTS)
    return sorted({*above[:10], *above[-10:], *above[::41]})


def resumed(marks, next_slot):
    """A session with these marks and this next slot, as many reads as there were slots taken."""
    return jemqolu.Session.resume(made(marks, next_slot, next_slot))


class Telling(Refusing):
    def tells(self, session, log, wanted):
        """Of each of these reads the session tells what is wanted."""
        got = []
        for extent in log:
            session.read(extent)
            got.append(told(session))
        self.assertEqual(got, wanted)


class Rows(Telling):
    """Reads whose counts are known."""

    def test_before_any_read(self):
        self.assertEqual(told(jemqolu.Session()), (0, 0))
        self.assertEqual(told(jemqolu.Session.resume(session_of(LOG).words)), (0, 0))

    def test_the_seven_reads(self):
        self.tells(jemqolu.Session(), LOG, ROW)
        self.tells(jemqolu.Session(), map(Index, LOG), ROW)
        self.assertEqual(account(LOG), ROW)

    def test_cold_reads_look_at_all_slots_below_the_next(self):
        numbers = range(MAX_EXTENTS)
        self.tells(jemqolu.Session(), numbers, [(0, number) for number in numbers])
        for reads in (1, 2, 100, LAST):
            self.tells(resumed({5: reads - 1}, reads), [6], [(0, reads)])

    def test_cold_reads_after_the_marks_move(self):
        self.tells(resumed({5: LAST}, SLOTS), [6, 7, 8], [(0, 1), (0, 2), (0, 3)])
        marks = {**{extent: extent for extent in range(MAX_EXTENTS - 1)}, 3: LAST}
        self.tells(resumed(marks, SLOTS), [MOST], [(0, MAX_EXTENTS - 1)])

    def test_one_extent(self):
        # the mark is found at all slots but the last, then, from the last moved, again from 0 on
        counts = [(0, 0)] + [(zeros(place % LAST), 1) for place in range(SLOTS + 63)]
        # those of the reads SLOTS and SLOTS + 1
        self.assertEqual(counts[LAST : SLOTS + 1], [(1, 1), (DIGITS, 1)])
        self.tells(jemqolu.Session(), [5] * len(counts), counts)

    def test_a_read_of_the_extent_read_last(self):
        session = jemqolu.Session()
        for extent in random.Random(1).choices(range(200), k=MAX_EXTENTS + 100):
            session.read(extent)
            session.read(extent)
            self.assertEqual(session.slots_looked, 1)

    def test_the_most_extents_after_the_marks_move(self):
        extents = range(MAX_EXTENTS)
        session = session_of([*extents, *extents])
        backward = jemqolu.Session.resume(session.words)
        self.tells(backward, reversed(extents), [(zeros(slot), LAST - 2 * slot) for slot in reversed(extents)])
        for _ in range(2):
            self.tells(session, extents, [(zeros(slot), MAX_EXTENTS) for slot in extents])

    def test_slots_without_a_mark_are_not_extent_0(self):
        wanted = [(0, 0), (DIGITS, 1), (0, 2), (DIGITS - 1, 2), (DIGITS - 2, 1), (DIGITS - 1, 3)]
        self.tells(jemqolu.Session(), [1, 1, 0, 1, 1, 0], wanted)
        self.tells(resumed({0: 0, 1: LAST - 1}, LAST), [0], [(DIGITS, LAST)])


class Words(Telling):
    """Sessions that go on from words."""

    def test_every_cut_at_the_start_and_where_the_marks_move(self):
        log = [place * place % 37 for place in range(SLOTS + 100)]
        wanted, session = account(log), jemqolu.Session()
        for cut, extent in enumerate(log):
            if not 100 < cut < SLOTS - 100:
                self.tells(jemqolu.Session.resume(session.words), log[cut : cut + 3], wanted[cut : cut + 3])
            self.tells(session, [extent], [wanted[cut]])

    def test_every_short_log_where_the_marks_move(self):
        before = [place % 3 for place in range(SLOTS - 2)]
        words = session_of(before).words
        marks = {before[slot]: slot for slot in range(SLOTS - 5, SLOTS - 2)}
        for log in itertools.product(range(4), repeat=4):
            self.tells(jemqolu.Session.resume(words), log, account(log, marks, SLOTS - 2))

    def test_one_mark_at_many_slots(self):
        slots = (0, 1, 2, 7, 400, MAX_EXTENTS - 1, MAX_EXTENTS, MAX_EXTENTS + 1, LAST - 2, LAST - 1, LAST)
        for slot, extent in itertools.product(slots, (0, 5, MOST)):
            words = made({extent: slot}, SLOTS)
            self.tells(jemqolu.Session.resume(words), [extent], [(DIGITS, 1)])
            self.tells(jemqolu.Session.resume(words), [6], [(0, 1)])
            for next_slot in some_after(slot):
                words[NEXT] = next_slot
                self.tells(jemqolu.Session.resume(words), [extent], [(zeros(slot), next_slot - slot)])
                self.tells(jemqolu.Session.resume(words), [6], [(0, next_slot)])

    def test_some_marks(self):
        # the last seven digits of the slots are 0000011, 0010000 and 0010001; all before those of the latter two are 1
        marks = {5: 3, 0: SLOTS - 112, 8: SLOTS - 111}
        for next_slot, extent, wanted in (
            (SLOTS - 62, 5, (DIGITS - 2, SLOTS - 65)),
            (SLOTS - 62, 0, (6, 50)),
            (SLOTS - 62, 8, (5, 49)),
            (SLOTS - 62, 9, (0, SLOTS - 62)),
            (SLOTS, 5, (DIGITS, 3)),
            (SLOTS, 0, (DIGITS - 1, 2)),
            (SLOTS, 8, (DIGITS - 1, 1)),
            (SLOTS, 9, (0, 3)),
        ):
            self.tells(jemqolu.Session.resume(made(marks, next_slot)), [extent], [wanted])

    def test_many_marks(self):
        source = random.Random(4)
        for count in (1, 2, 50, MAX_EXTENTS // 2, MAX_EXTENTS - 1, MAX_EXTENTS) * 3:
            next_slot = SLOTS - source.randrange(20)
            slots, extents = source.sample(range(next_slot), count), source.sample(range(MOST), count)
            log = source.choices(extents, k=40)
            session = jemqolu.Session.resume(made(dict(zip(extents, slots)), next_slot))
            self.tells(session, log, account(log, zip(extents, slots), next_slot))

    def test_words_that_are_set(self):
        session = session_of(LOG)
        session.words = jemqolu.Session().words
        self.assertEqual(told(session), ROW[-1])
        self.tells(session, LOG, ROW)

    def test_copies_keep_what_the_last_read_told(self):
        session = session_of(LOG)
        for copied in (copy.copy(session), copy.deepcopy(session), pickle.loads(pickle.dumps(session))):
            self.assertEqual(told(copied), ROW[-1])
        self.tells(copied, [7], [(DIGITS - 1, 5)])
        self.assertEqual(told(session), ROW[-1])


class Refusals(Telling):
    """A read that is not accepted changes neither the words nor what the last accepted one told."""

    def test_refusals_change_nothing(self):
        numbers = []
        for number, words, extent in refused_reads():
            session = session_of(LOG)
            session.words = words[:]
            self.refused(number, session.read, extent)
            self.assertEqual(told(session), ROW[-1])
            self.assertEqual(session.words, words)
            numbers.append(number)
        self.assertEqual([numbers.count(number) for number in (7, 8, 9)], [14, 12, 6])

    def test_reads_go_on_after_refusals(self):
        log = [place % MAX_EXTENTS for place in range(SLOTS + 88)]
        session, wanted = session_of(log[:MAX_EXTENTS]), account(log)
        for place in range(MAX_EXTENTS, len(log)):
            self.refused(9, session.read, MAX_EXTENTS)
            self.assertEqual(told(session), wanted[place - 1])
            self.tells(session, [log[place]], [wanted[place]])

    def test_extents_that_are_none_change_nothing(self):
        session = session_of(LOG)
        kept = session.words[:]
        for extent in (None, 2.0, "7", [7], -1, MOST + 1, 1 << 64):
            self.assertRaises((TypeError, OverflowError), session.read, extent)
            self.assertEqual(told(session), ROW[-1])
            self.assertEqual(session.words, kept)
        out_of_place = memoryview(bytearray(4 * (SESSION_WORDS + 1)))[1:-3].cast("I")
        for words in (None, kept.tobytes(), memoryview(kept).toreadonly(), out_of_place):
            session.words = words
            self.assertRaises((TypeError, ValueError), session.read, 7)
            self.assertEqual(told(session), ROW[-1])

    def test_the_places(self):
        places = (ctypes.c_uint32 * 5)(*[77] * 5)
        lent = ctypes.byref(places, 4), ctypes.byref(places, 12)
        for number, words, extent in refused_reads():
            with memoryview(words) as view:
                self.refused(number, jemqolu._call, "session_read", view, extent, *lent)
            self.assertEqual(places[:], [77] * 5)
        with memoryview(made({7: 2, 3: 5}, 6)) as view:
            jemqolu._call("session_read", view, 7, *lent)
            self.assertEqual(places[:], [77, DIGITS - 1, 77, 4, 77])
            jemqolu._call("session_read", view, 8, *lent)
            self.assertEqual(places[:], [77, 0, 77, 7, 77])


class Logs(Telling):
    def test_logs_by_the_log_alone(self):
        # enough that the marks move, and are found after that
        compared, reads = 0, SLOTS + 300
        for log in logs(reads):
            self.tells(jemqolu.Session(), log, account(log))
            compared += len(log)
        self.assertEqual(compared, 10 * reads)


if __name__ == "__main__":
    unittest.main()
