#!/usr/bin/env python3
"""Tests of the sums that a session keeps: the count of all marks, and for each branching point of the tree over the slots
the marks under its right child.

Run python/build first. The sums are compared with a plain account of the slot of each extent's last read.
"""
import itertools
import sys
import unittest
from array import array

sys.dont_write_bytecode = True
import jemqolu  # noqa: E402
from jemqolu import MAX_EXTENTS, SESSION_WORDS, SLOTS, Answer  # noqa: E402
from test_jemqolu import LOG, MOST, Refusing, calls_on_sessions, session_of  # noqa: E402
from test_moments import under  # noqa: E402
from test_slots_looked import (  # noqa: E402
    COUNT,
    DIGITS,
    NEXT,
    RIGHT,
    changed,
    logs,
    made,
    numbered_again,
    points_over,
    told,
    zeros,
)

# the words of the session of LOG that are not 0, by their places
PLACES = {0: 7, 1: 7, 2: 3, 3: 9, 1025: 1, 1026: 2, 1027: 1, 2051: 7, 2054: 3, 2055: 9, 4097: 3, 6145: 7}
# slot 5 is under the right child of the points 2 and 1536, slot 6 of 1025 and 1536, slot 2 of 1024
PLACES.update({4098 + 2: 1, 4098 + 1024: 1, 4098 + 1025: 1, 4098 + 1536: 2})


def marks_after_reads(log):
    """After each read of a log, by the log alone: the slot of each extent's last read, the next slot, and whether the marks
    moved."""
    slots, next_slot = {}, 0
    for extent in log:
        moved = next_slot == SLOTS
        if moved:
            slots = numbered_again(slots)
            next_slot = len(slots)
        slots[extent] = next_slot
        next_slot += 1
        yield slots, next_slot, moved


def right_sums(slots):
    """The right-hand sums of marks in these slots, from the lowest points up: a point over a run of slots has the marks in
    the second half of the run."""
    marked = set(slots)
    below = [0, *itertools.accumulate(int(slot in marked) for slot in range(SLOTS))]
    runs = [2 << level for level in range(DIGITS)]
    return array("I", [below[at + run] - below[at + run // 2] for run in runs for at in range(0, SLOTS, run)])


def with_all_sums(words):
    """The session's words with all 4,095 sums of the tree, the leaves first and the root last, in place of the count and
    the right-hand sums. No extent is 0."""
    sums = [int(extent != 0) for extent in words[COUNT - SLOTS : COUNT]]
    for left in range(0, 2 * SLOTS - 2, 2):
        sums.append(sums[left] + sums[left + 1])
    return words[:COUNT] + array("I", sums) + words[NEXT:]


def marked_by(words, slot, number):
    """The words with so many marks more in a slot, in the count and in the sums over it."""
    copied = words[:]
    for place in (COUNT, *(RIGHT + point for point in points_over(slot))):
        copied[place] = (copied[place] + number) & MOST
    return copied


def resumed(words):
    """A session with a copy of these words, which stand under name 1 as well."""
    session = jemqolu.Session.resume(words)
    session.names = under(words, 1)
    return session


class Keeping(unittest.TestCase):
    """What a session keeps after reads."""

    def test_the_lengths(self):
        self.assertEqual((SLOTS, jemqolu.RIGHT_SUMS, SESSION_WORDS), (2048, 2047, 6146))
        self.assertEqual((jemqolu.NAME_WORDS, jemqolu.NAMES_WORDS), (6147, 49_176))
        self.assertEqual(jemqolu.Session().words, array("I", bytes(4 * 6146)))

    def test_the_words_of_the_seven_reads(self):
        words = session_of(LOG).words
        self.assertEqual({place: word for place, word in enumerate(words) if word}, PLACES)

    def test_every_other_sum_of_the_tree(self):
        # the last of all sums is the root's, and then comes the next slot
        for log in (LOG, range(1, MAX_EXTENTS), [1 + place * place % 97 for place in range(SLOTS - 9)]):
            words = session_of(log).words
            sums = with_all_sums(words)[COUNT:-1]
            self.assertEqual((sums[-1:], sums[1::2]), (words[COUNT:RIGHT], words[RIGHT:NEXT]))

    def test_every_read_of_logs(self):
        moves = 0
        for log in logs(SLOTS + MAX_EXTENTS + 50):
            session = jemqolu.Session()
            for place, (slots, next_slot, moved) in enumerate(marks_after_reads(log)):
                session.read(log[place])
                self.assertEqual((session.words[COUNT], session.words[NEXT]), (len(slots), next_slot))
                if moved or place % 47 == 0 or place < 10:
                    self.assertEqual(session.words[RIGHT:NEXT], right_sums(slots.values()))
                moves += moved
        self.assertGreaterEqual(moves, 12)

    def test_after_the_marks_move(self):
        for count in (1, 2, 3, MAX_EXTENTS - 1, MAX_EXTENTS):
            marks = {extent: SLOTS - 1 - extent for extent in range(count)}
            session = jemqolu.Session.resume(made(marks, SLOTS))
            self.assertEqual(session.read(0).distance, 1)
            self.assertEqual(session.words[RIGHT:NEXT], right_sums([*range(count - 1), count]))


class ExtentZero(Refusing):
    """The word of extent 0 is that of a slot without a mark: the sums alone tell them apart."""

    def test_no_right_hand_sum_covers_slot_0(self):
        without, marked = made({7: 2, 3: 5}, 6), made({7: 2, 3: 5, 0: 0}, 6)
        self.assertEqual([place for place in range(SESSION_WORDS) if without[place] != marked[place]], [0, COUNT])
        self.assertEqual(jemqolu.Session.resume(without).read(0), Answer.newcomer(3))
        self.assertEqual(jemqolu.Session.resume(marked).read(0), Answer.at(3))

    def test_the_mark_in_each_slot_that_is_free(self):
        for slot in (0, 1, 3, 4, 6, 7):
            words = made({7: 2, 0: slot, 3: 5}, 8)
            session = jemqolu.Session.resume(words)
            self.assertEqual(words[:RIGHT], made({7: 2, 0: 0, 3: 5}, 8)[:RIGHT])
            self.assertEqual(session.read(0), Answer.at(1 + (slot < 2) + (slot < 5)))
            self.assertEqual(told(session), (zeros(slot), 8 - slot))
            self.assertEqual(session.words[RIGHT:NEXT], right_sums([2, 5, 8]))

    def test_one_mark_more_in_a_slot_that_is_free(self):
        sound = made({7: 2, 3: 5}, 6)
        for slot in range(9):
            words = changed(marked_by(sound, slot, 1), 0, 3)
            if slot in (0, 1, 3, 4):
                self.assertEqual(words, made({7: 2, 3: 5, 0: slot}, 6))
                self.assertEqual(jemqolu.Session.resume(words).misses(0), 3)
            else:
                self.refused(7, jemqolu.Session.resume(words).misses, 0)


class Unsound(Refusing):
    def refused_by_all(self, words):
        """Every call on these words, and a return to them, is refused with 7 and changes nothing."""
        session = resumed(words)
        for call in (*calls_on_sessions(), lambda session: session.name(1)):
            self.refused(7, call, session)
        self.assertEqual((session.words, session.names), (words, under(words, 1)))
        session.words = made({8: 0}, 1)
        self.refused(7, session.return_to, 1)
        self.assertEqual((session.words, session.names), (made({8: 0}, 1), under(words, 1)))


class Damage(Unsound):
    """Words of the count and the right-hand sums that are not those of the marks."""

    def test_sound_words_are_taken_by_all(self):
        session = resumed(session_of(LOG).words)
        self.assertEqual([call(session) is None for call in calls_on_sessions()], [False] * 4)
        session.return_to(1)
        self.assertEqual(session.words, session_of(LOG).words)
        session.name(1)

    def test_each_word_one_more_and_one_less(self):
        words = session_of(LOG).words
        for place, number in itertools.product(range(COUNT, NEXT), (1, -1)):
            self.refused_by_all(changed(words, place, (words[place] + number) & MOST))

    def test_words_of_a_session_with_the_most_extents(self):
        words = made({extent: 2 * extent - 1 for extent in range(1, MAX_EXTENTS + 1)}, SLOTS)
        for place in (*range(COUNT, NEXT, 11), NEXT - 3, NEXT - 2, NEXT - 1):
            for value in {0, words[place] ^ 1, words[place] ^ 1 << 31, MOST} - {words[place]}:
                self.refused_by_all(changed(words, place, value))

    def test_slots_with_other_numbers_than_a_mark_or_none(self):
        words = session_of(LOG).words
        for slot, number in itertools.product((0, 1, 2, 5, 6, 7, 1023, 1024, SLOTS - 1), (1, 2, -1, -2, 1 << 31)):
            damaged = marked_by(words, slot, number)
            self.refused_by_all(damaged)
            # the count is that of the marks again
            self.refused_by_all(marked_by(damaged, 2 if slot == 5 else 5, -number))
            # as many reads more as marks; with one more in slot 0 or 1 they are those of extent 0
            if slot > 1 or number != 1:
                self.refused_by_all(changed(damaged, 0, (words[0] + number) & MOST))

    def test_the_sums_of_other_marks(self):
        words = session_of(LOG).words
        for slots in ((1, 5, 6), (2, 4, 6), (2, 3, 5), (0, 1, 2), (2, 5, 7)):
            other = made(dict(zip((7, 3, 9), slots)), 8)
            self.refused_by_all(words[:COUNT] + other[COUNT:NEXT] + words[NEXT:])

    def test_left_hand_sums(self):
        words = session_of(LOG).words
        left = with_all_sums(words)[COUNT:-2:2]
        self.refused_by_all(words[:RIGHT] + left + words[NEXT:])


class Lengths(Unsound):
    """Words that have more than a session's."""

    def test_all_sums_of_the_tree(self):
        for count in range(2, len(LOG) + 1):
            words = with_all_sums(session_of(LOG[:count]).words)
            self.assertEqual(len(words), 8193)
            self.refused_by_all(words)

    def test_all_sums_of_the_tree_with_one_mark_or_none(self):
        for count in (0, 1):
            kept = session_of(LOG[:count]).words
            words = with_all_sums(kept)
            self.assertEqual((len(words), words[:SESSION_WORDS]), (8193, kept))
            session = jemqolu.Session.resume(words)
            self.assertEqual([session.read(extent) for extent in (3, 3)], [Answer.newcomer(count + 1), Answer.at(1)])
            self.assertEqual(session.words, session_of([*LOG[:count], 3, 3]).words + words[SESSION_WORDS:])

    def test_words_past_a_session(self):
        past = array("I", [77] * (8193 - SESSION_WORDS))
        session = jemqolu.Session.resume(session_of(LOG).words + past)
        self.assertEqual((session.read(7), session.misses(2)), (Answer.at(3), 5))
        session.name(1)
        self.assertEqual(session.words, session_of(LOG + [7]).words + past)
        self.refused_by_all(changed(session.words, COUNT, 4))


if __name__ == "__main__":
    unittest.main()
