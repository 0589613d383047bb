#!/usr/bin/env python3
"""Tests of the answers of reads: what they say, what they can be made of, and what a watch takes of them.

Run python/build first. Answers are compared with a plain count of different extents.
"""
import collections.abc
import copy
import functools
import itertools
import pickle
import sys
import unittest
from array import array

sys.dont_write_bytecode = True
import jemqolu  # noqa: E402
from jemqolu import COLD_BASE, MAX_EXTENTS, Answer, Answers  # noqa: E402
from test_jemqolu import LOG, MOST, SUMMARY, WORDS, Index, Refusing, session_of  # noqa: E402

ROW = [
    Answer.newcomer(1),
    Answer.newcomer(2),
    Answer.at(2),
    Answer.newcomer(3),
    Answer.at(3),
    Answer.at(1),
    Answer.at(2),
]
PROTOCOLS = range(pickle.HIGHEST_PROTOCOL + 1)


def counted(log):
    """The answers of a log's reads, by the different extents up to each read, or since the last read of its extent."""
    answers, last = [], {}
    for place, extent in enumerate(log):
        if extent in last:
            answers.append(Answer.at(len(set(log[last[extent] : place]))))
        else:
            answers.append(Answer.newcomer(len(set(log[: place + 1]))))
        last[extent] = place
    return answers


def cut_in_three(log):
    """The log in three parts, in every way."""
    for first, second in itertools.combinations_with_replacement(range(len(log) + 1), 2):
        yield log[:first], log[first:second], log[second:]


# the summary of a part, made once for all logs that have it
summary_of = functools.lru_cache(maxsize=None)(jemqolu.summarize)


def answers_of_parts(parts):
    """The answers of the parts, each after the summary of those before it, in one list."""
    prefixes = itertools.accumulate(map(summary_of, parts[:-1]), jemqolu.join, initial=[0, 0])
    return [answer for prefix, part in zip(prefixes, parts) for answer in jemqolu.distances(prefix, part)]


class Reduced:
    """What pickles as the call of a function."""

    def __init__(self, function, *arguments):
        self.call = function, arguments

    def __reduce__(self):
        return self.call


class Reads(Refusing):
    """What the reads of a log are answered with."""

    def test_the_first_row(self):
        answers, session = jemqolu.distances([0, 0], LOG), jemqolu.Session()
        self.assertIsInstance(answers, Answers)
        self.assertEqual((list(answers), answers.words), (ROW, array("I", WORDS)))
        self.assertEqual([session.read(extent) for extent in LOG], ROW)
        self.assertEqual([answer.number for answer in answers], [1, 2, None, 3, None, None, None])
        self.assertEqual([answer.distance for answer in answers], [None, None, 2, None, 3, 1, 2])

    def test_after_a_prefix(self):
        for prefix, reads, answers in (
            (jemqolu.summarize(LOG[:4]), [3, 3, 9, 8], [Answer.at(3), Answer.at(1), Answer.at(2), Answer.newcomer(4)]),
            ([2, 2, 4, 6, 4, 6, 0, 0], [6, 9], [Answer.at(2), Answer.newcomer(3)]),
            (SUMMARY, [1, 2, 1], [Answer.newcomer(4), Answer.newcomer(5), Answer.at(2)]),
        ):
            self.assertEqual(list(jemqolu.distances(prefix, reads)), answers)

    def test_after_the_words_of_a_session(self):
        session = jemqolu.Session.resume(session_of(LOG).words)
        self.assertEqual((session.read(7), session.sums_read > 0), (Answer.at(3), True))
        self.assertEqual((session.read(1), session.sums_read), (Answer.newcomer(4), 0))

    def test_every_short_log_whole_in_parts_and_read_by_read(self):
        compared = 0
        for log in itertools.product(range(4), repeat=5):
            wanted, session = counted(log), jemqolu.Session()
            self.assertEqual([session.read(extent) for extent in log], wanted)
            self.assertEqual(list(jemqolu.distances([0, 0], log)), wanted)
            for parts in cut_in_three(log):
                self.assertEqual(answers_of_parts(parts), wanted)
                compared += 1
        self.assertEqual(compared, 4**5 * 21)

    def test_the_most_extents(self):
        log = list(range(MAX_EXTENTS))
        newcomers = [Answer.newcomer(1 + extent) for extent in log]
        session, answers = jemqolu.Session(), jemqolu.distances([0, 0], log)
        self.assertEqual(list(answers), newcomers)
        self.assertEqual([session.read(extent) for extent in log], newcomers)
        self.assertEqual((answers[-1].word, answers[-1].number), (COLD_BASE + MAX_EXTENTS, MAX_EXTENTS))
        self.assertEqual(list(jemqolu.distances(jemqolu.summarize(log[:-1]), log[-1:])), newcomers[-1:])
        self.assertEqual(session.read(0), Answer.at(MAX_EXTENTS))
        self.refused(9, session.read, MAX_EXTENTS)
        self.refused(9, jemqolu.distances, session.summary(), [MAX_EXTENTS])


class OneAnswer(unittest.TestCase):
    def test_the_two_kinds(self):
        for number in (0, 1, 3, MAX_EXTENTS, MAX_EXTENTS + 1, COLD_BASE, MOST - COLD_BASE):
            answer = Answer.newcomer(Index(number))
            self.assertEqual((answer.cold, answer.number, answer.distance), (True, number, None))
            self.assertEqual((answer.word, Answer(answer.word)), (COLD_BASE + number, answer))
        for distance in (0, 1, 2, MAX_EXTENTS, MAX_EXTENTS + 1, COLD_BASE - 1):
            answer = Answer.at(Index(distance))
            self.assertEqual((answer.cold, answer.number, answer.distance), (False, None, distance))
            self.assertEqual((answer.word, Answer(answer.word)), (distance, answer))

    def test_numbers_that_make_no_word_of_their_kind(self):
        for number in (-1, MOST + 1, 1 << 64, -(1 << 64), 1 << 20_000):
            for make in (Answer, Answer.at, Answer.newcomer):
                self.assertRaises(OverflowError, make, number)
                self.assertRaises(OverflowError, make, Index(number))
        for distance in (COLD_BASE, COLD_BASE + 1, MOST):
            self.assertRaises(OverflowError, Answer.at, distance)
        for number in (MOST - COLD_BASE + 1, MOST, -COLD_BASE):
            self.assertRaises(OverflowError, Answer.newcomer, number)
        for number in (None, 2.0, "2", b"2", [2], Answer.at(2)):
            for make in (Answer, Answer.at, Answer.newcomer):
                self.assertRaises(TypeError, make, number)

    def test_what_it_prints(self):
        self.assertEqual([repr(ROW[3]), repr(ROW[4])], ["Answer.newcomer(3)", "Answer.at(3)"])
        self.assertEqual([str(ROW[3]), str(ROW[4])], ["cold 3", "3"])
        for word in (0, 1, MAX_EXTENTS, COLD_BASE - 1, COLD_BASE, COLD_BASE + 1, COLD_BASE + MAX_EXTENTS, MOST):
            self.assertEqual(eval(repr(Answer(word)), {"Answer": Answer}), Answer(word))

    def test_equality_and_hash(self):
        self.assertEqual(len(set(ROW)), 6)
        self.assertEqual(len({*ROW, *jemqolu.distances([0, 0], LOG)}), 6)
        self.assertEqual({Answer.at(2): "a"}[Answer(2)], "a")
        self.assertNotEqual(Answer.at(3), Answer.newcomer(3))
        for other in (2, 2.0, None, "2", (2,), Index(2), COLD_BASE + 2):
            self.assertNotEqual(Answer.at(2), other)
            self.assertNotEqual(Answer.newcomer(2), other)

    def test_it_cannot_be_changed(self):
        answer = Answer.newcomer(3)
        for name in ("word", "cold", "number", "distance", "other"):
            self.assertRaises(AttributeError, setattr, answer, name, 1)
            self.assertRaises(AttributeError, delattr, answer, name)
        answer.__init__(5)
        self.assertEqual((repr(answer), hasattr(answer, "__dict__")), ("Answer.newcomer(3)", False))

    def test_copies(self):
        for answer in ROW:
            self.assertEqual([copy.copy(answer), copy.deepcopy(answer)], [answer] * 2)
            for protocol in PROTOCOLS:
                self.assertEqual(pickle.loads(pickle.dumps(answer, protocol)), answer)

    def test_damaged_pickles(self):
        for word, failure in ((-1, OverflowError), (MOST + 1, OverflowError), ("2", TypeError), (None, TypeError)):
            self.assertRaises(failure, pickle.loads, pickle.dumps(Reduced(Answer, word)))
        self.assertRaises(TypeError, pickle.loads, pickle.dumps(Reduced(Answer)))


class ManyAnswers(unittest.TestCase):
    def setUp(self):
        self.answers = jemqolu.distances([0, 0], LOG)

    def test_places(self):
        self.assertIsInstance(self.answers, collections.abc.Sequence)
        self.assertEqual(len(self.answers), 7)
        for place in range(-7, 7):
            self.assertEqual([self.answers[place], self.answers[Index(place)]], [ROW[place]] * 2)
        for place in (7, -8, 1 << 64):
            self.assertRaises(IndexError, lambda: self.answers[place])
        for place in (None, 1.0, "1", (1,)):
            self.assertRaises(TypeError, lambda: self.answers[place])

    def test_slices(self):
        bounds = (None, -8, -2, 0, 1, 3, 7, 9)
        for start, stop, step in itertools.product(bounds, bounds, (None, -2, -1, 1, 2)):
            part = self.answers[start:stop:step]
            self.assertIsInstance(part, Answers)
            self.assertEqual(list(part), ROW[start:stop:step])
        self.answers[:].words[0] = 5
        self.assertEqual(list(self.answers), ROW)

    def test_in_order(self):
        self.assertEqual([list(self.answers), list(reversed(self.answers))], [ROW, ROW[::-1]])
        self.assertEqual([self.answers.count(Answer.at(2)), self.answers.index(Answer.at(2), 3)], [2, 6])
        self.assertTrue(all(answer in self.answers for answer in ROW))
        for other in (Answer.newcomer(4), Answer.at(4), 2, COLD_BASE + 1, None):
            self.assertNotIn(other, self.answers)

    def test_equality(self):
        self.assertEqual(self.answers, Answers(array("I", WORDS)))
        self.assertEqual(self.answers[:0], jemqolu.distances([0, 0], []))
        for other in (self.answers[1:], self.answers[:-1], self.answers[::-1], ROW, WORDS, array("I", WORDS), None):
            self.assertNotEqual(self.answers, other)
        self.assertRaises(TypeError, hash, self.answers)

    def test_copies(self):
        for protocol in PROTOCOLS:
            self.assertEqual(pickle.loads(pickle.dumps(self.answers, protocol)), self.answers)
        for copied in (copy.copy(self.answers), copy.deepcopy(self.answers)):
            self.assertEqual((type(copied), copied), (Answers, self.answers))

    def test_the_words(self):
        self.assertEqual((type(self.answers.words), self.answers.words.typecode), (array, "I"))
        with memoryview(self.answers.words) as view:
            self.assertEqual((view.format, view.itemsize, view.contiguous, view.tolist()), ("I", 4, True, WORDS))
        for words in (None, 5, WORDS, ROW, bytes(8), "12", array("L", WORDS), array("H"), memoryview(array("I", WORDS))):
            self.assertRaises(TypeError, Answers, words)

    def test_four_bytes_each(self):
        answers = jemqolu.distances([0, 0], array("I", LOG * 100_000))
        self.assertEqual(len(answers), 700_000)
        self.assertLess(sys.getsizeof(answers.words), 4 * 700_000 + 500)
        self.assertLess(sys.getsizeof(answers), 500)
        self.assertLess(len(pickle.dumps(answers)), 4 * 700_000 + 500)

    def test_what_it_prints(self):
        self.assertEqual(repr(self.answers), "<Answers [cold 1, cold 2, 2, cold 3, 3, 1, 2]>")
        self.assertEqual(repr(self.answers[:0]), "<Answers []>")
        many = jemqolu.distances([0, 0], LOG * 1000)
        self.assertEqual(repr(many), "<Answers [cold 1, cold 2, 2, cold 3, 3, 1, 2, 3, ... 7000 in all]>")
        self.assertEqual(repr(many[:8]), "<Answers [cold 1, cold 2, 2, cold 3, 3, 1, 2, 3]>")


class Watches(Refusing):
    """What a watch takes of answers and of numbers."""

    def test_answers_of_a_session_and_of_distances(self):
        sizes = (0, 1, 2, 3, MAX_EXTENTS, MOST)
        for log in (LOG, LOG * 9, [*range(MAX_EXTENTS), *range(50)], [5] * 8, []):
            session, answers = jemqolu.Session(), jemqolu.distances([0, 0], log)
            told = [session.read(extent) for extent in log]
            for size in sizes:
                one, other = jemqolu.Watch(size), jemqolu.Watch(size)
                for answer, same in zip(told, answers):
                    one.read(answer)
                    other.read(same)
                self.assertEqual(one.words, other.words)
                self.assertEqual((one.misses(), one.share()), (session.misses(size), session.share(size)))

    def test_the_number_of_a_cold_read_is_disregarded(self):
        watch = jemqolu.Watch(2)
        self.assertIsNone(watch.share())
        for number in range(1, MAX_EXTENTS + 1):
            watch.read(Answer.newcomer(number))
            self.assertEqual(watch.words.tolist(), [2, number, number, 0])

    def test_whole_numbers_are_distances(self):
        one, other = jemqolu.Watch(2), jemqolu.Watch(2)
        one.read(Answer.newcomer(1)), other.read(Answer.newcomer(1))
        for distance in range(1, MAX_EXTENTS + 1):
            one.read(Index(distance)), other.read(Answer.at(distance))
        one.read(True), other.read(Answer.at(1))
        self.assertEqual((one.words, one.words.tolist()), (other.words, [2, MAX_EXTENTS + 2, 1, 3]))

    def refused_numbers(self):
        """Answers and numbers that a watch refuses, however many reads it has."""
        above, cold = MAX_EXTENTS + 1, COLD_BASE + MAX_EXTENTS
        yield from map(Answer, (0, above, COLD_BASE - 1, COLD_BASE, cold + 1, 2 * COLD_BASE, 2 * COLD_BASE + 1, MOST))
        yield from (Answer.at(0), Answer.at(above), Answer.newcomer(0), Answer.newcomer(above))
        yield from (0, -1, above, COLD_BASE, COLD_BASE + 1, cold, MOST, MOST + 1, MOST + 2, MOST + 2 + COLD_BASE)
        yield from (False, -MOST, 1 - COLD_BASE, 1 << 64, (1 << 64) + 1, -(1 << 200), 1 << 20_000)
        yield from (Answer.newcomer(MOST - COLD_BASE), Index(0), Index(COLD_BASE + 1))

    def test_refusals_in_order(self):
        watch, full = jemqolu.Watch.resume([2, 7, 3, 3]), jemqolu.Watch.resume([2, jemqolu.MAX_READS, 1, 1])
        unsound = jemqolu.Watch.resume([2, 1, 3, 3])
        for given in self.refused_numbers():
            self.refused(2, watch.read, given)
            self.refused(2, full.read, given)
            self.refused(7, unsound.read, given)
        for given in (1, MAX_EXTENTS, Answer.at(1), Answer.newcomer(1), Answer.newcomer(MAX_EXTENTS)):
            self.refused(8, full.read, given)
            self.refused(7, unsound.read, given)
        self.assertEqual(watch.words.tolist(), [2, 7, 3, 3])

    def test_what_is_no_answer(self):
        for words in ([2, 7, 3, 3], [2, 1, 3, 3], []):
            watch = jemqolu.Watch.resume(words)
            for given in (None, 2.0, "2", b"2", [2], (2,), Answer, jemqolu.distances([0, 0], LOG), float("nan"), 1j):
                self.assertRaises(TypeError, watch.read, given)
            self.assertEqual(watch.words.tolist(), words)

    def test_damaged_answers(self):
        watch = jemqolu.Watch.resume([2, 7, 3, 3])
        for word, failure in ((-1, OverflowError), (1 << 64, OverflowError), ("2", TypeError), (None, TypeError)):
            answer = Answer.at(2)
            object.__setattr__(answer, "word", word)
            self.assertRaises(failure, watch.read, answer)
        self.assertRaises(AttributeError, watch.read, object.__new__(Answer))
        self.assertEqual(watch.words.tolist(), [2, 7, 3, 3])


if __name__ == "__main__":
    unittest.main()
