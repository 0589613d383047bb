#!/usr/bin/env python3
"""Tests of the wrapper: whatever it is handed, it answers, or raises, and never reads or writes memory that is not lent.

Run python/build first. What the calls answer is compared with an independent implementation in tests/. The answers of
reads and what a watch takes of them are tested in test_answers.py, what a session tells beside them in
test_slots_looked.py, the sums that it keeps in test_right_hand.py, its named moments in test_moments.py, what one more
read can do in test_one_more.py, the smallest cache for a miss allowance in test_smallest.py.
"""
import ctypes
import mmap
import pickle
import sys
import tempfile
import threading
import unittest
from array import array

sys.dont_write_bytecode = True
import jemqolu  # noqa: E402

LOG = [7, 3, 7, 9, 3, 3, 9]
SUMMARY = [7, 3, 7, 3, 9, 9, 3, 7, 1, 2, 1]
WORDS = [65_537, 65_538, 2, 65_539, 3, 1, 2]
TEXT = b"(trace\n (read 7)\n (read 3)\n (read 7)\n (read 9)\n (read 3)\n (read 3)\n (read 9))\n"
LISTING = b"(sizing\n (reads 7)\n (cold 3)\n (at 1 6)\n (at 2 4)\n (at 3 3))\n"
PLAN = b"(join\n (seg 4)\n (seg 3))\n"
ONES = [2, 1, 1, 1, 1]
TWOS = [4, 2, 1, 2, 2, 1, 0, 2]
MOST = 4_294_967_295


class Index:
    """A number that is no int."""

    def __init__(self, value):
        self.value = value

    def __index__(self):
        return self.value


def session_of(log):
    session = jemqolu.Session()
    for extent in log:
        session.read(extent)
    return session


def words_in_all_forms(numbers):
    """The numbers in every form that words are taken in."""
    held = array("I", numbers)
    fields = (ctypes.c_uint32 * len(numbers))(*numbers)
    yield from (numbers, tuple(numbers), iter(numbers), map(Index, numbers))
    yield from (held, memoryview(held), memoryview(held).toreadonly(), fields)
    yield memoryview(held.tobytes()).cast("I")
    yield memoryview(bytearray(held.tobytes())).cast("I")
    yield memoryview(array("I", [5, 5] + numbers + [5]))[2:-1]


def texts_in_all_forms(text):
    """The text in every form that texts are taken in."""
    yield from (text, bytearray(text), memoryview(text), memoryview(bytearray(text)), array("B", text), array("b", text))
    yield from (text.decode("ascii"), list(text), map(Index, text), memoryview(b"((" + text + b"))")[2:-2])


def not_words():
    """What is no buffer of words and no iterable of numbers."""
    yield from (None, 5, 2.5, object(), "7373", ["7"], [7.0], [None], [[7]], [b"7"])
    yield from (b"\0" * 8, bytearray(8), memoryview(bytes(8)), jemqolu.Answers(array("I", WORDS)))
    yield from (array(code, [1, 2]) for code in "bBhHilLqQfd")
    yield memoryview(array("I", range(8)))[::2]
    yield memoryview(array("I", range(8)))[::-1]
    yield memoryview(array("I", range(8)).tobytes()).cast("I", [2, 4])
    yield (ctypes.c_int32 * 4)()
    yield ctypes.c_uint32(4)


def bad_summaries():
    """Words that are not a well-formed summary."""
    yield from ([], [0], [1, 0], [0, MOST], [0, 0, 0], ONES[:4], ONES + [0], [3] + ONES[1:])
    # an extent twice, others by last read than by first, too many reads, counts that add up only where a sum is cut off
    yield from ([4, 2, 1, 1, 1, 1, 0, 2], [4, 2, 1, 2, 2, 3, 0, 2], [4, 2, 1, 2, 1, 1, 0, 2], array("I", bytes(1 << 24)))
    yield from ([jemqolu.MAX_READS + 1, 1, 7, 7, jemqolu.MAX_READS], [2, 2, 1, 2, 2, 1, MOST, 1])
    extents = range(jemqolu.MAX_EXTENTS + 1)
    yield [len(extents) + 43, len(extents), *extents, *extents, 43] + [0] * jemqolu.MAX_EXTENTS


def calls_on_lent_words():
    """Every call that reads words where they stand, as a function of them, with good arguments beside."""
    yield jemqolu.summarize
    yield from (lambda words: jemqolu.join(words, SUMMARY), lambda words: jemqolu.join(SUMMARY, words))
    yield from (lambda words: jemqolu.distances(words, LOG), lambda words: jemqolu.distances([0, 0], words))
    yield from (lambda words: jemqolu.misses(words, 2), lambda words: jemqolu.share(words, 2))
    yield from (lambda words: jemqolu.plan(PLAN, words), lambda words: jemqolu.split(2, words, [SUMMARY]))
    yield from (lambda words: jemqolu.smallest(words, 4), lambda words: jemqolu.one_more(words, 0, 7, 2))


def calls_on_words():
    """Every call that takes words, those that copy them too."""
    yield from calls_on_lent_words()
    yield from (jemqolu.Session.resume, jemqolu.Watch.resume)
    yield from (lambda words: jemqolu.split(2, [0], [words]), lambda words: jemqolu.split(2, [0, 0], [SUMMARY, words]))


def calls_on_sessions():
    """Every call on a session's words, as a function of the session."""
    yield from (lambda session: session.read(7), lambda session: session.summary())
    yield from (lambda session: session.misses(2), lambda session: session.share(2))


def calls_on_watches():
    """Every call on a watch's words, as a function of the watch."""
    yield from (lambda watch: watch.read(1), lambda watch: watch.misses(), lambda watch: watch.share())


class Refusing(unittest.TestCase):
    def refused(self, number, call, *arguments):
        with self.assertRaises(jemqolu.Refusal) as caught:
            call(*arguments)
        self.assertEqual(caught.exception.number, number)


class Calls(Refusing):
    def test_words_in_all_forms(self):
        for log in words_in_all_forms(LOG):
            self.assertEqual(jemqolu.summarize(log).tolist(), SUMMARY)
        for log in words_in_all_forms(LOG):
            self.assertEqual(jemqolu.distances([0, 0], log).words.tolist(), WORDS)
        for log in words_in_all_forms(LOG):
            self.assertEqual(jemqolu.plan(PLAN, log).tolist(), SUMMARY)
        for summary in words_in_all_forms(SUMMARY):
            self.assertEqual(jemqolu.misses(summary, 2), 4)
        for summary in words_in_all_forms(SUMMARY):
            self.assertEqual(jemqolu.share(summary, 2), 3 / 4)
        for summary in words_in_all_forms(SUMMARY):
            self.assertEqual(jemqolu.join(summary, [0, 0]).tolist(), SUMMARY)

    def test_texts_in_all_forms(self):
        for text in texts_in_all_forms(TEXT):
            self.assertEqual(jemqolu.listing(text), LISTING)
        for text in texts_in_all_forms(PLAN):
            self.assertEqual(jemqolu.plan(text, LOG).tolist(), SUMMARY)

    def test_a_file_mapped_into_memory(self):
        with tempfile.TemporaryFile() as file:
            file.write(TEXT)
            file.flush()
            with mmap.mmap(file.fileno(), 0, access=mmap.ACCESS_READ) as text:
                self.assertEqual(jemqolu.listing(text), LISTING)

    def test_what_is_handed_in_is_unchanged(self):
        log, text = array("I", LOG), bytearray(TEXT)
        jemqolu.summarize(log), jemqolu.distances(SUMMARY, log), jemqolu.plan(PLAN, log), jemqolu.listing(text)
        leasts, words = array("I", [1, 0]), array("I", SUMMARY)
        jemqolu.split(3, leasts, [words, words])
        self.assertEqual((log.tolist(), bytes(text), leasts.tolist(), words.tolist()), (LOG, TEXT, [1, 0], SUMMARY))
        log.append(1), text.append(1), leasts.append(1), words.append(1)

    def test_a_failed_call_lets_go(self):
        log, failures = array("I", LOG), []
        calls = (lambda: jemqolu.distances(None, log), lambda: jemqolu.distances([5], log), lambda: jemqolu.join(log, 5))
        calls += (lambda: jemqolu.split(2, log, None), lambda: jemqolu.split(2, [0, 0], [log, 5]))
        for call in calls:
            with self.assertRaises((TypeError, jemqolu.Refusal)):
                try:
                    call()
                except Exception as failure:
                    failures.append(failure)
                    log.append(1)
                    raise
        self.assertEqual(len(log), len(LOG) + 5)

    def test_no_cells(self):
        for none in words_in_all_forms([]):
            self.assertEqual(jemqolu.summarize(none).tolist(), [0, 0])
        for none in words_in_all_forms([]):
            self.assertEqual(jemqolu.distances([0, 0], none).words.tolist(), [])
        for none in words_in_all_forms([]):
            self.refused(5, jemqolu.misses, none, 1)
        for none in texts_in_all_forms(b""):
            self.refused(1, jemqolu.listing, none)
        self.assertEqual(jemqolu.plan("(seg 0)\n", []).tolist(), [0, 0])
        self.assertIsNone(jemqolu.share([0, 0], 1))

    def test_hit_shares(self):
        for log in ([], [4, 0, 8, 1, 6], range(jemqolu.MAX_EXTENTS)):
            summary = jemqolu.summarize(log)
            for size in (0, 1, 5, jemqolu.MAX_EXTENTS, MOST):
                self.assertIsNone(jemqolu.share(summary, size))
                self.assertEqual(jemqolu.misses(summary, size), len(log))
        self.assertEqual([jemqolu.share(SUMMARY, size) for size in (0, 1, 2, 3, 9)], [0, 1 / 4, 3 / 4, 1, 1])

    def test_sessions(self):
        session = jemqolu.Session()
        self.assertEqual((session.misses(2), session.share(2)), (0, None))
        self.assertEqual([session.read(extent).word for extent in LOG], WORDS)
        self.assertEqual(session.summary().tolist(), SUMMARY)
        for size in (0, 1, 2, 3, 4, jemqolu.MAX_EXTENTS, MOST):
            self.assertEqual(session.misses(size), jemqolu.misses(SUMMARY, size))
            self.assertEqual(session.share(size), jemqolu.share(SUMMARY, size))
        self.assertEqual(jemqolu.Session.resume(session.words).read(7).distance, 3)
        self.assertEqual(pickle.loads(pickle.dumps(session)).misses(2), 4)

    def test_refusals_and_their_meanings(self):
        self.assertEqual(sorted(jemqolu.MEANINGS), list(range(1, 13)))
        self.refused(1, jemqolu.listing, "(trace\n (read \u00e9))\n")
        self.refused(1, jemqolu.listing, "\ud800")
        self.refused(2, jemqolu.listing, b"(trace\n (read 4294967296))\n")
        self.refused(3, jemqolu.plan, PLAN, LOG[1:])
        self.refused(4, jemqolu.plan, b"(" * (jemqolu.MAX_PLAN_BYTES + 1), LOG)
        self.refused(5, jemqolu.join, SUMMARY[1:], SUMMARY)
        self.refused(7, jemqolu.Session.resume([1] * jemqolu.SESSION_WORDS).read, 1)
        self.refused(8, jemqolu.summarize, array("I", bytes(4 * (jemqolu.MAX_READS + 1))))
        self.refused(8, jemqolu.distances, [0, 0], array("I", bytes(4 * (jemqolu.MAX_READS + 1))))
        self.refused(9, jemqolu.summarize, range(jemqolu.MAX_EXTENTS + 1))
        self.refused(10, jemqolu.split, 2, [1, 2], [ONES, TWOS])
        self.refused(11, jemqolu.Session().return_to, 1)
        self.refused(12, jemqolu.smallest, SUMMARY, 2)
        refusal = pickle.loads(pickle.dumps(jemqolu.Refusal(7)))
        self.assertEqual((refusal.number, str(refusal)), (7, "refused with 7: " + jemqolu.MEANINGS[7]))


class Splits(Refusing):
    """One store split among customers: what the wrapper makes of lists of summaries."""

    def test_the_shares(self):
        for store, leasts, summaries, misses, shares in (
            (2, [0, 0], [ONES, TWOS], 4, [0, 2]),
            (1, [0, 0], [ONES, ONES], 3, [0, 1]),
            (9, [0, 0], [ONES, ONES], 2, [1, 1]),
            (9, [0, 7], [ONES, ONES], 2, [1, 7]),
            (0, [0], [[0, 0]], 0, [0]),
            (jemqolu.MAX_STORE, [0] * 8, [TWOS] * 8, 16, [2] * 8),
        ):
            split = jemqolu.split(store, leasts, summaries)
            self.assertEqual((split.misses, split.shares), (misses, array("I", shares)))
            self.assertEqual(misses, sum(map(jemqolu.misses, summaries, shares)))

    def test_all_forms(self):
        wanted = jemqolu.split(3, [1, 0], [SUMMARY, TWOS])
        for leasts in words_in_all_forms([1, 0]):
            self.assertEqual(jemqolu.split(3, leasts, [SUMMARY, TWOS]), wanted)
        for summary in words_in_all_forms(SUMMARY):
            self.assertEqual(jemqolu.split(Index(3), [1, 0], iter([summary, TWOS])), wanted)
        out_of_place = memoryview(b"\0" + array("I", SUMMARY).tobytes())[1:].cast("I")
        self.assertEqual(jemqolu.split(3, [1, 0], (out_of_place, TWOS)), wanted)

    def test_refusals_in_order(self):
        bad, good = [SUMMARY, TWOS[1:]], [SUMMARY, TWOS]
        for store in (jemqolu.MAX_STORE + 1, MOST, MOST + 1, 1 << 64, 1 << 200):
            self.refused(2, jemqolu.split, store, [MOST, 1], bad)
        for customers in (0, 9, 20_000):
            self.refused(2, jemqolu.split, 2, [MOST] * customers, bad)
            self.refused(2, jemqolu.split, 2, [0] * customers, [TWOS] * customers)
        self.refused(5, jemqolu.split, 2, [MOST, 1], bad)
        for leasts in ([0, 3], [2, 1], [MOST, 0], [MOST, 1], [MOST, MOST], [1 << 31, 1 << 31]):
            self.refused(10, jemqolu.split, 2, leasts, good)
        self.assertEqual(jemqolu.split(2, [1, 1], good).shares.tolist(), [1, 1])

    def not_summaries(self, summaries):
        """Summaries that are refused, in the library's order, whatever their words are end to end."""
        self.refused(5, jemqolu.split, 2, [0, 0], summaries)
        self.refused(5, jemqolu.split, 2, [2, 1], summaries)
        self.refused(2, jemqolu.split, jemqolu.MAX_STORE + 1, [2, 1], summaries)
        self.refused(2, jemqolu.split, 2, [0] * 9, summaries)

    def test_words_that_are_summaries_only_end_to_end(self):
        whole = SUMMARY + TWOS
        for cut in range(len(whole) + 1):
            if cut != len(SUMMARY):
                self.not_summaries([whole[:cut], array("I", whole[cut:])])
        for summaries in ([], [whole], [SUMMARY, TWOS, []], [[], SUMMARY, TWOS], [TWOS] * 9, [TWOS] * 20_000):
            self.not_summaries(summaries)

    def test_bad_summaries(self):
        for words in bad_summaries():
            self.not_summaries([ONES, words])
            self.not_summaries([words, ONES])

    def test_wrong_kinds(self):
        for store in (None, 2.0, "2", [2]):
            self.assertRaises(TypeError, jemqolu.split, store, [0], [TWOS])
        for store in (-1, -(1 << 64)):
            self.assertRaises(OverflowError, jemqolu.split, store, [0], [TWOS])
        for summaries in (None, 5, TWOS, array("I", TWOS), "12", b"12", [None], [TWOS, 5], [[TWOS]], {1: TWOS}):
            self.assertRaises(TypeError, jemqolu.split, 2, [0], summaries)


class WrongKinds(unittest.TestCase):
    def test_not_words(self):
        for call in calls_on_words():
            for words in not_words():
                with self.assertRaises(TypeError, msg=repr(words)):
                    call(words)

    def test_not_texts(self):
        for text in (None, 5, object(), ["a"], [1.0], array("I", [40]), array("H", [40]), memoryview(TEXT)[::2]):
            self.assertRaises(TypeError, jemqolu.listing, text)
            self.assertRaises(TypeError, jemqolu.plan, text, LOG)

    def test_numbers_out_of_range(self):
        for call in calls_on_words():
            for number in (-1, MOST + 1, 1 << 64, -(1 << 64)):
                self.assertRaises(OverflowError, call, [number])
                self.assertRaises(OverflowError, call, [1, Index(number)])
        self.assertRaises(OverflowError, jemqolu.listing, [256])
        self.assertRaises(OverflowError, jemqolu.listing, [-1])

    def test_sizes_and_extents(self):
        session = session_of(LOG)
        calls = (lambda size: jemqolu.misses(SUMMARY, size), lambda size: jemqolu.share(SUMMARY, size))
        calls += (lambda extent: jemqolu.one_more(LOG, 4, extent, 2), lambda size: jemqolu.one_more(LOG, 4, 8, size))
        calls += (session.misses, session.share, session.read, jemqolu.Watch)
        calls += (lambda misses: jemqolu.smallest(ONES, misses),)
        for call in calls:
            for number in (-1, MOST + 1, 1 << 64, 1 << 20_000):
                self.assertRaises(OverflowError, call, number)
            for number in (None, 2.0, "2", [2], jemqolu.Answer.at(2)):
                self.assertRaises(TypeError, call, number)
            call(Index(MOST)), call(True)

    def test_words_out_of_place(self):
        words = memoryview(bytearray(4 * (jemqolu.SESSION_WORDS + 1)))[1:-3].cast("I")
        for call in calls_on_lent_words():
            self.assertRaises(ValueError, call, words)
        session = jemqolu.Session()
        session.words = words
        for call in calls_on_sessions():
            self.assertRaises(ValueError, call, session)

    def test_released_views(self):
        view = memoryview(array("I", LOG))
        view.release()
        for call in calls_on_words():
            self.assertRaises(ValueError, call, view)

    def test_numbers_that_interfere(self):
        log = [Index(7)] * 50

        class Clearing(Index):
            def __index__(self):
                log.clear()
                return self.value

        log[10] = Clearing(3)
        self.assertEqual(jemqolu.summarize(log)[0], 50)
        log[:] = [[Clearing(4), *TWOS[1:]], TWOS]
        self.assertEqual(jemqolu.split(4, [0, 0], log).shares.tolist(), [2, 2])


class States(unittest.TestCase):
    """Words of a session or a watch that the user has set."""

    def test_no_buffers(self):
        session, watch = jemqolu.Session(), jemqolu.Watch(2)
        for words in not_words():
            session.words = watch.words = words
            for call in calls_on_sessions():
                self.assertRaises(TypeError, call, session)
            for call in calls_on_watches():
                self.assertRaises(TypeError, call, watch)
        for words in ([0] * jemqolu.SESSION_WORDS, (0,) * jemqolu.SESSION_WORDS, range(jemqolu.SESSION_WORDS)):
            session.words = words
            for call in calls_on_sessions():
                self.assertRaises(TypeError, call, session)

    def test_too_few_words(self):
        session, watch = jemqolu.Session(), jemqolu.Watch(2)
        whole = session_of(LOG).words
        for count in (0, 1, 2, 3, 100, jemqolu.SESSION_WORDS - 2, jemqolu.SESSION_WORDS - 1):
            session.words = whole[:count]
            for call in calls_on_sessions():
                with self.assertRaises(jemqolu.Refusal) as caught:
                    call(session)
                self.assertEqual(caught.exception.number, 7)
        for count in range(4):
            watch.words = array("I", [2, 7, 3, 3][:count])
            for call in calls_on_watches():
                with self.assertRaises(jemqolu.Refusal) as caught:
                    call(watch)
                self.assertEqual(caught.exception.number, 7)

    def test_words_that_are_read_only(self):
        session, watch = session_of(LOG), jemqolu.Watch(2)
        kept = session.words.tobytes()
        session.words = memoryview(kept).cast("I")
        self.assertRaises(TypeError, session.read, 7)
        self.assertEqual((session.misses(2), session.share(2), session.summary().tolist()), (4, 3 / 4, SUMMARY))
        self.assertEqual(session.words.tobytes(), kept)
        watch.words = memoryview(watch.words).toreadonly()
        self.assertRaises(TypeError, watch.read, 1)
        self.assertEqual(watch.misses(), 0)

    def test_words_elsewhere(self):
        whole = bytearray(b"\xff" * 8) + session_of(LOG).words.tobytes() + bytearray(b"\xff" * 8)
        session = jemqolu.Session()
        session.words = memoryview(whole)[8:].cast("I")
        self.assertEqual(session.read(7).distance, 3)
        self.assertEqual((whole[:8], whole[-8:]), (b"\xff" * 8, b"\xff" * 8))
        session.words = (ctypes.c_uint32 * jemqolu.SESSION_WORDS)(*session.words[: jemqolu.SESSION_WORDS])
        self.assertEqual((session.read(7).distance, session.misses(0)), (1, 9))


class Beside(unittest.TestCase):
    """Calls while another thread changes what they are lent."""

    def beside(self, change, call, rounds):
        stop, failures = threading.Event(), []

        def changes():
            while not stop.is_set():
                try:
                    change()
                except BufferError:
                    pass
                except Exception as failure:  # noqa: BLE001
                    failures.append(failure)

        thread = threading.Thread(target=changes)
        interval = sys.getswitchinterval()
        sys.setswitchinterval(1e-6)
        thread.start()
        try:
            for _ in range(rounds):
                try:
                    call()
                except jemqolu.Refusal:
                    pass
        finally:
            stop.set()
            thread.join()
            sys.setswitchinterval(interval)
        self.assertEqual(failures, [])

    def resizing(self, cells, part):
        """A change that makes the cells none, then as many as before."""

        def change():
            del cells[:]
            cells.extend(part)

        return change


class Threads(Beside):
    """Another thread changes what a call is lent: the call has a copy or holds the buffer, or the change is refused."""

    def test_a_list(self):
        log = LOG * 300
        self.beside(self.resizing(log, LOG * 300), lambda: jemqolu.summarize(log), 300)

    def test_an_array(self):
        log = array("I", LOG * 3000)
        self.beside(self.resizing(log, array("I", LOG * 3000)), lambda: jemqolu.summarize(log), 300)
        self.beside(self.resizing(log, array("I", LOG * 3000)), lambda: jemqolu.distances([0, 0], log), 300)

    def test_a_bytearray(self):
        text = bytearray(TEXT)
        self.beside(self.resizing(text, TEXT), lambda: jemqolu.listing(text), 2000)

    def test_a_summary_that_another_thread_writes(self):
        words = array("I", jemqolu.summarize(range(jemqolu.MAX_EXTENTS)))

        def change():
            words[1] = 2 if words[1] == jemqolu.MAX_EXTENTS else jemqolu.MAX_EXTENTS

        for call in (lambda: jemqolu.join(words, words), lambda: jemqolu.smallest(words, jemqolu.MAX_EXTENTS)):
            self.beside(change, call, 300)

    def test_a_split_that_another_thread_writes_to(self):
        leasts, words, summaries = array("I", [0, 1]), array("I", TWOS), [TWOS, TWOS]
        self.beside(self.resizing(leasts, leasts[:]), lambda: jemqolu.split(3, leasts, [TWOS, TWOS]), 2000)
        self.beside(self.resizing(words, words[:]), lambda: jemqolu.split(3, leasts, [words, words]), 2000)
        self.beside(self.resizing(summaries, summaries[:]), lambda: jemqolu.split(3, [0, 1], summaries), 2000)

    def test_a_session_that_another_thread_puts_away(self):
        session = session_of(LOG)
        whole, few = session.words[:], array("I", [1])

        def change():
            session.words = few
            session.words = whole

        self.beside(change, lambda: session.read(3), 1000)
        self.beside(self.resizing(whole, whole[:]), lambda: session.read(3), 1000)

    def test_calls_side_by_side(self):
        log = memoryview(array("I", LOG * 20_000).tobytes()).cast("I")
        wanted, got = jemqolu.summarize(log), []
        threads = [threading.Thread(target=lambda: got.append(jemqolu.summarize(log))) for _ in range(8)]
        for thread in threads:
            thread.start()
        for thread in threads:
            thread.join()
        self.assertEqual(got, [wanted] * 8)


if __name__ == "__main__":
    unittest.main()
