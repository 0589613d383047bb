#!/usr/bin/env python3
"""Tests of named moments: what a session answers after a return, and what the names' words can be set to.

Run python/build first. Answers are compared with an account by logs alone.
"""
import copy
import ctypes
import pickle
import random
import sys
import threading
import unittest
from array import array

sys.dont_write_bytecode = True
import jemqolu  # noqa: E402
from jemqolu import MAX_EXTENTS, NAME_WORDS, NAMES_WORDS, SESSION_WORDS, Answer  # noqa: E402
from test_answers import PROTOCOLS, counted  # noqa: E402
from test_jemqolu import LOG, MOST, SUMMARY, Beside, Index, Refusing, not_words, session_of  # noqa: E402

# numbers that are no names, some of which are names modulo a power of 2
NO_NAMES = (0, 9, 10, -1, -8, False, MOST, MOST + 1, MOST + 2, 1 << 64, (1 << 64) + 1, -(1 << 200), 1 << 20_000)


class Account:
    """The log now, and the log under each name."""

    def __init__(self):
        self.log, self.named = [], {}

    def read(self, extent):
        self.log = self.log + [extent]
        return counted(self.log)[-1]

    def name(self, name):
        if not 1 <= name <= 8:
            raise jemqolu.Refusal(2)
        self.named[name] = self.log

    def return_to(self, name):
        if not 1 <= name <= 8:
            raise jemqolu.Refusal(2)
        if name not in self.named:
            raise jemqolu.Refusal(11)
        self.log = self.named[name]


def answer(planner, call, value):
    """What the session or the account answers to a call by its name, or the number of the refusal."""
    try:
        return getattr(planner, call)(value)
    except jemqolu.Refusal as refusal:
        return refusal.number


def calls_over(source, extents):
    """A list of calls by their names: reads of these extents, namings and returns."""
    calls = source.choices(("read", "name", "return_to"), (4, 1, 2), k=1 + source.randrange(60))
    return [(call, source.choice(extents) if call == "read" else source.randrange(-1, 11)) for call in calls]


def named(session, name=1):
    """A session whose log has gone on since it was put under the name."""
    session.name(name)
    session.read(8)
    return session


def under(words, *set_words):
    """The words of names, each with a session's words under it, by their first words."""
    return sum((array("I", [first]) + words for first in set_words), array("I"))


class Moments(Refusing):
    """What a session answers with namings and returns among its reads."""

    def test_the_example(self):
        session, answers = jemqolu.Session(), []
        for call, value in (("read", 7), ("read", 3), ("name", 1), ("read", 9), ("return_to", 1), ("read", 7)):
            answers.append(answer(session, call, value))
        for call, value in (("return_to", 1), ("read", 3), ("return_to", 2), ("name", 9)):
            answers.append(answer(session, call, value))
        one, two, three = map(Answer.newcomer, (1, 2, 3))
        self.assertEqual(answers, [one, two, None, three, None, Answer.at(2), None, Answer.at(1), 11, 2])
        self.assertEqual(session.summary(), jemqolu.summarize([7, 3, 3]))

    def carried_out(self, calls):
        """The session and the account after these calls, compared call by call, and how many were refused. The words are
        compared after each naming and return, and in the end."""
        session, account, refused = jemqolu.Session(), Account(), 0
        for call, value in calls:
            got = answer(session, call, value)
            self.assertEqual(got, answer(account, call, value))
            if call != "read":
                self.assertEqual(session.words, session_of(account.log).words)
            refused += got in (2, 11)
        self.assertEqual(session.words, session_of(account.log).words)
        return session, account, refused

    def test_lists_of_calls(self):
        source, compared, all_refused = random.Random(5), 0, 0
        for place in range(150):
            calls = calls_over(source, source.sample(range(MOST), (3, 20, 300)[place % 3]))
            session, account, refused = self.carried_out(calls)
            summary = jemqolu.summarize(account.log)
            self.assertEqual((session.summary(), session.misses(2)), (summary, jemqolu.misses(summary, 2)))
            compared, all_refused = compared + len(calls), all_refused + refused
        self.assertGreater(min(all_refused, compared - all_refused), 700)

    def test_parts_of_remembered_logs(self):
        source, prefix, whole, answers = random.Random(6), [0, 0], [], []
        for _ in range(40):
            session, account, _ = self.carried_out(calls_over(source, range(100)))
            answers += jemqolu.distances(prefix, account.log)
            prefix, whole = jemqolu.join(prefix, session.summary()), whole + account.log
        self.assertEqual((prefix, answers), (jemqolu.summarize(whole), counted(whole)))
        self.assertGreater(len(whole), 200)

    def test_a_return_forgets_no_name(self):
        session, words = jemqolu.Session(), {}
        for name in (4, 1, 8, 2, 7, 3, 6, 5):
            words[name] = session.words[:]
            named(session, name)
        kept = session.names[:]
        for name in (1, 1, 8, 4, 5, 3, 8, 2, 6, 7, 1):
            session.return_to(name)
            self.assertEqual((session.words, session.names), (words[name], kept))
            session.read(name)

    def test_the_limit_of_extents(self):
        session = session_of(range(MAX_EXTENTS - 1))
        session.name(1)
        session.read(MAX_EXTENTS)
        session.name(2)
        for name, last in ((2, 9), (1, Answer.newcomer(MAX_EXTENTS))) * 2:
            session.return_to(name)
            self.assertEqual(answer(session, "read", MOST), last)

    def test_what_the_last_read_told_is_left(self):
        session = session_of(LOG)
        told = session.sums_read, session.slots_looked
        session.name(3)
        session.return_to(3)
        self.refused(11, session.return_to, 4)
        self.assertEqual((session.sums_read, session.slots_looked), told)


class Words(Refusing):
    """The words of the names."""

    def test_none_before_the_first_naming_or_return(self):
        session = session_of(LOG)
        self.assertIsNone(session.names)
        self.assertLess(len(pickle.dumps(session)), 4 * SESSION_WORDS + 800)
        self.refused(11, session.return_to, 1)
        self.assertEqual(session.names, array("I", bytes(4 * NAMES_WORDS)))
        self.assertIsNone(jemqolu.Session.resume(session.words).names)

    def test_the_layout(self):
        session = session_of(LOG)
        wanted = array("I", bytes(4 * NAMES_WORDS))
        for name in (1, 3, 8):
            session.name(name)
            wanted[(name - 1) * NAME_WORDS : name * NAME_WORDS] = array("I", [1]) + session.words
            self.assertEqual(session.names, wanted)
        self.assertEqual((NAME_WORDS, NAMES_WORDS), (1 + SESSION_WORDS, 8 * (1 + SESSION_WORDS)))

    def test_copies_have_the_names(self):
        session = named(session_of(LOG), 2)
        copies = [pickle.loads(pickle.dumps(session, protocol)) for protocol in PROTOCOLS]
        for copied in [copy.deepcopy(session), copy.copy(session), *copies]:
            copied.return_to(2)
            self.assertEqual(copied.summary().tolist(), SUMMARY)
        apart = copy.deepcopy(session)
        apart.name(1)
        self.refused(11, session.return_to, 1)

    def test_names_that_are_set(self):
        one, other = named(session_of(LOG), 6), jemqolu.Session()
        other.names = one.names
        other.return_to(6)
        self.assertEqual(other.summary().tolist(), SUMMARY)
        other.names = under(session_of(LOG).words, 0, 7, MOST)
        self.refused(11, other.return_to, 1)
        for name in (2, 3):
            other.return_to(name)
            self.assertEqual(named(other, name).names[(name - 1) * NAME_WORDS], 1)

    def test_fewer_words(self):
        whole = under(session_of(LOG).words, *[1] * 8)
        for count in (0, 1, NAME_WORDS - 1, NAME_WORDS, NAME_WORDS + 1, 2 * NAME_WORDS, NAMES_WORDS - 1, NAMES_WORDS):
            session = session_of(LOG)
            session.names = whole[:count]
            for name in range(1, 9):
                within = name * NAME_WORDS <= count
                self.assertEqual(answer(session, "name", name), None if within else 6)
                self.assertEqual(answer(session, "return_to", name), None if within else 11)
            self.assertEqual(session.names, whole[:count])

    def test_words_elsewhere(self):
        guard = b"\xff" * 8
        whole, session = guard + bytes(4 * NAMES_WORDS) + guard, session_of(LOG)
        lent = bytearray(whole)
        session.names = memoryview(lent)[8:-8].cast("I")
        named(session, 8).return_to(8)
        self.assertEqual((session.summary().tolist(), lent[:8], lent[-8:]), (SUMMARY, guard, guard))
        session.names = (ctypes.c_uint32 * (NAMES_WORDS + 1))()
        session.names[NAMES_WORDS] = 77
        session.words = (ctypes.c_uint32 * (SESSION_WORDS + 1))(*session.words, 78)
        named(session, 8).return_to(8)
        self.assertEqual((session.summary().tolist(), session.names[NAMES_WORDS]), (SUMMARY, 77))
        self.assertEqual(session.words[SESSION_WORDS], 78)

    def test_words_that_overlap(self):
        session = session_of(LOG)
        session.name(1)
        session.words = memoryview(session.names)[1:NAME_WORDS]
        session.read(8)
        session.name(2)
        session.name(1)
        self.assertEqual(session.names[:NAME_WORDS], session.names[NAME_WORDS : 2 * NAME_WORDS])
        session.words = memoryview(session.names)[11 : 11 + SESSION_WORDS]
        session.return_to(2)
        self.assertEqual(session.summary(), session_of(LOG + [8]).summary())


class Refusals(Refusing):
    """Numbers that are no names, names that are not set, and words that are not sound."""

    def kept(self, session, number, name):
        """A naming and a return are refused with this number, and change nothing."""
        words, names = session.words[:], session.names[:]
        self.refused(number, session.name, name)
        self.refused(number, session.return_to, name)
        self.assertEqual((session.words, session.names), (words, names))

    def test_numbers_that_are_no_names(self):
        sound, unsound = named(session_of(LOG)), named(session_of(LOG))
        unsound.words[0] += 1
        unsound.names = array("I", [1] * 5)
        for name in NO_NAMES:
            self.kept(sound, 2, name)
            self.kept(unsound, 2, name)
            self.kept(sound, 2, Index(int(name)))

    def test_numbers_that_are_names(self):
        session = named(session_of(LOG), True)
        session.return_to(Index(1))
        self.assertEqual(session.summary().tolist(), SUMMARY)

    def test_what_is_no_number(self):
        session = named(session_of(LOG))
        words, names = session.words[:], session.names[:]
        for name in (None, 1.0, "1", b"1", [1], (1,), Answer.at(1), float("nan"), 1j, session):
            self.assertRaises(TypeError, session.name, name)
            self.assertRaises(TypeError, session.return_to, name)
        self.assertEqual((session.words, session.names), (words, names))

    def test_refusals_in_order(self):
        session, sound = session_of(LOG), session_of(LOG).words
        unsound = array("I", [1]) * SESSION_WORDS
        for words, names, naming, back in (
            (sound, under(sound, 1), None, None),
            (sound, under(sound, 0), None, 11),
            (sound, under(unsound, 1), None, 7),
            (sound, under(unsound, 0), None, 11),
            (sound, under(sound, 1)[:-1], 6, 11),
            (unsound, under(sound, 1), 7, None),
            (unsound, under(sound, 0), 7, 11),
            (unsound, under(unsound, 1)[:-1], 7, 11),
            (sound[:-1], under(sound, 1), 7, 6),
            (sound[:-1], under(sound, 0), 7, 11),
            (sound[:-1], under(unsound, 1), 7, 7),
            (sound[:-1], array("I"), 7, 11),
        ):
            for call, wanted in (("name", naming), ("return_to", back)):
                session.words, session.names = words[:], names[:]
                self.assertEqual(answer(session, call, 1), wanted)
                self.assertEqual(session.names, under(words, 1) if (call, wanted) == ("name", None) else names)
                self.assertEqual(session.words, sound if (call, wanted) == ("return_to", None) else words)


class Kinds(Refusing):
    """Words and names that the user has set to other kinds."""

    def test_no_buffers(self):
        session = session_of(LOG)
        for other in [*not_words(), [0] * NAMES_WORDS]:
            session.names = other
            self.assertRaises(TypeError, session.name, 1)
            self.assertRaises(TypeError, session.return_to, 1)
        session = named(session_of(LOG))
        for other in [*not_words(), [0] * SESSION_WORDS]:
            session.words = other
            self.assertRaises(TypeError, session.name, 1)
            self.assertRaises(TypeError, session.return_to, 1)

    def test_words_that_are_read_only(self):
        session = named(session_of(LOG))
        session.names = memoryview(session.names).toreadonly()
        self.assertRaises(TypeError, session.name, 1)
        session.return_to(1)
        self.assertEqual(session.summary().tolist(), SUMMARY)
        session.names = array("I", session.names)
        session.words = memoryview(session.words).toreadonly()
        self.assertRaises(TypeError, session.return_to, 1)
        session.name(2)
        self.assertEqual(session.names[NAME_WORDS : 2 * NAME_WORDS], session.names[:NAME_WORDS])

    def test_words_out_of_place(self):
        def out_of_place(words):
            return memoryview(bytearray(b"\0" + words.tobytes()))[1:].cast("I")

        session = named(session_of(LOG))
        session.names = out_of_place(session.names)
        self.assertRaises(ValueError, session.name, 1)
        session.return_to(1)
        self.assertEqual(session.summary().tolist(), SUMMARY)
        session.names, session.words = array("I", session.names), out_of_place(session.words)
        self.assertRaises(ValueError, session.return_to, 1)
        session.name(2)
        self.assertEqual(session.names[NAME_WORDS : 2 * NAME_WORDS], session.names[:NAME_WORDS])

    def test_a_failed_call_lets_go(self):
        session, failures = named(session_of(LOG)), []
        for call, name in ((session.name, 9), (session.return_to, 9), (session.return_to, 2), (session.name, "1")):
            with self.assertRaises((TypeError, jemqolu.Refusal)):
                try:
                    call(name)
                except Exception as failure:
                    failures.append(failure)
                    session.words.append(1), session.names.append(1)
                    raise
        self.assertEqual((len(session.words), len(session.names)), (SESSION_WORDS + 4, NAMES_WORDS + 4))


class Threads(Beside):
    """Another thread changes the words of the names, or names as well."""

    def test_names_that_another_thread_puts_away(self):
        session = named(session_of(LOG))
        whole, few = session.names, array("I", [1])

        def change():
            session.names = few
            session.names = whole

        for call in (session.name, session.return_to):
            self.beside(change, lambda: call(1), 1000)
            self.beside(self.resizing(whole, whole[:]), lambda: call(1), 300)
        self.assertEqual(few, array("I", [1]))

    def test_the_first_naming_in_several_threads(self):
        interval = sys.getswitchinterval()
        sys.setswitchinterval(1e-6)
        try:
            for _ in range(40):
                self.name_at_once(session_of(LOG), threading.Barrier(8))
        finally:
            sys.setswitchinterval(interval)

    def name_at_once(self, session, barrier):
        """Puts the session under all names, each in its own thread; none is lost."""

        def name_it(name):
            barrier.wait()
            session.name(name)

        threads = [threading.Thread(target=name_it, args=[name]) for name in range(1, 9)]
        for thread in threads:
            thread.start()
        for thread in threads:
            thread.join()
        self.assertEqual([session.names[place * NAME_WORDS] for place in range(8)], [1] * 8)


if __name__ == "__main__":
    unittest.main()
