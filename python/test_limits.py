#!/usr/bin/env python3
"""Tests at the limit of different extents: all calls take as many, none takes one more, and all lengths suffice.

Run python/build first. Sessions and watches at this limit are tested in test_answers.py and test_slots_looked.py, one more
read in test_one_more.py, the smallest cache for a miss allowance in test_smallest.py.
"""
import random
import sys
import unittest
from array import array

sys.dont_write_bytecode = True
import jemqolu  # noqa: E402
from jemqolu import MAX_EXTENTS, MAX_JOINS, MAX_PARTS, MAX_READS, WORK_WORDS  # noqa: E402
from test_jemqolu import MOST, Refusing  # noqa: E402

EXTENTS = [MOST - 4096 * place for place in range(MAX_EXTENTS)]
# one extent more
MORE = 5
# a log in parts, each of which has all extents, in an order of its own
PARTS = [random.Random(seed).sample(EXTENTS, MAX_EXTENTS) for seed in range(MAX_PARTS)]


def text_of(log):
    """The log text of a log."""
    return "(trace\n" + "\n".join(" (read %d)" % extent for extent in log) + ")\n"


def rows_of(misses):
    """The rows of a listing with these misses of the sizes from 1 on."""
    return "".join("\n (at %d %d)" % row for row in enumerate(misses, 1))


def plan_of(plan, depth=0):
    """The lines of a plan: a number stands for a seg of so many reads, a list for a join of its plans."""
    if isinstance(plan, int):
        return " " * depth + "(seg %d)" % plan
    return "\n".join([" " * depth + "(join", *(plan_of(part, depth + 1) for part in plan)]) + ")"


def plans(depth):
    """Plans so many joins deep, at their first and at their last part; each seg has as many reads as one of PARTS."""
    first = last = MAX_EXTENTS
    for _ in range(depth):
        first, last = [first, MAX_EXTENTS], [MAX_EXTENTS, last]
    return plan_of(first) + "\n", plan_of(last) + "\n"


def whole(count):
    """The first parts as one log."""
    return [extent for part in PARTS[:count] for extent in part]


class Extents(Refusing):
    """As many different extents as a log may have, and one more."""

    def test_summaries(self):
        summary = jemqolu.summarize(EXTENTS)
        wanted = [MAX_EXTENTS, MAX_EXTENTS, *EXTENTS, *reversed(EXTENTS)] + [0] * MAX_EXTENTS
        self.assertEqual((summary.tolist(), len(summary)), (wanted, jemqolu.SUMMARY_WORDS))
        self.refused(9, jemqolu.summarize, [*EXTENTS, MORE])
        self.refused(9, jemqolu.distances, summary, [EXTENTS[-1], MORE])

    def test_joins(self):
        a, b = map(jemqolu.summarize, PARTS[:2])
        self.assertEqual(jemqolu.join(a, b), jemqolu.summarize(PARTS[0] + PARTS[1]))
        few = jemqolu.summarize([MORE])
        self.assertEqual(jemqolu.join(jemqolu.summarize(EXTENTS[:-1]), few), jemqolu.summarize([*EXTENTS[:-1], MORE]))
        for sides in ((a, few), (few, a), (jemqolu.summarize(EXTENTS[1:] + [MORE]), a)):
            self.refused(9, jemqolu.join, *sides)

    def test_sessions(self):
        session = jemqolu.Session()
        for extent in EXTENTS:
            session.read(extent)
        words = session.words[:]
        self.refused(9, session.read, MORE)
        self.assertEqual((session.words, session.summary()), (words, jemqolu.summarize(EXTENTS)))
        for extent in EXTENTS:
            self.assertEqual(session.read(extent).distance, MAX_EXTENTS)

    def test_listings(self):
        for log in (EXTENTS, whole(4)):
            summary = jemqolu.summarize(log)
            misses = [jemqolu.misses(summary, size) for size in range(1, MAX_EXTENTS + 1)]
            head = "(sizing\n (reads %d)\n (cold %d)" % (len(log), MAX_EXTENTS)
            self.assertEqual(jemqolu.listing(text_of(log)).decode("ascii"), head + rows_of(misses) + ")\n")
        self.refused(9, jemqolu.listing, text_of([*EXTENTS, MORE]))

    def test_the_longest_listing(self):
        lines = "".join(" (read %d)\n" % extent for extent in range(MAX_EXTENTS)) * (MAX_READS // MAX_EXTENTS)
        listing = jemqolu.listing("(trace\n" + lines[:-1] + ")\n").decode("ascii")
        self.assertTrue(listing.endswith(rows_of([MAX_READS] * (MAX_EXTENTS - 1) + [MAX_EXTENTS]) + ")\n"))

    def test_splits(self):
        summary, served = jemqolu.summarize(EXTENTS + EXTENTS), jemqolu.MAX_STORE // MAX_EXTENTS
        split = jemqolu.split(jemqolu.MAX_STORE, [0] * 8, [summary] * 8)
        self.assertEqual(split.shares.tolist(), [0] * (8 - served) + [MAX_EXTENTS] * served)
        self.assertEqual(split.misses, (16 - served) * MAX_EXTENTS)


class Lengths(Refusing):
    """What the wrapper lends: as many words as the library needs, and no fewer would do."""

    def test_plans_of_all_depths(self):
        for depth in range(1, MAX_JOINS + 1):
            log = whole(depth + 1)
            for text in plans(depth):
                self.assertEqual(jemqolu.plan(text, log), jemqolu.summarize(log))
        for text in plans(MAX_JOINS + 1):
            self.refused(4, jemqolu.plan, text, whole(MAX_JOINS + 2))

    def test_plans_of_many_parts(self):
        log = whole(MAX_PARTS)
        self.assertEqual(jemqolu.plan(plan_of([MAX_EXTENTS] * MAX_PARTS) + "\n", log), jemqolu.summarize(log))
        self.refused(9, jemqolu.plan, plan_of([MAX_EXTENTS, 1]) + "\n", [*EXTENTS, MORE])

    def test_the_work_words_of_the_deepest_plan(self):
        log, out = whole(MAX_JOINS + 1), array("I", bytes(4 * jemqolu.SUMMARY_WORDS))
        for text in plans(MAX_JOINS):
            lent = memoryview(text.encode("ascii")), memoryview(array("I", log))
            with memoryview(array("I", bytes(4 * WORK_WORDS))) as work, memoryview(out) as room:
                self.refused(6, jemqolu._call, "plan", *lent, work[1:], room)
                self.refused(6, jemqolu._call, "plan", *lent, work, room[1:])
                self.assertEqual(jemqolu._call("plan", *lent, work, room), len(out))
            self.assertEqual(out, jemqolu.summarize(log))

    def test_sessions_names_and_watches(self):
        for name, count in (("session_new", jemqolu.SESSION_WORDS), ("names_new", jemqolu.NAMES_WORDS)):
            with memoryview(array("I", bytes(4 * count))) as words:
                self.refused(6, jemqolu._call, name, words[1:])
                self.assertEqual(jemqolu._call(name, words), count)
        with memoryview(array("I", bytes(4 * jemqolu.WATCH_WORDS))) as words:
            self.refused(6, jemqolu._call, "watch_new", 2, words[1:])
            self.assertEqual(jemqolu._call("watch_new", 2, words), jemqolu.WATCH_WORDS)


if __name__ == "__main__":
    unittest.main()
