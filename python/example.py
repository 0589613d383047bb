#!/usr/bin/env python3
"""Cuts a log into parts, summarizes them in several processes, and joins them in two groupings; answers the reads of
each part after those before it, says how the set of extents grows, finds the smallest caches that miss no more than
allowed, goes on from a named moment in two ways, and puts a stray read in.

Prints what comes out, which python/example.txt has as well. Exit status 1 where something differs from the uncut log.
Run python/build first.
"""
import multiprocessing
import os
import sys
from array import array

import jemqolu

LOG = os.path.join(os.path.dirname(os.path.abspath(__file__)), "..", "examples", "skewed.log")
LENGTHS = [1, 20_000, 0, 35_000, 9_999, 5_000, 30_000]
SIZES = [0, 1, 16, 64, 128, 200]
NUMBERS = [1, 50, 100, 150, 200]
ALLOWED = [50_000, 10_000]
# an extent that the log has not
STRAY = 7


def reads_of(text):
    """The extents of a log text, one from each line ` (read n)`."""
    return [int(line.split()[1].rstrip(")")) for line in text.splitlines() if line.startswith(" (read ")]


def parts_of(log):
    """The log in parts of LENGTHS."""
    parts, start = [], 0
    for length in LENGTHS:
        parts.append(log[start : start + length])
        start += length
    return parts


def one_after_the_other(summaries):
    """((a b) c) d .."""
    joined = summaries[0]
    for summary in summaries[1:]:
        joined = jemqolu.join(joined, summary)
    return joined


def by_halves(summaries):
    """The join of the first half's join, then the second half's."""
    if len(summaries) == 1:
        return summaries[0]
    middle = len(summaries) // 2
    return jemqolu.join(by_halves(summaries[:middle]), by_halves(summaries[middle:]))


def answers_in_parts(parts, summaries):
    """The words of all reads' answers, those of each part after the summary of the parts before it."""
    words, prefix = array("I"), [0, 0]
    for part, summary in zip(parts, summaries):
        words += jemqolu.distances(prefix, part).words
        prefix = jemqolu.join(prefix, summary)
    return words


def say_growth(answers):
    """Says by which read the log has had so many different extents, for each of NUMBERS."""
    for read, answer in enumerate(answers, 1):
        if answer.number in NUMBERS:
            print("different extents by read %d: %d" % (read, answer.number))


def listed_misses(text):
    """The misses by size that the listing of the log text has."""
    rows = jemqolu.listing(text).decode("ascii").replace(")", "").splitlines()
    return {int(row.split()[1]): int(row.split()[2]) for row in rows if row.startswith(" (at ")}


def compare(name, words, uncut):
    """Says whether the words are those of the uncut log."""
    print("%s: %s" % (name, "word for word the same" if words == uncut else "OTHER WORDS"))
    return words == uncut


def compare_counts(what, counts):
    """Says the first of the counts, and whether all are the same."""
    same = len(set(counts)) == 1
    print("%s: %d%s" % (what, counts[0], "" if same else ", OTHERWISE %r" % counts))
    return same


def compare_misses(joined, uncut, listed):
    """Says the misses of some sizes, by the joined summary, by the uncut one, and by the listing."""
    same = True
    for size in SIZES:
        counts = [jemqolu.misses(joined, size), jemqolu.misses(uncut, size)]
        counts.append(listed.get(size, counts[0]))
        same = compare_counts("misses of a cache of %d" % size, counts) and same
    return same


def compare_smallest(joined, uncut, listed):
    """Says the smallest caches that miss no more reads than each of ALLOWED, found in the same three ways."""
    same = True
    for allowed in ALLOWED:
        sizes = [jemqolu.smallest(joined, allowed).size, jemqolu.smallest(uncut, allowed).size]
        sizes.append(min(size for size, misses in listed.items() if misses <= allowed))
        same = compare_counts("the smallest cache that misses at most %d" % allowed, sizes) and same
    return same


def compare_ways_on(log):
    """Says the misses of two ways to go on from the log's first 1,000 reads: with the next 1,000, and with the last."""
    session, front, same = jemqolu.Session(), log[:1000], True
    for extent in front:
        session.read(extent)
    session.name(1)
    for way, reads in (("next", log[1000:2000]), ("last", log[-1000:])):
        session.return_to(1)
        for extent in reads:
            session.read(extent)
        counts = [session.misses(64), jemqolu.misses(jemqolu.summarize(front + reads), 64)]
        same = compare_counts("misses with the %s 1000 reads" % way, counts) and same
    return same


def compare_stray_read(log, uncut):
    """Says how many misses more some sizes have with a stray read in the middle of the log."""
    middle, same = len(log) // 2, True
    longer = jemqolu.summarize(log[:middle] + [STRAY] + log[middle:])
    for size in (64, 200):
        counts = [jemqolu.one_more(log, middle, STRAY, size), jemqolu.misses(longer, size) - jemqolu.misses(uncut, size)]
        same = compare_counts("misses that a stray read adds to a cache of %d" % size, counts) and same
    return same


def main():
    with open(LOG, encoding="ascii") as file:
        text = file.read()
    log = reads_of(text)
    parts = parts_of(log)
    with multiprocessing.Pool(4) as pool:
        summaries = pool.map(jemqolu.summarize, parts)
    uncut, answers = jemqolu.summarize(log), jemqolu.distances([0, 0], log)
    print("%d reads of %d extents, cut into %d parts" % (uncut[0], uncut[1], len(summaries)))
    joined = one_after_the_other(summaries)
    same = compare("joined one after the other", joined, uncut)
    same = compare("joined by halves", by_halves(summaries), uncut) and same
    same = compare("answers in parts", answers_in_parts(parts, summaries), answers.words) and same
    say_growth(answers)
    listed = listed_misses(text)
    same = compare_misses(joined, uncut, listed) and same
    same = compare_smallest(joined, uncut, listed) and same
    same = compare_ways_on(log) and same
    same = compare_stray_read(log, uncut) and same
    return 0 if same else 1


if __name__ == "__main__":
    sys.exit(main())
