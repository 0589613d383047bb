#!/usr/bin/env python3
"""Tests of the wrapper's lengths, of a session's places and of the types of the calls: they are those of the header for C.

Run python/build first.
"""
import ctypes
import os
import re
import sys
import unittest

sys.dont_write_bytecode = True
import jemqolu  # noqa: E402
from test_slots_looked import COUNT, F, H, NEXT, RIGHT, SLOT  # noqa: E402


def numbers_in(text):
    """The different numbers of a text, as they are written."""
    return set(re.findall(r"\d+(?:,\d{3})*", text))


class Header(unittest.TestCase):
    """What the wrapper has in common with include/jemqolu.h."""

    def setUp(self):
        header = os.path.join(os.path.dirname(os.path.abspath(__file__)), "..", "include", "jemqolu.h")
        with open(header, encoding="ascii") as file:
            self.text = file.read()

    def test_the_lengths_are_those_of_the_header(self):
        lines = [line.split() for line in self.text.splitlines() if line.startswith("#define JEMQOLU_")]
        defined = {line[1][len("JEMQOLU_") :]: int(line[2]) for line in lines if len(line) > 2}
        ours = {name: getattr(jemqolu, name) for name in defined if hasattr(jemqolu, name)}
        self.assertEqual(set(defined) - set(ours), {"STACK_BYTES"})
        self.assertEqual(ours, {name: defined[name] for name in ours})

    def test_the_places_of_a_session_are_those_of_the_header(self):
        layout = self.text[self.text.index("/* A session is") :]
        said = re.findall(r"^ \*   words? (\d+)(?:\.\.(\d+))? ", layout[: layout.index("*/")], re.MULTILINE)
        starts = [0, F, H, SLOT, COUNT, RIGHT, NEXT, jemqolu.SESSION_WORDS]
        ours = [(start, after - 1) for start, after in zip(starts, starts[1:])]
        self.assertEqual([(int(first), int(last or first)) for first, last in said], ours)
        self.assertEqual(NEXT - RIGHT, jemqolu.RIGHT_SUMS)

    def test_the_meanings_have_the_numbers_of_the_header(self):
        refusals = r"^    JEMQOLU_REFUSED_\w+ = (\d+),? +/\*(.*?)\*/"
        found = re.findall(refusals, self.text, re.DOTALL | re.MULTILINE)
        said = {int(number): numbers_in(comment) for number, comment in found}
        self.assertEqual({number: numbers_in(text) for number, text in jemqolu.MEANINGS.items()}, said)

    def test_the_arguments_are_those_of_the_header(self):
        numbers, declared = {"size_t": ctypes.c_size_t, "uint32_t": ctypes.c_uint32}, {}
        for name, arguments in re.findall(r"^int64_t jemqolu_(\w+)\((.*?)\);", self.text, re.DOTALL | re.MULTILINE):
            kinds = [ctypes.c_void_p if "*" in one else numbers[one.split()[0]] for one in arguments.split(",")]
            declared[name] = kinds
        self.assertEqual({name: call.argtypes for name, call in jemqolu._LOCKED.items()}, declared)
        self.assertEqual({name: call.argtypes for name, call in jemqolu._UNLOCKED.items()}, declared)


if __name__ == "__main__":
    unittest.main()
