#!/usr/bin/env python3
"""Compares the strips of the desk's C interface with a folder of states and expected answers.

usage: strips.py CORPUS ARCHIVE    (ARCHIVE: target/staticlib/libdesk.a, from tools/archives)

CORPUS holds the states of request 1 (tables.py), each with its check, and with its strips where it has some. Leaves with 1 where an answer differs,
a call changes a state, or none was compared.
"""
import ctypes
import sys
from pathlib import Path

from tables import STRIPS, rows
from words import STATE, library_of, numbers, words_of

CHECK, STRIP = numbers("STRIPS_WORDS", "STRIP_WORDS")


def expected_strips(row):
    return [[int(part) for part in strip.split(",")] for strip in row["rows"].split(";") if strip != "-"]


def asked(function, words, length, *number):
    """What a call answers: its result, the answer's words, and whether the state is as it was."""
    state, answer = (ctypes.c_int32 * STATE)(*words), (ctypes.c_uint32 * length)()
    result = function(state, ctypes.c_size_t(STATE), *map(ctypes.c_uint32, number), answer, ctypes.c_size_t(length))
    return result, list(answer), list(state) == words


def check_agrees(library, row, words):
    refusal, place, rule = (int(row[k]) for k in ("refusal", "place", "rule"))
    expected = [refusal, place, rule, len(expected_strips(row))]
    return asked(library.farnkuppel_strips, words, CHECK) == (refusal, expected, True)


def strips_agree(library, row, words):
    """Every strip, and none before the first and behind the last."""
    none = [0] * STRIP
    expected = [none, *expected_strips(row), none]
    return all(asked(library.farnkuppel_strip, words, STRIP, number) == (0, strip, True) for number, strip in enumerate(expected))


def main():
    table = Path(sys.argv[1]) / STRIPS / "strips.tsv"
    given = rows(table)
    library = library_of(sys.argv[2])
    stored = [(row, words) for row in given for words in [words_of(row)] if words]
    checks = sum(not check_agrees(library, row, words) for row, words in stored)
    strips = sum(not strips_agree(library, row, words) for row, words in stored)
    count = sum(len(expected_strips(row)) for row, _ in stored)
    print(f"{STRIPS}/strips.tsv: {len(stored)} of {len(given)} rows asked, with {count} strips; {checks} checks differ, strips of {strips} rows differ")
    sys.exit(0 if count and not (checks or strips) else 1)


main()
