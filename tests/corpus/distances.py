#!/usr/bin/env python3
"""Compares the distances of the autopilot's C interface with a folder of states and expected answers.

usage: distances.py CORPUS ARCHIVE    (ARCHIVE: target/staticlib/libautopilot.a, from tools/archives)

CORPUS holds the states of request 2 (tables.py), each with the length of the table that is lent and the entries that are written. Leaves with 1 where
an answer or an entry differs, a call changes a state or another entry, or none was compared.
"""
import ctypes
import sys
from pathlib import Path

from tables import DISTANCES, rows
from words import STATE, library_of, numbers, words_of

TABLE, LEFT = numbers("DISTANCES_WORDS", "DISTANCE_WORDS")
UNTOUCHED = 0xA5A5A5A5  # more than any distance
BESIDE = 3  # entries on both sides of the table that is lent


def expected_entries(row):
    return [int(entry) for entry in row["entries"].split(";") if entry != "-"]


def untouched(length):
    return (ctypes.c_uint32 * length)(*[UNTOUCHED] * length)


def asked(function, words, length, *table):
    """What a call answers: its result, the answer's words, and whether the state is as it was."""
    state, answer = (ctypes.c_int32 * STATE)(*words), untouched(length)
    result = function(state, ctypes.c_size_t(STATE), *table, answer, ctypes.c_size_t(length))
    return result, list(answer), list(state) == words


def table_agrees(library, row, words):
    """The answer, and every entry of the table and beside it: those from 2 on are the plan's, and no other is written."""
    refusal, place, length = (int(row[k]) for k in ("refusal", "place", "table"))
    around, expected = untouched(length + 2 * BESIDE), [UNTOUCHED] * (length + 2 * BESIDE)
    for i, entry in enumerate(expected_entries(row), 2):
        expected[BESIDE + i] = entry
    table = ctypes.byref(around, BESIDE * ctypes.sizeof(ctypes.c_uint32))
    answered = asked(library.farnkuppel_distances, words, TABLE, table, ctypes.c_size_t(length))
    return answered == (refusal, [refusal, place], True) and list(around) == expected


def left_agrees(library, row, words):
    """The distance at the state: refused where the state is, else the entry at its index, which the row lacks where its table has no room (16)."""
    refusal, entries = 14 if row["refusal"] == "14" else 0, expected_entries(row)
    result, answer, kept = asked(library.farnkuppel_distance, words, LEFT)
    left = entries[int(row["index"]) - 2] if entries else 0 if refusal else answer[-1]
    return (result, answer, kept) == (refusal, [refusal, 0, left], True)


def main():
    given = rows(Path(sys.argv[1]) / DISTANCES / "distances.tsv")
    library = library_of(sys.argv[2])
    stored = [(row, words) for row in given for words in [words_of(row)] if words]
    tables = sum(not table_agrees(library, row, words) for row, words in stored)
    lefts = sum(not left_agrees(library, row, words) for row, words in stored)
    count = sum(len(expected_entries(row)) for row, _ in stored)
    print(f"{DISTANCES}/distances.tsv: {len(stored)} of {len(given)} rows asked, with {count} entries; {tables} tables differ, {lefts} distances differ")
    sys.exit(0 if count and not (tables or lefts) else 1)


main()
