#!/usr/bin/env python3
"""Compares the autopilot's C interface with a folder of states and expected answers.

usage: states.py CORPUS ARCHIVE    (ARCHIVE: target/staticlib/libautopilot.a, from tools/archives)

CORPUS holds states.tsv, most of them broken, each with a fix and a write, and the states of request 4 (tables.py). Leaves with 1 where an answer
differs, or where none was compared.
"""
import ctypes
import struct
import sys
from pathlib import Path

from tables import LAST_LEG, rows, state_stands
from words import STATE, library_of, numbers, words_of

ANSWER, WRITTEN, COMMAND = numbers("ANSWER_WORDS", "WRITE_WORDS", "COMMAND_NUMBERS")
KINDS = dict(zip(("none", "line", "circle"), numbers("COMMAND_NONE", "COMMAND_LINE", "COMMAND_CIRCLE")))


def fixed(library, row, words):
    """What the fix answers, in the file's columns, and the words afterwards."""
    state, answer, command = (ctypes.c_int32 * STATE)(*words), (ctypes.c_uint32 * ANSWER)(), (ctypes.c_float * COMMAND)()
    place = [struct.unpack(">f", bytes.fromhex(row[k]))[0] for k in "ned"]
    named = ctypes.c_uint32(int(row["named"]))
    library.farnkuppel_fix(state, STATE, named, *map(ctypes.c_float, place), answer, ANSWER, command, COMMAND)
    a = list(answer)
    numbers = [struct.pack("<f", x)[::-1].hex().upper() for x in command]
    return [a[0], a[1], a[2], *numbers, a[3], *a[4:]], list(state)


def wanted(row):
    sense = int(row["a_sense"]) & 0xFFFFFFFF
    numbers = [row[f"a_c{i}"].upper() for i in range(1, 7)]
    rest = [int(row[k]) for k in ("a_heading", "a_index", "a_phase", "a_finished")]
    return [int(row["a_refusal"]), int(row["a_place"]), KINDS[row["a_kind"]], *numbers, sense, *rest]


def wrote(library, row, words):
    room = int(row["w_buffer"])
    state, answer, file = (ctypes.c_int32 * STATE)(*words), (ctypes.c_uint32 * WRITTEN)(), (ctypes.c_uint8 * max(room, 1))()
    library.farnkuppel_write(state, STATE, ctypes.c_uint32(int(row["w_version"])), file, ctypes.c_size_t(room), answer, WRITTEN)
    return list(answer)


def states_agree(name, library, asked, total):
    stored = [(row, words) for row in asked for words in [words_of(row)] if words]
    fixes = sum(1 for row, words in stored if fixed(library, row, words)[0] != wanted(row))
    kept = sum(1 for row, words in stored if row["a_refusal"] != "0" and fixed(library, row, words)[1] != words)
    writes = sum(1 for row, words in stored if wrote(library, row, words) != [int(row[k]) for k in ("w_refusal", "w_place", "w_length")])
    print(f"{name}: {len(stored)} of {total} rows asked; {fixes} fixes differ, {kept} refused fixes change words, {writes} writes differ")
    return bool(stored) and not (fixes or kept or writes)


def main():
    corpus, archive = Path(sys.argv[1]), sys.argv[2]
    library = library_of(archive)
    states, last_leg = rows(corpus / "states.tsv"), rows(corpus / LAST_LEG / "states.tsv")
    good = states_agree("states.tsv", library, [row for row in states if state_stands(row)], len(states))
    good &= states_agree(f"{LAST_LEG}/states.tsv", library, last_leg, len(last_leg))
    sys.exit(0 if good else 1)


main()
