#!/usr/bin/env python3
"""Compares the built programs with a folder of plan files and expected answers.

usage: agree.py CORPUS BIN    (BIN: target/bin, by tools/programs)

CORPUS holds plans/, listings/, loads.tsv, notes.tsv, writes.tsv, flights.tsv, and the flights of request 4 (tables.py). Prints a line for each
file of answers and leaves with 1 where one differs, or where none was compared. The flights are flown twice: as they stand, and with STRAYS
fixes of no plan behind each fix, which change no state and make a flight longer than a chunk of the program.
"""
import struct
import subprocess
import sys
import tempfile
from pathlib import Path

from tables import LAST_LEG, before_the_end, flights, rows

MOST = 60000  # bytes of questions in one run, below the program's buffer
STRAYS = 7


def question(letter, number, room, file):
    return struct.pack(">cIHH", letter, number, room, len(file)) + file


def answers(program, questions):
    """The program's lines, its questions handed over in as few runs as its buffer allows."""
    lines, batch = [], b""
    for q in questions + [None]:
        if q is None or len(batch) + len(q) > MOST:
            lines += subprocess.run([program], input=batch, stdout=subprocess.PIPE, check=True).stdout.decode().splitlines()
            batch = b""
        batch += q or b""
    return lines


def report(name, expected, got):
    wrong = [i for i, (e, g) in enumerate(zip(expected, got)) if e != g]
    print(f"{name}: {len(expected)} rows, {len(wrong) + abs(len(expected) - len(got))} differ")
    for i in wrong[:3]:
        print(f"  row {i + 1}: expected {expected[i][:120]}, got {got[i][:120]}")
    return bool(expected) and not wrong and len(expected) == len(got)


def packed(serial, numbers):
    return struct.pack(">I", serial) + bytes.fromhex("".join(numbers))


def guided(r):
    """What the line of a fix says between its number and its index."""
    if r["refusal"] != "0":
        return f"refused {r['refusal']} at {r['place']}"
    numbers = [r[f"c{i}"].lower() for i in range(1, 7)]
    if r["kind"] == "line":
        return f"line {' '.join(numbers)} heading {r['heading']}"
    return f"circle {' '.join(numbers[:4])} sense {r['sense']} heading {r['heading']}"


def flight(rows, strays):
    """The bytes of a flight's fixes and its lines, with so many fixes behind each that name no plan's serial, 0."""
    fixes, said = b"", []
    for r in rows:
        fixes += packed(int(r["named"]), [r["n"], r["e"], r["d"]]) + packed(0, ["00000000"] * 3) * strays
        after = f"index {r['index']} phase {r['phase']} finished {r['finished']}"
        said += [f"{guided(r)} {after}"] + [f"refused 15 at 0 {after}"] * strays
    return fixes, [f"fix {i} {text}" for i, text in enumerate(said, 1)]


def flown(program, plan, reader, fixes):
    """The program's lines on a plan and fixes in files of their own."""
    with tempfile.TemporaryDirectory() as folder:
        files = [Path(folder) / "plan.wpl", Path(folder) / "fixes.bin"]
        for file, content in zip(files, [plan, fixes]):
            file.write_bytes(content)
        return subprocess.run([program, reader, *files], stdout=subprocess.PIPE, check=True).stdout.decode().splitlines()


def plans_of(corpus):
    return {p.stem: p.read_bytes() for p in (corpus / "plans").glob("*.wpl")}


def files_agree(corpus, programs):
    """Loads, notes, writes and listings."""
    plans = plans_of(corpus)
    fit = lambda r: len(plans[r["file"]]) + 9 <= MOST
    answer = programs / "answers"

    loads = [r for r in rows(corpus / "loads.tsv") if fit(r)]
    good = report("loads.tsv", [f"load refused {r['refusal']} at {r['place']}" for r in loads],
                  answers(answer, [question(b"L", int(r["reader"]), 0, plans[r["file"]]) for r in loads]))

    notes = [r for r in rows(corpus / "notes.tsv") if fit(r)]
    part = lambda r: plans[r["file"]][int(r["offset"]):int(r["offset"]) + int(r["length"])].hex()
    good &= report("notes.tsv", [f"note {part(r)}" for r in notes],
                   answers(answer, [question(b"N", int(r["number"]), 0, plans[r["file"]]) for r in notes]))

    writes = [r for r in rows(corpus / "writes.tsv") if fit(r)]
    room = lambda r: r["hex"].lower().replace("-", "") + "aa" * (int(r["buffer"]) - int(r["length"]))
    good &= report("writes.tsv", [f"write refused {r['refusal']} at {r['place']} length {r['length']} {room(r)}" for r in writes],
                   answers(answer, [question(b"W", int(r["version"]), int(r["buffer"]), plans[r["file"]]) for r in writes]))

    names = sorted(plans)
    listed = [subprocess.run([programs / "listing"], input=plans[n], stdout=subprocess.PIPE, check=True).stdout for n in names]
    return good & report("listings", [(corpus / "listings" / f"{n}.txt").read_text() for n in names], [x.decode() for x in listed])


def flights_agree(name, plans, flown_rows, programs):
    good = True
    for strays in [0, STRAYS]:
        expected, got = [], []
        for f in flown_rows:
            fixes, lines = flight(f, strays)
            expected += lines
            got += flown(programs / "fly", plans[f[0]["file"]], f[0]["reader"], fixes)
        good &= report(f"{name}, {strays} strays", expected, got)
    return good


def standing_flights(corpus):
    """The flights that request 4 leaves: those of Dubins plans whole, others up to their end."""
    dubins = lambda f: "mode dubins" in (corpus / "listings" / f"{f[0]['file']}.txt").read_text()
    kept = [f if dubins(f) else before_the_end(f) for f in flights(corpus / "flights.tsv")]
    return [f for f in kept if f]


def main():
    corpus, programs = Path(sys.argv[1]), Path(sys.argv[2])
    last_leg = corpus / LAST_LEG
    good = files_agree(corpus, programs)
    good &= flights_agree("flights.tsv", plans_of(corpus), standing_flights(corpus), programs)
    good &= flights_agree(f"{LAST_LEG}/flights.tsv", plans_of(last_leg), flights(last_leg / "flights.tsv"), programs)
    sys.exit(0 if good else 1)


main()
