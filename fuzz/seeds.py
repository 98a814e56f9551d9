#!/usr/bin/env python3
"""Writes the seeds of the fuzzer: the sample plans, small plans of each mode, version and refusal, strip plans, and plans to be measured, with calls.

usage: seeds.py FOLDER        (the form of an input is in fuzz.c)
"""
import os
import struct
import sys

ROOT = os.path.join(os.path.dirname(os.path.abspath(__file__)), "..")
sys.path.insert(0, os.path.join(ROOT, "tests"))
from header import numbers  # noqa: E402

FIX, NAMED, NEAR, FLY, WRITE, SET, FIX_SET, STRIPS, DISTANCES = range(9)
NEWEST, MENDED = 3, 128
SERIAL, MODE, RADIUS_WORD, COUNT = numbers("STATE_SERIAL", "STATE_MODE", "STATE_RADIUS", "STATE_COUNT")
INDEX, PHASE, FINISHED = numbers("STATE_INDEX", "STATE_PHASE", "STATE_FINISHED")
PLACES, NORTHS, EASTS, DOWNS, COURSES = numbers("MOST_POINTS", "STATE_NORTHS", "STATE_EASTS", "STATE_DOWNS", "STATE_COURSES")


def read(path):
    with open(os.path.join(ROOT, path), "rb") as file:
        return file.read()


def record(kind, body):
    return bytes([kind, len(body)]) + body


def point(north, east, down=0):
    return record(1, struct.pack(">iii", north, east, down))


def pair(kind, value):
    return record(kind, struct.pack(">H", value))


def plan(version, *records, serial=7):
    area = b"".join(records)
    return b"WPL" + struct.pack(">HIH", version, serial, len(area)) + area


def seed(file, *calls, reader=NEWEST, asked=1, mended=0):
    flown = b"".join(calls)
    return bytes([reader | mended, asked]) + struct.pack(">H", len(flown)) + flown + file


def fix(kind, north, east, down=0.0):
    return bytes([kind]) + struct.pack(">fff", north, east, down)


def fly(fixes, metres):
    return bytes([FLY, fixes, metres])


def near(place, north, east):
    return bytes([NEAR, place]) + struct.pack(">hh", north, east)


def write(version, less=0):
    return bytes([WRITE, version]) + struct.pack(">H", less)


def set_word(place, value):
    return bytes([SET]) + struct.pack(">HI", place, value & 0xFFFFFFFF)


def ask(number):
    return bytes([STRIPS]) + struct.pack(">I", number)


def table(entries):
    return bytes([DISTANCES, entries])


def recorded_fixes(path):
    data = read(path)
    return [bytes([NAMED]) + data[at:at + 16] for at in range(0, len(data), 16)]


LEGS = [point(0, 0, -1000), point(3000, 0, -1000), point(3000, 4000, -900), point(-500, 4000)]
RADIUS = pair(2, 200)


def dubins(*courses):
    return [RADIUS] + [record for leg, course in zip(LEGS, courses) for record in (leg, pair(3, course))]


def strips_north(count):
    """Strips to the north and back, each as its start, its end, and their courses; one end is higher than the other."""
    there = [((0, 800 * j, 0), (3000, 800 * j, -500), (0, 0)) for j in range(count)]
    return [strip if j % 2 == 0 else turned(strip) for j, strip in enumerate(there)]


def turned(strip):
    """The strip flown the other way: it keeps all rules but the third."""
    start, end, courses = strip
    return end, start, tuple((course + 2048) % 4096 for course in courses)


def other_courses(strip, *by):
    start, end, courses = strip
    return start, end, tuple((course + more) % 4096 for course, more in zip(courses, by))


def veered(strip):
    """The strip a unit beside its course, and its courses with it: (3000, 5) has the bearing 1, and (-3000, -5) 2049."""
    start, (north, east, down), courses = other_courses(strip, 1, 1)
    return start, (north, east + (5 if north else -5), down), courses


def with_other(at, other):
    """Three strips, one of them another."""
    return [other(strip) if j == at else strip for j, strip in enumerate(strips_north(3))]


def strip_plan(strips):
    return plan(3, RADIUS, *[r for start, end, courses in strips for p, c in zip((start, end), courses) for r in (point(*p), pair(3, c))])


def strips():
    for count in [2, 3, 4, PLACES // 2]:
        yield seed(strip_plan(strips_north(count)), *[ask(n) for n in [0, 1, count, count + 1, 257, 65537]], fly(100, 30), ask(2), asked=count)
    for at in range(3):
        for by in [(0, 1), (4095, 0), (1, 1), (2048, 2048)]:
            yield seed(strip_plan(with_other(at, lambda strip: other_courses(strip, *by))), ask(1))
        for other in [veered, turned]:
            yield seed(strip_plan(with_other(at, other)), ask(1), fly(20, 30), ask(3))
    file = strip_plan(strips_north(2))
    yield seed(file, set_word(MODE, 1), ask(1), set_word(COUNT, 3), ask(1))
    yield seed(file, set_word(PHASE, 257), ask(1))


def distances():
    """Each sample, flown in part between the questions; corners of a square, of which R = 1000 takes whole legs; tables of every length."""
    for name in ["lines", "fillets", "dubins", "strips"]:
        yield seed(read(f"samples/{name}.wpl"), *[call for _ in range(4) for call in (fly(50, 60), table(7))], asked=7)
    square = [point(0, 0), point(1000, 0, -5000), point(1000, 1000, 5000), point(0, 1000)]
    for radius in [50, 200, 500]:
        yield seed(plan(2, pair(2, radius), *square), *[table(entries) for entries in range(7)])
    for end in [1000, -1000]:
        yield seed(plan(2, pair(2, 1000), *square[:2], point(1000, end)), table(3), near(2, 0, 0), near(3, 0, 0), table(4))
    yield seed(plan(1, *square), *[call for at in (2, 3, 4, 5) for call in (set_word(INDEX, at), table(4), table(5))])
    yield seed(plan(3, *dubins(0, 1024, 2048, 3072)), set_word(INDEX, 4), table(65), set_word(PHASE, 5), set_word(FINISHED, 1), table(65))


def samples():
    for name in ["lines", "fillets", "dubins"]:
        file = read(f"samples/{name}.wpl")
        for metres in [5, 10, 20]:
            yield seed(file, fly(200, metres), write(NEWEST))
        yield seed(file, *[near(place, 10, -10) for place in range(5)], write(2), write(1), write(NEWEST, 1000))
    file = read("crates/fly/data/plan.wpl")
    fixes = recorded_fixes("crates/fly/data/fixes.bin")
    for at in range(0, len(fixes), 16):
        yield seed(file, *fixes[at:at + 16])


def loading():
    for version in [1, 2, 3, 4, 65535]:
        yield seed(plan(version, *LEGS), fly(200, 10))
    for version in [2, 3, 5]:
        yield seed(plan(version, record(128, b"A"), RADIUS, *LEGS, record(128, b"z" * 32)), fly(200, 10), asked=2)
    for courses in [(0, 0, 0, 0), (0, 1024, 2048, 3072), (2048, 100, 4000, 1), (512, 3584, 1024, 0)]:
        yield seed(plan(3, *dubins(*courses)), fly(200, 15), write(NEWEST))
        yield seed(plan(4, pair(129, 500), *dubins(*courses), record(200, b"later")), fly(200, 25))
    yield seed(plan(3, record(128, b"start"), *LEGS, pair(129, 500)), fly(50, 10))
    zigzag = [point(1000 * i, 800 * (i % 2)) for i in range(PLACES)]
    yield seed(plan(1, *zigzag), fly(200, 60))
    yield seed(plan(3, RADIUS, *[r for leg in zigzag for r in (leg, pair(3, 64))]), fly(200, 40), write(NEWEST))


def refused():
    lines = plan(1, *LEGS)
    files = [
        b"", lines[:10], b"wpl" + lines[3:], plan(0, *LEGS), plan(1, *LEGS, serial=0), lines + b"\0", lines[:-1],
        plan(4, *LEGS, record(4, b"")), plan(3, *LEGS[:2]), plan(3, *[LEGS[0], pair(3, 0)], *LEGS[1:]),
        plan(1, LEGS[0], LEGS[0], *LEGS[1:]), plan(1, LEGS[0], LEGS[1], LEGS[0]), plan(2, pair(2, 9000), *LEGS),
        plan(3, pair(2, 9000), *dubins(0, 0, 0, 0)[1:]), plan(2, *LEGS, record(128, b"")), plan(3, *LEGS, pair(129, 1001)),
        plan(2, RADIUS, RADIUS, *LEGS), plan(1, *LEGS, point(500001, 0)), plan(2, RADIUS, LEGS[0], LEGS[1], LEGS[0]),
        plan(3, *dubins(0, 0, 0, 0)[:-1]),
    ]
    for reader, file in enumerate(files):
        yield seed(file, fix(FIX, 0.0, 0.0), reader=reader % 8)
        yield seed(file, near(1, 0, 0), mended=MENDED)


def fixes():
    file = plan(3, *dubins(0, 1024, 2048, 3072))
    far = [50000.0, 50000.00390625, float("nan"), float("inf"), -50000.0]
    yield seed(file, *[fix(FIX, north, 1.0) for north in far], *[fix(FIX, 0.25, 0.05, down) for down in [10000.0, -10001.0]])
    yield seed(file, bytes([NAMED]) + struct.pack(">Ifff", 8, 0, 0, 0))
    for place, value in broken_words():
        yield seed(file, set_word(place, value), ask(1), table(PLACES + 1), fix(FIX_SET, 10.0, 10.0), fix(FIX_SET, 300.0, 400.0))
    for phase in range(1, 6):
        yield seed(file, set_word(INDEX, 4), set_word(PHASE, phase), *[fix(FIX_SET, north, 400.0) for north in [-100.0, -50.0, 0.0, 50.0]])


def broken_words():
    """Words out of their ranges, and some that a narrower or an unsigned number would take for others."""
    least = -1 << 31
    front = {SERIAL: [0, least], MODE: [3, -1, 258], RADIUS_WORD: [0, -1, 65736, least], COUNT: [65, -1, least + 4], INDEX: [4, 0, -2, least + 2],
             PHASE: [5, 6, -1, 257, least + 1], FINISHED: [1, 2, -1, least]}
    blocks = {NORTHS: [500001, -500001, least], EASTS: [500001, least], DOWNS: [100001, -100001, least], COURSES: [4096, -1, -4096, -65536, 65536, least]}
    unused = {block + PLACES - 1: [1, -1, least] for block in blocks}
    return [(place, value) for words in (front, blocks, unused) for place in words for value in words[place]]


def main(folder):
    os.makedirs(folder, exist_ok=True)
    for made in [samples, loading, refused, fixes, strips, distances]:
        for place, data in enumerate(made()):
            with open(os.path.join(folder, f"{made.__name__}-{place:02}"), "wb") as file:
                file.write(data)


main(sys.argv[1])
