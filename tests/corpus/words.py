"""A state of a table as the words of the C interface, and an archive as a library whose functions can be called."""
import ctypes
import subprocess
import sys
import tempfile
from pathlib import Path

sys.path.insert(0, str(Path(__file__).resolve().parent.parent))
from header import numbers  # noqa: E402

STATE, *BLOCKS, COURSES = numbers("STATE_WORDS", "STATE_NORTHS", "STATE_EASTS", "STATE_DOWNS", "STATE_COURSES")


def words_of(row):
    """The state's words; None where a number does not fit a word."""
    front = [int(row[k]) for k in ("serial", "mode", "radius", "count", "index", "phase", "finished")]
    words = front + [0] * (STATE - len(front))
    for i, point in enumerate(p for p in row["points"].split(";") if p not in ("", "-")):
        for block, part in zip(BLOCKS, point.split(",")):
            words[block + i] = int(part)
    for i, course in enumerate(c for c in row["courses"].split(";") if c not in ("", "-")):
        words[COURSES + i] = int(course)
    return [signed(w) for w in words] if all(-1 << 31 <= w < 1 << 32 for w in words) else None


def signed(number):
    """The word with the bits of a number."""
    return ctypes.c_int32(number).value


def library_of(archive):
    with tempfile.TemporaryDirectory() as folder:
        shared = f"{folder}/archive.so"
        subprocess.run(["cc", "-shared", "-o", shared, "-Wl,--whole-archive", archive, "-Wl,--no-whole-archive"], check=True)
        return ctypes.CDLL(shared)
