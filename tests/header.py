"""The numbers that include/farnkuppel.h defines, for scripts: they stand there alone."""
import pathlib
import re

HEADER = pathlib.Path(__file__).resolve().parent.parent / "include" / "farnkuppel.h"


def numbers(*names):
    """The numbers of these constants, each named without its FARNKUPPEL_. One that the header lacks is a KeyError with its name."""
    defined = dict(re.findall(r"^#define FARNKUPPEL_(\w+) (0x[0-9A-F]+|\d+)", HEADER.read_text(encoding="utf-8"), re.M))
    return [int(defined[name], 0) for name in names]
