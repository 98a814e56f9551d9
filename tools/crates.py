"""crates.txt: each crate with its group and the crates that it stands on. A line '# ---- NAME' begins a group; what stands behind a crate's name, as
`staticlib`, says how it is built."""
import pathlib
import re
import sys
from collections import namedtuple

ROOT = pathlib.Path(__file__).resolve().parent.parent
GROUP = re.compile(r"#\s*----\s*(\S+)\s*$")
Crate = namedtuple("Crate", "name group on")


def read(path=ROOT / "crates.txt"):
    """The crates in the file's order. What is not listed there itself, the libraries of the kit, is left out of what they stand on."""
    group, lines = None, []
    for line in path.read_text(encoding="utf-8").splitlines():
        heading = GROUP.match(line)
        name, colon, on = line.partition("#")[0].partition(":")
        if heading:
            group = heading.group(1)
        elif colon and not group:
            sys.exit(f"crates.txt: {name.strip()} stands in no group: a line '# ---- NAME' begins one")
        elif colon:
            lines.append((name.split()[0], group, on.split()))
    names = {name for name, _, _ in lines}
    return [Crate(name, group, [one for one in on if one in names]) for name, group, on in lines]
