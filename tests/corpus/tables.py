"""Tables of expected answers, and what of those for the first rules the requests have left standing.

A corpus folder answers for the rules as they were at first; `requests/NN` below it for a request, which decides where the two differ.
"""

STRIPS = "requests/01"  # strip plans and plans that are none
DISTANCES = "requests/02"  # states of every mode, with the distances to go
LAST_LEG = "requests/04"  # "Fly the last leg": flights and states of lines and fillets
DUBINS = "2"  # the mode of a Dubins state; request 4 leaves those alone


def rows(path):
    lines = path.read_text().splitlines()
    names = lines[0].split("\t")
    return [dict(zip(names, line.split("\t"))) for line in lines[1:]]


def flights(path):
    """The rows of each flight: a new one starts where the fix number returns to 1."""
    found = []
    for row in rows(path):
        if row["fix"] == "1":
            found.append([])
        found[-1].append(row)
    return found


def before_the_end(flight):
    """A flight of lines or fillets up to the fix that ended it at the last corner, which since request 4 it does not."""
    ends = [i for i, row in enumerate(flight) if row["finished"] == "1"]
    return flight[:ends[0]] if ends else flight


def state_stands(row):
    """Whether request 4 leaves a state's answers: a Dubins state, or one that is not at the end, before or after its fix."""
    inner = row["index"] != row["count"] and row["finished"] == "0" and row["a_finished"] == "0"
    return row["mode"] == DUBINS or inner
