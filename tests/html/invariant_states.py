"""States of the line of `fifteen_section_line.py` with their broken families, derived by hand from
docs/reference/model.md: the initial state with changes, written as in a run."""

from irvtools.model.state import State, read_state_line

HELD = ["section PA locked", "section U3 locked"]

STATES = [
    ("", []),
    # V1: the counts
    ("V1", ["route S3_S5 marked 1 0"]),
    ("V1", ["route S3_S5 free 0 1"]),
    ("V1", ["route S3_S5 occupied 0 0", *HELD]),
    ("V1", ["route S3_S5 occupied 1 1", "section U3 locked"]),
    ("", ["route S3_S5 occupied 1 0", "section PA used", "section U3 locked"]),
    ("", ["route S3_S5 occupied 2 1", "section U3 used"]),
    # V2: two routes hold one section; a marked route holds none, nor any route a released one
    ("V2", ["route S1_S3 allocating 0 "
            "0", "route S3_S5 allocating 0 0", "section U2 locked", *HELD]),
    ("V2 V6", ["route S3_S5 allocating 0 0", "route S3_S7 allocating 0 0", *HELD,
               "section L1 locked"]),
    ("", ["route S3_S5 marked 0 0", "route S3_S7 marked 0 0"]),
    ("", ["route S3_S5 occupied 2 1", "section U3 used", "route S3_S7 allocating 0 0",
          "section PA locked", "section L1 locked", "point PA plus minus"]),
    # V3: the locks of held elements in path, overlap and protecting points
    ("V3", ["route S3_S5 allocating 0 0", "section PA locked"]),
    ("V3", ["route S3_S5 occupied 1 0", *HELD]),
    ("V3", ["route S3_S5 locked 0 0", "section PA used", "section U3 locked"]),
    ("V3", ["route S1_S3 allocating 0 0", "section U2 locked"]),
    ("V3", ["route S7_U allocating 0 0", "section PB locked", "section PC locked",
            "section U4 locked", "section U5 locked", "point PB minus minus"]),
    ("", ["section PA locked", "section U3 used"]),
    # V4: an allocating route's path is vacant; its surroundings may be occupied
    ("V4", ["route S3_S5 allocating 0 0", *HELD, "train down U3"]),
    ("", ["route S3_S5 marked 0 0", "train down U3"]),
    # V5: an open board
    ("V5", ["board S3 open"]),
    ("V5", ["route S3_S5 allocating 0 0", *HELD, "board S3 open"]),
    ("V5", ["route S3_S5 locked 0 0", *HELD, "board S3 open", "train down U3"]),
    ("", ["route S3_S5 locked 0 0", *HELD, "board S3 open"]),
    ("", ["route S3_S5 locked 0 0", *HELD, "board S3 open", "train up U2"]),
    # V6: points of the path, without released ones and protecting ones
    ("V6", ["route S3_S5 allocating 0 0", *HELD, "point PA plus minus"]),
    ("", ["route S3_S5 allocating 0 0", *HELD, "point PA minus plus"]),
    ("V6", ["route S3_S5 locked 0 0", *HELD, "point PA minus plus"]),
    ("V6", ["route S3_S5 locked 0 0", *HELD, "point PA plus minus"]),
    ("V6", ["route S3_S5 occupied 1 0", "section PA used", "section U3 locked",
            "point PA moving plus"]),
    ("", ["route S3_S5 occupied 2 1", "section U3 used", "point PA minus minus"]),
    ("", ["route S7_U locked 0 0", "section PB locked", "section PC locked", "section U4 locked",
          "section U5 "
          "locked", "section PD locked", "point PB minus minus", "point PD minus minus"]),
    # V7 and V8: a train on PA, which no board stops
    ("V7 V8", ["train up PA"]),
    ("", ["route S3_S5 locked 0 0", *HELD, "train up PA"]),
    ("V5 V7", ["route S3_S5 locked 0 0", *HELD, "board S3 open", "train up PA"]),
    ("V4 V7 V8", ["route S3_S5 allocating 0 0", *HELD, "train up PA"]),
    ("V7 V8", ["route S3_S5 locked 0 0", *HELD, "train down PA"]),
    ("", ["route S3_S5 occupied 1 0", "section PA used", "section U3 locked", "train up PA"]),
    ("V7", ["route S3_S5 occupied 2 0", "section PA used", "section U3 used", "train up PA"]),
    ("V7", ["route S3_S5 locked 0 0", *HELD, "train up PA", "train down U3"]),
    ("", ["route S3_S5 occupied 2 0", "section PA used", "section U3 used", "train up PA U3"]),
    ("V8", ["route S3_S5 occupied 2 1", "section U3 used", "train up PA U3"]),
    # V9: a protecting board, only of a locked route
    ("V5 V9", ["route S1_S3 locked 0 "
               "0", "section U2 locked", "section PA locked", "board S8 open"]),
    ("V5", ["route S1_S3 allocating 0 "
            "0", "section U2 locked", "section PA locked", "board S8 open"]),
]


def made(plant, changes):
    """Returns the initial state with changes."""
    state = State(plant)
    for words in changes:
        read_state_line(plant, state, words.split(" "))
    return state
