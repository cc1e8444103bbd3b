"""The simulator's sentences about disabled, waiting and blocked things, derived by hand from
docs/reference/model.md.

Each entry of REFUSED has a plant, the earlier events, the event, and the sentence. Commas separate
the events; after `drive` the automatic events follow each."""

CROSSING = "drive enter b1, mark r1, enter b2, mark r6"    # trains in t1 and t2, up and down

REFUSED = [
    # routes
    ("station", "mark r1", "mark r1", "r1 cannot be requested: r1 is marked, not free."),
    ("station", "", "allocate r1", "r1 cannot be allocated: r1 is free, not marked."),
    ("station", "mark r1, allocate r1, mark r2", "allocate r2",
     "r2 cannot be allocated: its conflict r1 is allocating; p1 is locked by r1."),
    ("station", CROSSING + ", mark r1", "allocate r1",
     "r1 cannot be allocated: t1 is occupied by train 1."),
    ("station", "mark r1, allocate r1, lock r1, enter b1, head b1, sense r1, mark "
                "r2", "allocate r2",
     "r2 cannot be allocated: p1 is used by r1; p1 is occupied by train 1."),
    ("station", "mark r2, allocate r2", "lock r2",
     "r2 cannot be locked: points p1 are in position plus and do not move to minus yet."),
    ("station", "mark r2, allocate r2, throw p1", "lock r2",
     "r2 cannot be locked: points p1 are still moving to minus."),
    ("station", "mark r1", "lock r1", "r1 cannot be locked: r1 is marked, not allocating."),
    ("station", "mark r1, allocate r1", "sense r1",
     "r1 cannot detect a train: r1 is allocating, not locked or occupied; p1, the next section of "
     "its path, "
     "is vacant."),
    ("station", "mark r1, allocate r1, lock r1, enter b1, head b1, sense r1", "release r1",
     "r1 cannot release a section: t1, the section after it, is not detected yet; p1 is occupied "
     "by train 1."),
    ("station", "mark r1, allocate r1, lock r1, enter b1, head b1, sense r1", "finish r1",
     "r1 cannot be finished: t1 of its path is not detected yet; p1 of its path is not released "
     "yet."),
    ("station", "mark r1, allocate r1, lock r1", "cancel r1",
     "r1 cannot be cancelled: r1 is locked, not marked or allocating."),
    # protection: r1 has m2 and m4 as protecting boards, and p2 as a protecting point to minus
    ("station-protected", "mark r5, allocate r5, lock r5, mark r1", "allocate r1",
     "r1 cannot be allocated: its conflict r5 is locked; t1 is locked by r5; p2 is locked by r5."),
    ("station-protected", "mark r1, allocate r1", "lock r1",
     "r1 cannot be locked: points p2 are in position plus and do not move to minus yet."),
    # points and trains
    ("station", "", "throw p1", "Points p1 cannot be thrown: points p1 are in position plus, as "
                                "commanded."),
    ("station", "", "settle p1", "Points p1 cannot settle: points p1 are not moving: they are in "
                                 "position plus."),
    ("station", "", "enter t1", "No train can enter at t1: t1 is not a border of the network."),
    ("station", "enter b1", "enter b1", "No train can enter at b1: b1 is occupied by train 1."),
    ("station", "mark r7, allocate "
                "r7", "enter b1", "No train can enter at b1: b1 is locked by r7."),
    ("station", "enter b1", "head b1", "No train can move on from b1: board m1 is closed."),
    ("station", "", "head b1", "No train can move on from b1: no train has its front in b1."),
    ("station", "enter b1", "tail b1", "No rear of a train can leave b1: b1 is the only section of "
                                       "train 1."),
    ("station", "enter b1", "leave b1",
     "No train can leave the area at b1: the network continues after b1."),
    ("two-sections", "enter a, head "
                     "a", "head b", "No train can move on from b: the network ends there."),
    ("two-sections", "enter a, head a", "leave b",
     "No train can leave the area at b: train 1 has other sections besides b."),
    # nothing after a hazard
    ("two-sections", "enter a, enter b, head a", "tail a",
     "No rear of a train can leave a: the run has ended in a hazard (hazard two b)."),
]

# the plant, the events, and the sentences about waiting routes
WAITING = [
    ("station", "drive mark r1", {"r1": ["no train is at board m1 yet"]}),
    ("station", "mark r1, allocate r1, lock r1, enter "
                "b1", {"r1": ["train 1 has not passed board m1 yet"]}),
    ("station", CROSSING + ", mark r2", {"r2": ["t2 is occupied by train 2"]}),
    ("station", "drive mark r7, mark r2",
     {"r7": ["no train is at board m4 "
             "yet"], "r2": ["its conflict r7 is locked", "p1 is locked by r7"]}),
    ("station", "mark r1, allocate r1, lock r1, enter b1, head b1, sense r1",
     {"r1": ["no train is in t1 yet"]}),
    ("station", "mark r1, allocate r1, lock r1, enter b1, head b1, sense r1, head p1, sense r1, "
                "tail b1",
     {"r1": ["train 1 has not left p1 yet"]}),
]

# The plant, the events, and the deadlocked trains. In the passing loop two waiting up trains cannot
# leave while a down train waits at b2, nor can that one enter.
BLOCKED = [
    ("station", CROSSING, []),
    ("station", "drive enter b1, mark r1, enter b1, mark r2, enter b2",
     ["Train 1, Train 2, Train 3 block each other: none of them can ever move on.",
      "Train 1 waits at board m3: r3 needs b2, which train 3 occupies.",
      "Train 2 waits at board m5: r4 needs b2, which train 3 occupies.",
      "Train 3 waits at board m2: r5 needs t1, which train 1 occupies; r6 needs t2, which train 2 "
      "occupies."]),
    ("station", "drive enter b1, mark r1, enter b2", []),
    # a train behind the three is blocked with them
    ("station", "drive enter b1, mark r1, enter b1, mark r2, enter b2, enter b1",
     ["Train 1, Train 2, Train 3, Train 4 block each other: none of them can ever move on.",
      "Train 1 waits at board m3: r3 needs b2, which train 3 occupies.",
      "Train 2 waits at board m5: r4 needs b2, which train 3 occupies.",
      "Train 3 waits at board m2: r5 needs t1, which train 1 occupies; r6 needs t2, which train 2 "
      "occupies.",
      "Train 4 waits at board m1: r1 needs t1, which train 1 occupies; r2 needs t2, which train 2 "
      "occupies."]),
    # the rears of trains 1 and 3 are on points that others need, but may leave them
    ("station", "enter b1, mark r2, allocate r2, throw p1, settle p1, lock r2, head b1, sense r2, "
                "tail b1, "
                "head p1, enter b1, enter b2, mark r5, allocate r5, lock r5, head b2, sense r5, "
                "tail b2, "
                "head p2", []),
    # two trains face each other on a line: each route leads over the other's section
    ("line-with-boards", "enter a, enter b",
     ["Train 1, Train 2 block each other: none of them can ever move on.",
      "Train 1 waits at board m1: r1 needs b, which train 2 occupies.",
      "Train 2 waits at board m2: r2 needs a, which train 1 occupies."]),
    # a route allocated before the train came may still be locked: nothing is said
    ("line-with-boards", "enter a, mark r1, allocate r1", []),
]
