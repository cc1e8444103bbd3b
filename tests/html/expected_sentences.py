"""The page's expected words about each rule, derived by hand from the configurations of tests/cases
that break it, by file and name."""

SENTENCES = [
    # file, case, line of check, words in the sentences, and number of sentences if not one
    ("form", "one byte more than is read", "refused F1 document", ["4194305 bytes", "4194304"]),
    ("form", "a configuration without its last brace", "refused F2 document", ["Line 8, column 1"]),
    ("form", "version 3", "refused F4 document", ["3", "1 or 2"]),
    ("form", "a name with a space", "refused F5 sections[0]", ["“a b”", "section a", "“ ”"]),
    ("form", "257 sections", "refused F6 document", ["257 sections", "256"]),
    ("members", "linear: up missing", "refused F3 sections[2]",
     ["section t (number 2)", "lacks the member up"]),
    ("members", "route: path is an array with number", "refused F3 routes[1]",
     ["member path", "route r2 (number 1)", "an array with a number", "an array of texts"]),
    ("members", "point: unknown member with null", "refused F3 sections[1]",
     ["section p (number 1)", "member other"]),
    ("network", "N1 broken, with N6", "refused N1 sections[2]",
     ["number 2 is called b", "number 1"]),
    ("network", "N2 broken", "refused N2 boards[1]",
     ["called m1", "section a for trains that run up", "section b for trains that run down"]),
    ("network", "N3 broken", "refused N3 sections[0]",
     ["Section a", "z", "up side", "no section has that name"]),
    ("network", "N4 broken by the legs of a point", "refused N4 sections[1]",
     ["Section p", "t", "plus", "minus", "differ"]),
    ("network", "a neighbour left out", "refused N5 sections[1]",
     ["Section b names a", "a does not name b", "up side"]),
    ("network", "a neighbour left out", "refused N6 sections[0]", ["Section a has no neighbour"]),
    ("network", "N4 broken by stem and "
                "plus", "refused N7 sections[0]", ["section s", "s, p and then s"]),
    ("network", "N8 broken", "refused N8 "
                             "sections[1]", ["Section b", "m2", "run up", "no neighbour"]),
    ("routes", "R1 broken", "refused R1 routes[1]", ["number 1 is called r1", "number 0"]),
    ("routes", "R2 broken", "refused R2 "
                            "routes[0]", ["Route r1 begins at z", "no board has that name"]),
    ("routes", "R3 broken by a section that stands twice in the path", "refused R3 routes[0]",
     ["section b 2 times", "route r1"]),
    ("routes", "R4 broken by a linear section", "refused R4 routes[0]",
     ["r1 lists b", "linear section"]),
    ("routes", "R5 broken", "refused R5 routes[0]", ["r1 ends at z", "null"]),
    ("routes", "R6 broken by a route that lists "
               "itself", "refused R6 routes[0]", ["r1 lists itself"]),
    ("routes", "R7 broken by a point of the "
               "path", "refused R7 routes[0]", ["r1 lists p", "its path"]),
    ("routes", "R8 broken by the source", "refused R8 routes[0]", ["r1", "its own entry board m1"]),
    ("columns", "C1 broken at a later section", "refused C1 routes[0]",
     ["Route r1", "d after b", "after b comes c"]),
    ("columns", "C2 broken by a path that ends before a neighbour, without a board",
     "refused C2 routes[0]", ["r1 ends in section b", "no board stops", "continues to c"]),
    ("columns", "C2 broken by a board inside the path", "refused C2 routes[0]",
     ["r1", "past board m3 on section b"]),
    ("columns", "C3 broken by the other leg ahead", "refused C3 routes[0]",
     ["points p in position minus", "leads to u", "leads over t", "should be plus"]),
    ("columns", "C3 broken by a point that isn't listed", "refused C3 routes[0]",
     ["points p, but does not list them", "plus"]),
    ("columns", "C4 broken at the first section of the overlap", "refused C4 routes[0]",
     ["overlap of route r1", "d after b", "after b comes c"]),
    ("columns", "C5 broken", "refused C5 routes[0] routes[1]",
     ["r1 lists r2 as a conflict", "r2 does not list r1"]),
    ("columns", "C6 broken", "refused C6 routes[0] routes[1]",
     ["r1 and r2 both lock b", "r1 does not list r2"]),
    ("columns", "C7 broken", "refused C7 sections[1]",
     ["section b", "run down", "board for direction down"]),
    ("columns", "C8 broken", "refused C8 routes[0] routes[1]",
     ["r2 begins at m4", "protecting board of route r1", "r1 does not list r2"])]

# faults in the line of `fifteen_section_line.py`: a line of check, and the page's words about it
LINE_SENTENCES = [
    ("facing-point-wrong", "refused C3 routes[2]",
     "Route S3_S7 lists points PA in position plus, which leads to U3, but its path leads over L1: "
     "the "
     "position should be minus."),
    ("point-not-listed", "refused C3 routes[3]",
     "Route S5_U leads over points PC, but does not list them; it should, in position plus."),
    ("path-skips-section", "refused C1 routes[12]",
     "Route S8_X, which runs down, lists U1 after PA in its path; after PA comes U2."),
    ("path-begins-late", "refused C1 routes[1]",
     "Route S3_S5, which runs up, begins at S3 on section U2, but its path starts with U3; after "
     "U2 comes "
     "PA."),
    ("path-ends-early", "refused C2 routes[3]",
     "The path of route S5_U ends in section U4, where no board stops a train that runs up: the "
     "train "
     "continues to U5, which the route does not lock. The path must continue to a board or out of "
     "the "
     "network."),
    ("board-passed", "refused C2 routes[0]",
     "The path of route S1_S5 continues past board S3 on section U2, where a train stops. A route "
     "must end "
     "at the first board for its direction."),
    ("overlap-does-not-follow", "refused C4 routes[0]",
     "The overlap of route S1_S3, which runs up, lists U3 after U2; after U2 comes PA."),
    ("conflict-missing", "refused C6 routes[1] routes[11]",
     "Routes S3_S5 and S4_S10 both lock U3, but S3_S5 does not list S4_S10 as a conflict; each "
     "should list "
     "the other."),
    ("border-without-board", "refused C7 sections[8]",
     "The network ends at section U5, but no board stops trains that enter there and run down. The "
     "section "
     "needs a board for direction down."),
    ("protection-not-listed", "refused C8 routes[0] routes[8]",
     "Route S4_S6 begins at S4, a protecting board of route S1_S3, but S1_S3 does not list S4_S6 "
     "as a "
     "conflict; it should.")]

# refusals without words in the report
WORDLESS = set()

# the column rules on which safety depends, and the others
RESTING = {"C1", "C2", "C3", "C7"}
NOT_RESTING = {"C4", "C5", "C6", "C8"}
