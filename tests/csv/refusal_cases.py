"""Refusals of tools/csv: each case's arguments, files, standard input and reported lines.

A case's directory has `conf`, a configuration of two sections, and the directory `two` with its
sheets. A case changes or adds files; None removes one.
"""

SECTIONS = """name,kind,down,up,board down,board up,stem,plus,minus,faces
a,linear,,b,,m1,,,,
b,linear,a,,m2,,,,,
"""
ROUTES = """name,source,destination,path,overlap,points,conflicts
r1,m1,,b,,,
r2,m2,,a,,,
"""
CONF = """{"version": 1,
 "sections": [
  {"name": "a", "kind": "linear", "down": null, "up": "b", "board_down": null, "board_up": "m1"},
  {"name": "b", "kind": "linear", "down": "a", "up": null, "board_down": "m2", "board_up": null}],
 "routes": [
  {"name": "r1", "source": "m1", "destination": null, "path": ["b"], "overlap": [], "points": [], "conflicts": []},
  {"name": "r2", "source": "m2", "destination": null, "path": ["a"], "overlap": [], "points": [], "conflicts": []}]}
"""
S, R = "two/sections.csv", "two/routes.csv"
NAME = "1 to 32 of the characters A to Z, a to z, 0 to 9, _ and - were expected"
IN = ["--in", "two"]
LONG = "x" * 33
HEADS = "name, kind, down, up, board down, board up, stem, plus, minus, faces were expected"
ROUTE_HEADS = ("name, source, destination, path, overlap, points, conflicts, protecting points, "
               "protecting boards were expected")


def row(cells, sheet=SECTIONS):
    """Returns a sheet with one row, on line 2."""
    return sheet.splitlines()[0] + "\n" + cells + "\n"


def other(old, new, text=CONF):
    """Returns a text with one replacement."""
    if text.count(old) != 1:
        raise ValueError(f"{old} stands {text.count(old)} times")
    return text.replace(old, new)


# faults of a sheet: file, text, and the words after the file name
SHEET_FAULTS = [
    (S, "", [": nothing stands in it; a line of headings was expected"]),
    (S, ",,\r\n\r\n", [": nothing stands in it; a line of headings was expected"]),
    (R, None, [": it can't be read: No such file or directory"]),
    (S, b"\xff\xfen\0a\0", [", line 1: the encoding isn't UTF-8, which was expected"]),
    (S, SECTIONS.encode() + b"caf\xe9,linear,,,,,,,,\n",
     [", line 4: the encoding isn't UTF-8, which was expected"]),
    (R, ROUTES + "," * 4194304, [": there are more than 4194304 bytes, which a CSV file may have"]),
    # the CSV format
    (S, other("b,linear,a", 'b,"linear,a', SECTIONS),
     [", line 3, column B: a cell in quotation marks has no end; the mark that closes it was expected"]),
    (S, other("b,linear,a", 'b,"linear"x,a', SECTIONS),
     [", line 3, column B: text behind the quotation mark that closes a cell; the next cell was expected"]),
    (S, other("b,linear,a", 'b,li"near,a', SECTIONS),
     [", line 3, column B: a quotation mark inside a cell that doesn't begin with one; a cell in quotation "
      "marks, each inside doubled, was expected"]),
    # headings
    (S, other("stem", "speed", SECTIONS), [f", line 1, column G: “speed” is no heading; {HEADS}",
                                          ", line 1: the column stem is missing"]),
    (S, other("minus,faces", "name,faces", SECTIONS),
     [", line 1, column I: the heading name stands here again", ", line 1: the column minus is missing"]),
    (S, other("b,linear,a,,m2,,,,,", "b,linear,a,,m2,,,,,,,x", SECTIONS),
     [", line 3, column K: a cell behind the last heading; an empty cell was expected"]),
    (S, other("faces\na,linear,,b,,m1,,,,", "faces,\na,linear,,b,,m1,,,,,x", SECTIONS),
     [f", line 1, column K: “” is no heading; {HEADS}"]),
    (R, other("points", "protecting points", ROUTES),
     [", line 1: the column points is missing", ", line 1: the column protecting boards is missing"]),
    (R, other("conflicts", "conflicts,protecting boards", ROUTES),
     [", line 1: the column protecting points is missing"]),
    (R, other("conflicts", "conflict", ROUTES), [f", line 1, column G: “conflict” is no heading; {ROUTE_HEADS}",
                                                ", line 1: the column conflicts is missing"]),
    # cells of sections
    (S, row(",linear,,,,,,,,"), [", line 2, column A (name): the cell is empty, and a name was expected"]),
    (S, row("a b,linear,,,,,,,,"), [", line 2, column A (name): “a b” has 2 words, and one was expected"]),
    (S, row("a.b,linear,,,,,,,,"), [f", line 2, column A (name): “a.b” is no name; {NAME}"]),
    (S, row("''a,linear,,,,,,,,"), [f", line 2, column A (name): “'a” is no name; {NAME}"]),
    (S, row('"a""b",linear,,,,,,,,'), [f", line 2, column A (name): “a\"b” is no name; {NAME}"]),
    (S, row(f"{LONG},linear,,,,,,,,"), [f", line 2, column A (name): “{LONG}” is no name; {NAME}"]),
    (S, row("a,linear,1.00E+05,,,,,,,"), [f", line 2, column C (down): “1.00E+05” is no name; {NAME}: a "
                                          "spreadsheet may have made this of a name"]),
    (S, row("a,linear,,02/01/2026,,,,,,"), [f", line 2, column D (up): “02/01/2026” is no name; {NAME}: a "
                                            "spreadsheet may have made this of a name"]),
    (S, row("a,linear,,,#NAME?,,,,,"), [f", line 2, column E (board down): “#NAME?” is no name; {NAME}: a "
                                        "spreadsheet may have made this of a name"]),
    (S, row("a,linear,,,,é,,,,"), [f", line 2, column F (board up): “é” is no name; {NAME}"]),
    (S, row("a,,,,,,,,,"), [", line 2, column B (kind): the cell is empty, and linear or point was expected"]),
    (S, row("a,Linear,,,,,,,,"),
     [", line 2, column B (kind): there stands “Linear”, and linear or point was expected"]),
    (S, row("a,linear,,,,,b,,,up"),
     [", line 2, column G (stem): a linear section has no stem; an empty cell was expected",
      ", line 2, column J (faces): a linear section has no faces; an empty cell was expected"]),
    (S, row("a,point,b,,,m,b,,c,right"),
     [", line 2, column C (down): a point has no down; an empty cell was expected",
      ", line 2, column F (board up): a point has no board up; an empty cell was expected",
      ", line 2, column J (faces): there stands “right”, and up or down was expected",
      ", line 2, column H (plus): the cell is empty, and a name was expected"]),
    # cells of routes
    (R, row("r1,,,b,,,", ROUTES),
     [", line 2, column B (source): the cell is empty, and a name was expected"]),
    (R, row("r1,m1,a b,b,,,", ROUTES),
     [", line 2, column C (destination): “a b” has 2 words, and one was expected"]),
    (R, row("r1,m1,,a;b,,,", ROUTES), [f", line 2, column D (path): “a;b” is no name; {NAME}"]),
    (R, row("r1,m1,,b,,W1,", ROUTES),
     [", line 2, column F (points): “W1” is no point with its position; a name with + for plus or - for "
      "minus behind it, as W1+, was expected"]),
    (R, row("r1,m1,,b,,W1+ +,", ROUTES),
     [", line 2, column F (points): “+” is no point with its position; a name with + for plus or - for "
      "minus behind it, as W1+, was expected"]),
    (R, row("r1,m1,,b,,W1+ -5.00,", ROUTES),
     [", line 2, column F (points): “-5.00” is no point with its position; a name with + for plus or - for "
      "minus behind it, as W1+, was expected: a spreadsheet may have made this of a name"]),
    (R, row("r1,m1,,b,,,r2 r*3", ROUTES), [f", line 2, column G (conflicts): “r*3” is no name; {NAME}"]),
    # a multi-line cell shifts the lines below it
    (R, row('r1,m1,,"b\nc",,,\nr2,m2,,?,,,', ROUTES), [f", line 4, column D (path): “?” is no name; {NAME}"]),
    (R, row("\n".join(["r1,m1,,?,,,"] * 23), ROUTES),
     [f", line {line}, column D (path): “?” is no name; {NAME}" for line in range(2, 22)] + ["and 3 more"]),
]

# enough sections for an overlong configuration
LINE = '  {"name": "a", "kind": "linear", "down": null, "up": null, "board_down": null, "board_up": null}'
MANY = 44000
LENGTH = len('{"version": 1,\n "sections": [') + MANY * (len(LINE) + 2) - 1 + len('],\n "routes": []}\n')

# the words about a configuration on standard input, after `standard input: `
CONF_FAULTS = [
    ("", ["the configuration is empty"]),
    ("{", ["line 1, column 2: Expecting property name enclosed in double quotes. The line is: { ⟵ here: "
           "the end of the line"]),
    ("[]", ["the document is an array, but must be an object"]),
    (other('"version": 1', '"version": 3'), ["the version is 3, but must be 1 or 2"]),
    (other('"up": "b", ', ""), ["the section a (number 0) lacks the member up"]),
    (other('"name": "b"', '"name": "b.1"'),
     ["the name “b.1” in name of the section b.1 (number 1) has the character “.”. A name has 1 to 32 of "
      "the characters A to Z, a to z, 0 to 9, _ and -"]),
    (other('"path": ["a"]', f'"path": ["{LONG}"]'),
     [f"the name “{LONG}” in path of the route r2 (number 1) has 33 characters. A name has 1 to 32 of the "
      "characters A to Z, a to z, 0 to 9, _ and -"]),
    (other('"source": "m1"', '"source": null'),
     ["the member source of the route r1 (number 0) is null, but must be a text"]),
    (other('"points": [], "conflicts": []},', '"points": [{"point": "a", "position": "left"}], '
                                              '"conflicts": []},'),
     ["the member position of an entry of points of the route r1 (number 0) is “left”, but must be plus or "
      "minus"]),
    (CONF + " " * 4194304, ["there are more than 4194304 bytes, which a configuration may have"]),
]

DOUBLED = other('"name": "r2"', '"name": "r1"')
DANGLING = other('"path": ["b"]', '"path": ["z"]')
SHARED = other('"name": "r1"', '"name": "a"')
NO_PATH = other('"path": ["b"]', '"path": []')
WIDE = CONF.replace('"m1"', f'"{"m" * 31}"')

# other refusals: arguments, more files, standard input, and the words
OTHERS = [
    # changes
    (["--rename", "r1"], {}, CONF, ["--rename: there stands “r1”, and OLD=NEW was expected"]),
    (["--rename", "=r3"], {}, CONF, ["--rename: there stands “=r3”, and OLD=NEW was expected"]),
    (["--rename", "r1=a=b"], {}, CONF, [f"--rename: “a=b” is no name; {NAME}"]),
    (["--rename", "r1=" + LONG], {}, CONF, [f"--rename: “{LONG}” is no name; {NAME}"]),
    (["--rename", "r3=x"], {}, CONF, ["--rename: no route or section or board is called “r3”"]),
    (["--rename", "train:a=x"], {}, CONF, ["--rename: no train is called “a”"]),
    (["--rename", "route:a=x"], {}, CONF, ["--rename: no route is called “a”"]),
    (["--rename", "a=x"], {}, SHARED,
     ["--rename: a is the name of a route and of a section; route:a or section:a was expected"]),
    (["--rename", "r1=x"], {}, DOUBLED, ["--rename: more than one route has the name r1"]),
    (["--rename", "r1=x", "--rename", "r1=y"], {}, CONF,
     ["--rename: the route r1 has another new name already"]),
    (["--rename", "r1=r2"], {}, CONF, ["r2 would be the name of the routes r1 and r2"]),
    (["--rename", "r1=x", "--rename", "r2=x"], {}, CONF, ["x would be the name of the routes r1 and r2"]),
    (["--rename", "m1=m2"], {}, CONF, ["m2 would be the name of the boards m1 and m2"]),
    (["--rename", "a=z"], {}, DANGLING,
     ["z would be the name of the section a, and what refers to it now means a section that isn't there"]),
    (["--drop", "r3", "--drop", "a"], {}, CONF,
     ["--drop: no route is called “r3”", "--drop: no route is called “a”"]),
    (["--drop", "r1"], {}, DOUBLED, ["--drop: more than one route has the name r1"]),
    (["--drop", "r1", "--rename", "r1=x"], {}, CONF,
     ["--drop: the route r1 has a new name, and can't be dropped besides"]),
    (["--list", "changes"], {"changes": "drop r1\nremove r2\nrename r2\n\n# of both\nrename r2=r+\n"}, CONF,
     ["changes, line 2: there stands “remove r2”, and `rename OLD=NEW` or `drop NAME` was expected",
      "changes, line 3: there stands “r2”, and OLD=NEW was expected",
      f"changes, line 6: “r+” is no name; {NAME}"]),
    (["--list", "changes"], {"changes": "drop r1\ndrop r9\n"}, CONF,
     ["changes, line 2: no route is called “r9”"]),
    (["--list", "changes"], {}, CONF, ["changes: it can't be read: No such file or directory"]),
    (["--list", "changes"], {"changes": b"drop r\xff1\n"}, CONF, ["changes, line 1: the encoding isn't UTF-8, "
                                                                 "which was expected"]),
    (["--named"], {}, DOUBLED, ["2 routes have the name r1, so that lists of conflicts don't say which is meant"]),
    (["--named"], {}, NO_PATH, ["the route r1 has neither a destination nor a path"]),
    (["--named"], {}, WIDE, [f"the route r1 would be called {'m' * 31}-b, which has 33 characters; a name has "
                             "at most 32"]),
    # output places
    (["--out", "two"], {}, CONF, ["two/sections.csv: it is there already, and isn't written over",
                                  "two/routes.csv: it is there already, and isn't written over"]),
    (["--out", "two"], {S: None}, CONF, ["two/routes.csv: it is there already, and isn't written over"]),
    (["--out", "no/folder"], {}, CONF, ["no/folder: it can't be made: No such file or directory"]),
    (["--out", "conf"], {}, CONF, ["conf: it can't be made: File exists"]),
    (["--out", "out"], {}, other('"name": "b"', '"name": "b.1"'),
     ["standard input: the name “b.1” in name of the section b.1 (number 1) has the character “.”. A name "
      "has 1 to 32 of the characters A to Z, a to z, 0 to 9, _ and -"]),
    # comparisons
    (["--compare", "conf", "none"], {}, "", ["none: it can't be read: No such file or directory"]),
    (["--compare", "none", "none"], {"none": "{}"}, "",
     ["none: the document lacks the member version", "none: the document lacks the member sections",
      "none: the document lacks the member routes"]),
    (["--compare", "two", "conf"], {R: row("r1,m1,,,,,", ROUTES)}, "",
     ["two: path of the route r1 (number 0) has 0 entries, but must have 1 to 32"]),
    (["--compare", "two", "conf"], {S: SECTIONS.splitlines()[0]}, "",
     ["two: the configuration has 0 sections, but must have 1 to 256"]),
    (["--compare", "two", "conf", "--html", "two/page"], {"two/page": "mine"}, "",
     ["two/page: it is there already, and isn't written over"]),
    (["--compare", "two", "conf", "--html", "no/page"], {}, "",
     ["no/page: it can't be written: No such file or directory"]),
    (["--compare", "--with-network", "conf"], {"conf": other('"down": "a"', '"down": null')}, "",
     ["the network has no table of its own: irv table: refused N5 sections[0]"]),
    (["--compare", "--with-network", "conf", "--program", "none"], {}, "",
     ["the network has no table of its own: irv table: not called: [Errno 2] No such file or directory: 'none'"]),
]

# arguments that ask for nothing, and the reason
USAGES = [
    ([], "give --in, --out, --fill, --control-table, --compare or a change"),
    (["--into", "two"], "unrecognized arguments: --into"),
    (["--named=yes"], "argument --named: ignored explicit argument 'yes'"),
    (["--in"], "argument --in: expected one argument"),
    (["two"], "unexpected argument two"),
    (["--in", "two", "out"], "unexpected argument out"),
    (["--in", "two", "--in", "two"], "--in is given twice"),
    (["--named", "--named"], "--named is given twice"),
    (["--compare", "conf"], "--compare takes two files or directories, with --with-network one"),
    (["--compare", "--with-network", "conf", "two"],
     "--compare takes two files or directories, with --with-network one"),
    (["--compare", "conf", "two", "--drop", "r1"], "changes do not go with --compare"),
    (["--with-network", "--in", "two"], "--with-network does not go without --compare"),
    (["--html", "page"], "--html does not go without --compare"),
    (["--fill", "points,path"], "argument --fill: 'points,path' is not conflicts or points or conflicts,points"),
    (["--fill", "points,points"],
     "argument --fill: 'points,points' is not conflicts or points or conflicts,points"),
    (["--fill", "points", "conf", "two"], "unexpected argument two"),
    (["--fill", "points", "--in", "two", "conf"], "--in and FILE do not go together"),
    (["--fill", "points", "--write"], "--write needs FILE or --in: standard input cannot be written over"),
    (["--fill", "points", "--in", "two", "--write", "--out", "new"], "--write and --out do not go together"),
    (["--fill", "points", "--compare", "conf", "two"], "--fill does not go with --compare"),
    (["--named", "--exact"], "--exact does not go without --fill"),
    (["--out", "new", "--write"], "--write does not go without --fill"),
    (["--control-table", "new", "--fill", "points"], "--control-table does not go with --fill"),
    (["--control-table", "new", "--out", "other"], "--control-table does not go with --out"),
    (["--control-table", "new", "--compare", "conf", "two"], "--control-table does not go with --compare"),
]


def cases():
    """Yields all cases: arguments, additional files, standard input, and the reported lines."""
    for file, text, told in SHEET_FAULTS:
        yield IN, {file: text}, "", [line if line.startswith("and ") else file + line for line in told]
    yield IN, {S: row("a,line,,,,,,,,"), R: row("r1,m1,,?,,,", ROUTES)}, "", [
        f"{S}, line 2, column B (kind): there stands “line”, and linear or point was expected",
        f"{R}, line 2, column D (path): “?” is no name; {NAME}"]
    yield ["--in", "conf"], {}, "", [f"conf/{file}.csv: it can't be read: Not a directory"
                                     for file in ("sections", "routes")]
    yield IN, {S: row("a,linear,,,,,,,,\n" * MANY), R: ROUTES.splitlines()[0]}, "", [
        f"the configuration would have {LENGTH} bytes, and may have 4194304"]
    for given, told in CONF_FAULTS:
        for words in (["--out", "new"], ["--named"]):
            yield words, {}, given, [f"standard input: {line}" for line in told]
    yield from OTHERS
