"""Hand-written sheets and their configurations."""

import json

from tests.csv.refusal_cases import CONF, ROUTES, SECTIONS

# as tools/csv writes it: text that a spreadsheet would change has an apostrophe
CHANGED = {
    "sections.csv": b"name,kind,down,up,board down,board up,stem,plus,minus,faces\r\n"
                    b"'007,linear,,'1-2,,TRUE1,,,,\r\n"
                    b"'1-2,point,,,,,'007,'TRUE,'1E5,up\r\n"
                    b"'TRUE,linear,'1-2,,'-5,,,,,\r\n"
                    b"'1E5,linear,'1-2,,'MAR1,_1,,,,\r\n",
    "routes.csv": b"name,source,destination,path,overlap,points,conflicts,protecting points,"
                  b"protecting boards\r\n"
                  b"'false,TRUE1,,'1-2 TRUE,,'1-2+,W-,'1E5-,'-5 MAR1\r\n"
                  b"W-,TRUE1,_1,'1-2 1E5,TRUE 1E5,W-- 1-2-,'false,W-+,\r\n"}
CHANGED_SAYS = {
    "version": 2,
    "sections": [
        {"name": "007", "kind": "linear", "down": None, "up": "1-2", "board_down": None, "board_up": "TRUE1"},
        {"name": "1-2", "kind": "point", "faces": "up", "stem": "007", "plus": "TRUE", "minus": "1E5"},
        {"name": "TRUE", "kind": "linear", "down": "1-2", "up": None, "board_down": "-5", "board_up": None},
        {"name": "1E5", "kind": "linear", "down": "1-2", "up": None, "board_down": "MAR1",
         "board_up": "_1"}],
    "routes": [
        {"name": "false", "source": "TRUE1", "destination": None, "path": ["1-2", "TRUE"], "overlap": [],
         "points": [{"point": "1-2", "position": "plus"}], "conflicts": ["W-"],
         "protecting_points": [{"point": "1E5", "position": "minus"}], "protecting_boards": ["-5", "MAR1"]},
        {"name": "W-", "source": "TRUE1", "destination": "_1", "path": ["1-2", "1E5"],
         "overlap": ["TRUE", "1E5"],
         "points": [{"point": "W-", "position": "minus"}, {"point": "1-2", "position": "minus"}],
         "conflicts": ["false"], "protecting_points": [{"point": "W-", "position": "plus"}],
         "protecting_boards": []}]}

# The two sections and routes of refusal_cases.py as spreadsheets and people write them.
MARK = b"\xef\xbb\xbf"
SEMICOLONS = {"sections.csv": MARK + SECTIONS.replace(",", ";").replace("\n", "\r\n").encode(),
              "routes.csv": MARK + ROUTES.replace(",", ";").replace("\n", "\r\n").encode()}
LONE_RETURNS = {"sections.csv": SECTIONS.replace("\n", "\r").encode(),
                "routes.csv": ROUTES.replace("\n", "\r").encode()}
ALL_QUOTED = {"sections.csv": "".join(",".join(f'"{cell}"' for cell in line.split(",")) + "\n"
                                      for line in SECTIONS.splitlines()).encode(),
              "routes.csv": ROUTES.strip().encode()}
# reordered columns, capital headings, rows that end early or late, and empty rows and columns
LOOSE = {"sections.csv": b"Faces,NAME, board  up,Kind,,Minus,Plus,Stem,Board Down,Down,Up\n"
                         b",,,,,,,,,,\n"
                         b",a, m1 ,linear,,,,,,,b,,,\n"
                         b"\n"
                         b",'b,,linear,,,,,m2,a\n"
                         b",,\n",
         "routes.csv": b"path,conflicts,overlap,points,destination,source,name\n"
                       b'" b\n ",,,,,m1,r1\n'
                       b"'a,,,' ,,'m2,'r2"}

LISTS = {"sections.csv": SECTIONS.encode(),
         "routes.csv": b"name;source;destination;path;overlap;points;conflicts\n"
                       b'r1;m1;m2;"b\na  b\t b";\'b  a;"W1+\r\nW1-";r2 r1\n'}
LISTS_SAY = {**json.loads(CONF), "routes": [
    {"name": "r1", "source": "m1", "destination": "m2", "path": ["b", "a", "b", "b"], "overlap": ["b", "a"],
     "points": [{"point": "W1", "position": "plus"}, {"point": "W1", "position": "minus"}],
     "conflicts": ["r2", "r1"]}]}

NO_ROUTES = {"sections.csv": SECTIONS.replace("\n", "\r\n").encode(),
             "routes.csv": ROUTES.splitlines()[0].encode() + b"\r\n"}


def cases():
    """Yields each case's name, its sheets, its configuration, and whether tools/csv writes them so."""
    two = json.loads(CONF)
    own = {"sections.csv": SECTIONS.replace("\n", "\r\n").encode(),
           "routes.csv": ROUTES.replace("\n", "\r\n").encode()}
    yield "two sections", own, two, True
    yield "no routes", NO_ROUTES, {**two, "routes": []}, True
    yield "names that a spreadsheet changes", CHANGED, CHANGED_SAYS, True
    yield "semicolons and a mark", SEMICOLONS, two, False
    yield "lines that end with CR", LONE_RETURNS, two, False
    yield "all cells in quotation marks", ALL_QUOTED, two, False
    yield "other columns first", LOOSE, two, False
    yield "lists on several lines", LISTS, LISTS_SAY, False
