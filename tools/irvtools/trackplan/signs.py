"""A track plan's signs: colours, shapes and the legend, shared by the HTML report, the simulator,
the evidence package and the comparison.

Each state has a letter, a width or a shape beside its colour. Two states' colours have a contrast
of at least 3 to 1 on light and dark ground."""

from __future__ import annotations

from irvtools.html.markup import tag, text

# a scheme's colours; for a section in use, `used` is the line's core and `rim` its edge
LIGHT = {
    "ground": "#ffffff", "ink": "#1c1f24", "quiet": "#495057", "soft": "#f1f3f5", "edge": "#ced4da",
    "free": "#757c83", "locked": "#062b13", "used": "#ffe8c8", "rim": "#a63d00",
    "closed": "#7a0c0c", "open": "#2f9e44", "sign": "#ffffff", "up": "#3a1d8c", "down": "#1098ad",
    "moving": "#c92a2a", "hazard": "#c92a2a", "board": "#1864ab",
    "mark": "#ffd43b", "way": "#a5d8ff", "overlap": "#d0bfff", "protect": "#ffc9a8",
    "good": "#1f6b30", "warn": "#8a4b00", "bad": "#b02020",
    "good-ground": "#e6f4ea", "warn-ground": "#fff4e0", "bad-ground": "#fdecec",
    "answer": "#e7f5ff", "own": "#fff9db", "focus": "#1565b0"}
DARK = {
    "ground": "#16191d", "ink": "#e9ecef", "quiet": "#adb5bd", "soft": "#24282e", "edge": "#495057",
    "free": "#737a81", "locked": "#b2f2bb", "used": "#3a1c00", "rim": "#ff922b",
    "closed": "#ffc9c9", "open": "#1f7a33", "sign": "#16191d", "up": "#d0bfff", "down": "#0b7285",
    "moving": "#ff8787", "hazard": "#ff8787", "board": "#74c0fc",
    "mark": "#8a6d00", "way": "#1c4f7a", "overlap": "#523a80", "protect": "#7a3d14",
    "good": "#69db7c", "warn": "#ffc078", "bad": "#ff8787",
    "good-ground": "#10331a", "warn-ground": "#3a2a08", "bad-ground": "#401818",
    "answer": "#0b2c47", "own": "#3d3200", "focus": "#74c0fc"}
# states to tell apart, and colours that must stand out from the ground
STATES = (("free", "locked", "used"), ("closed", "open"), ("up", "down"))
DRAWN = ("free", "locked", "rim", "closed", "open", "up", "down", "moving", "hazard")

LETTERS = {"free": "", "locked": "L", "used": "U"}
LOCK_CLASS = {"free": "f", "locked": "l", "used": "u"}


def variables(colours: dict) -> str:
    """Returns the colours as variables of a style."""
    return "".join(f"--{name}:{value};" for name, value in colours.items())


PLAN_CSS = f"""
:root{{color-scheme:light dark;{variables(LIGHT)}}}
@media (prefers-color-scheme:dark){{:root{{{variables(DARK)}}}}}
@media print{{:root{{color-scheme:light;{variables(LIGHT)}}}}}
.box{{overflow-x:auto;max-width:100%}}
svg.plan{{display:block;max-width:100%;height:auto;margin:4px 0}}
text{{font:11px ui-monospace,"DejaVu Sans Mono",Menlo,Consolas,monospace;paint-order:stroke;
  stroke:var(--ground);stroke-width:3px;stroke-linejoin:round}}
.s{{fill:var(--ink)}}.p{{font-style:italic;fill:var(--quiet)}}.b{{fill:var(--board)}}
.t{{fill:none;stroke-width:4}}.d{{fill:none;stroke-width:2.5;stroke-dasharray:5 4}}
.w{{fill:none;stroke:var(--ground);stroke-width:6}}
.f{{stroke:var(--free)}}.l{{stroke:var(--locked)}}.u{{stroke:var(--rim)}}
.t.l{{stroke-width:7}}.t.u{{stroke-width:9}}
.core{{fill:none;stroke:var(--used);stroke-width:4.5}}
.letter{{font-weight:700;fill:var(--ink);text-anchor:middle}}
.j{{stroke:var(--ink);stroke-width:1.4;fill:none}}.torn{{stroke:var(--bad);stroke-dasharray:3 3;fill:none}}
.cut{{stroke:var(--free);stroke-dasharray:2 4;fill:none}}
.g{{fill:var(--ink)}}.mv{{fill:var(--ground);stroke:var(--moving);stroke-width:3}}
.mk,.on,.ov,.pp{{fill:none;stroke-linecap:round}}.mk{{stroke:var(--mark);stroke-width:19}}
.on{{stroke:var(--way);stroke-width:14}}.ov{{stroke:var(--overlap);stroke-width:14;stroke-dasharray:10 18}}
.pp{{stroke:var(--protect);stroke-width:14;stroke-linecap:butt;stroke-dasharray:3 5}}
.ring{{fill:var(--mark);stroke:none}}
.shut{{fill:var(--closed)}}.clear{{fill:var(--open)}}.plain{{fill:var(--board)}}
.bar{{stroke:var(--sign);stroke-width:2.2;fill:none}}.way{{fill:var(--sign)}}
.hollow{{fill:var(--ground);stroke:var(--board);stroke-width:2}}.hollow-way{{fill:var(--board)}}
.tr{{fill:none;stroke-width:8;stroke:var(--up)}}.tr.down{{stroke:var(--down);stroke-dasharray:14 2}}
.ah{{fill:var(--up)}}.ah.down{{fill:var(--down)}}
.number rect{{fill:var(--ground);stroke:var(--up);stroke-width:1.6}}.number.down rect{{stroke:var(--down)}}
.number text{{fill:var(--ink);stroke:none;font-weight:700;text-anchor:middle}}
.hz{{fill:none;stroke:var(--hazard);stroke-width:3.5}}
ul.legend{{display:flex;flex-wrap:wrap;gap:4px 18px;list-style:none;padding:0;margin:6px 0;font-size:12.5px}}
.legend li{{display:flex;align-items:center;gap:6px}}.legend svg{{flex:none}}
"""


def shapes(direction: str) -> dict:
    """Returns the paths of a board's signs: the bar if closed, the arrow if open."""
    way = 1 if direction == "up" else -1
    return {"bar": f"M{4 * way} -4.5V4.5M{-3 * way} 0H{3 * way}",
            "way": f"M{-3.5 * way} -4L{4.5 * way} 0L{-3.5 * way} 4z"}


ASPECTS = (None, "open", "closed", "hollow")    # looks of boards: without a state None or hollow
SQUARE = '<rect x="-6" y="-6" width="12" height="12" class="{}"/>'


def board(direction: str, aspect: str | None) -> str:
    """Returns a board's sign around the origin, by its look."""
    paths = shapes(direction)
    if aspect == "closed":
        return SQUARE.format("shut") + f'<path d="{paths["bar"]}" class="bar"/>'
    if aspect == "open":
        return f'<circle r="7.5" class="clear"/><path d="{paths["way"]}" class="way"/>'
    name = "plain" if aspect is None else "hollow"
    way = "way" if aspect is None else "hollow-way"
    return SQUARE.format(name) + f'<path d="{paths["way"]}" class="{way}"/>'


def board_id(direction: str, aspect: str | None) -> str:
    """Returns the id of a board's sign."""
    return f"b{direction[0]}{(aspect or 'n')[0]}"


def hazard(x: float, y: float) -> str:
    """Returns the sign of a hazard: a ring with a cross."""
    return (f'<circle cx="{x:.0f}" cy="{y:.0f}" r="17" class="hz"/><path class="hz" '
            f'd="M{x - 9:.0f} {y - 9:.0f}'
            f'L{x + 9:.0f} {y + 9:.0f}M{x - 9:.0f} {y + 9:.0f}L{x + 9:.0f} {y - 9:.0f}"/>')


def number(x: float, y: float, direction: str, value: int) -> str:
    """Returns the label with a train's number."""
    half = 4 + 4 * len(str(value))
    return (f'<g class="number {direction}" transform="translate({x:.0f} {y:.0f})">'
            f'<rect x="{-half}" y="-7" width="{2 * half}" height="14" rx="6"/><text '
            f'y="4">{value}</text></g>')


LINE = '<path d="M3 15H43" class="{}"/>'
TRAIN = '<path d="M3 11H33" class="tr {0}"/><path d="{1}" class="ah {0}"/>'
SAMPLES = (
    (LINE.format("t f"), "section: free"),
    (LINE.format("t l") + '<text x="23" y="8" '
                          'class="letter">L</text>', "section: locked by a route (L)"),
    (LINE.format("t u") + LINE.format("core") + '<text x="23" y="8" class="letter">U</text>',
     "section: locked and traversed (U)"),
    ('<path d="M3 17H15L43 17" class="t f"/><path d="M15 17L31 5" class="d f"/><circle cx="15" '
     'cy="17" r="4" '
     'class="g"/>', "points: the dashed leg is not set"),
    ('<path d="M3 17H15" class="t f"/><path d="M15 17H43" class="d f"/><path d="M15 17L31 5" '
     'class="d f"/>'
     '<circle cx="15" cy="17" r="5.5" class="mv"/>', "points: moving"),
    ('<g transform="translate(23 12)">' + board("up", "closed") + "</g>", "board: closed"),
    ('<g transform="translate(23 12)">' + board("up", "open") + "</g>", "board: open"),
    (TRAIN.format("up", "M31 4L43 11L31 18z"), "train that runs up (to the right)"),
    (TRAIN.format("down", "M15 4L3 11L15 18z").replace("M3 11H33", "M13 11H43"),
     "train that runs down (to the left)"),
    ('<path d="M10 12H36" class="mk"/>', "what the event or the rule is about"),
    ('<g transform="translate(23 12) scale(.6)">' + hazard(0, 0) + "</g>", "hazard"),
    (LINE.format("on"), "path of a route"), (LINE.format("ov"), "its overlap"),
    (LINE.format("pp"), "its protecting points"))


def legend() -> str:
    """Returns the legend: each sign with its words."""
    return tag("ul", "".join(
        tag("li", f'<svg width="46" height="24" viewBox="0 0 46 24" '
                  f'aria-hidden="true">{sample}</svg>'
            + text(words)) for sample, words in SAMPLES), class_="legend")

