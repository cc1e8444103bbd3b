"""The track plan as SVG: one plan for all frames, with each frame's content over it.

The common part is written once. A long plan is shown in strips below each other; each is a window
on the whole. The signs are those of `signs.py`.
"""

from irvtools.trackplan import signs
from irvtools.trackplan.layout import CHARACTER, ROW, Layout
from irvtools.html.markup import tag, text
from irvtools.trackplan.marks import Marks
from irvtools.trackplan.signs import LETTERS, LOCK_CLASS
from irvtools.trackplan.strips import EDGE, TOP, Strips
from irvtools.trackplan.trains import path, train

IN_ROW = ((3, 470), (2, 900))   # frames in a row, up to this width of the plan


class Drawing:
    """The plan of a plant."""

    def __init__(self, plant, hollow=()):
        """`hollow`: the numbers of boards drawn hollow."""
        self.plant, self.hollow = plant, frozenset(hollow)
        self.layout = Layout(plant)
        joints = [joint for at in self.layout.at for joint in at.values()]
        self.low = min(joint.x for joint in joints)
        self.width = max(joint.x for joint in joints) - self.low
        self.count = 0          # views, for their ids
        self.signs = {b: self.sign_place(board) for b, board in enumerate(plant.boards)}
        self.names = [self.name_place(x) for x in range(len(plant.sections))]
        self.strips = Strips(self).windows()

    # -- positions

    def x(self, joint):
        """Returns a joint's place."""
        return joint.x - self.low + EDGE

    def y(self, x):
        """Returns the height of a section's line."""
        return TOP + ROW * self.layout.row(x)

    def frog(self, x):
        """Returns the place at which the legs of points part."""
        return self.layout.frog(x) - self.low + EDGE, self.y(x)

    def end(self, x, key):
        """Returns the place of a section's end."""
        joint = self.layout.at[x][key]
        if key != "minus":
            return self.x(joint), self.y(x)
        other = joint.high if joint.low == x else joint.low
        if other is None:
            return self.x(joint), self.y(x) + ROW / 2
        if joint.is_between_minus():
            return self.x(joint), (self.y(x) + self.y(other)) / 2
        return self.x(joint), self.y(other)

    def legs(self, x):
        """Returns the lines of a section: one if linear, otherwise stem and both legs."""
        if not self.plant.sections[x].is_point:
            return {"line": [self.end(x, "down"), self.end(x, "up")]}
        frog = self.frog(x)
        return {"stem": [self.end(x, "stem"), frog], "plus": [frog, self.end(x, "plus")],
                "minus": [frog, self.end(x, "minus")]}

    def middle(self, x):
        """Returns the middle of a section's line."""
        if self.plant.sections[x].is_point:
            return (self.end(x, "stem")[0] + self.end(x, "plus")[0]) / 2
        return (self.end(x, "down")[0] + self.end(x, "up")[0]) / 2

    def name_place(self, x):
        """Returns the middle of a section's name. It is below the line, or above if a leg leads
        down; a point's name begins near the parting of its legs."""
        section = self.plant.sections[x]
        if not section.is_point:
            return self.middle(x), self.y(x) + 17
        aside = (len(section.name) * CHARACTER / 2 - 1) * (1 if section.faces == "up" else -1)
        leads_down = self.end(x, "minus")[1] > self.y(x)
        return self.frog(x)[0] + aside, self.y(x) + (-9 if leads_down else 17)

    def sign_place(self, board):
        """Returns a board's place: above the line for up trains, below for others."""
        x = board.section
        if board.direction == "up":
            return self.end(x, "up")[0] - 9, self.y(x) - 15
        return self.end(x, "down")[0] + 9, self.y(x) + 28

    # -- the common part

    def definitions(self):
        """Returns the common part: the signs, and the plan with names and joints."""
        boards = "".join(tag("g", signs.board(way, aspect), id=signs.board_id(way, aspect))
                         for way in ("up", "down") for aspect in signs.ASPECTS)
        tracks = tag("g", "".join(self.tracks()), id="tracks")
        labels = list(self.labels())
        names = "".join(tag("g", "".join(self.labels_in(strip, labels)), id=f"names{number}")
                        for number, strip in enumerate(self.strips))
        return ('<svg width="0" height="0" style="position:absolute" aria-hidden="true"><defs>'
                f"{boards}{tracks}{names}</defs></svg>")

    def tracks(self):
        """Yields the lines of all sections, and the joints."""
        for x in range(len(self.plant.sections)):
            for points in self.legs(x).values():
                yield path(points, "t f")
            if self.plant.sections[x].is_point:
                yield '<circle cx="{:.0f}" cy="{:.0f}" r="4"/>'.format(*self.frog(x))
        for joint in self.layout.joints:
            if joint.is_between_minus():
                x, y = self.end(joint.low, "minus")
                yield path([(x, y - 6), (x, y + 6)], "j")
                continue
            rows = sorted({self.y(x) for x, leg in ((joint.low, joint.low_leg),
                                                    (joint.high, joint.high_leg)) if leg != "minus"})
            for y in rows:
                yield path([(self.x(joint), y - 6), (self.x(joint), y + 6)], "j")
            if len(rows) > 1:
                yield path([(self.x(joint), y) for y in rows], "torn")

    def labels(self):
        """Yields the names of sections and boards: class, name, begin, end, and line."""
        for x, section in enumerate(self.plant.sections):
            at, y = self.names[x]
            half = len(section.name) * CHARACTER / 2
            yield "p" if section.is_point else "s", section.name, at - half, at + half, y
        for b, board in enumerate(self.plant.boards):
            x, y = self.signs[b]
            length = len(board.name) * CHARACTER
            begin = x - 10 - length if board.direction == "up" else x + 10
            yield "b", board.name, begin, begin + length, y + 4

    def labels_in(self, strip, labels):
        """Yields a strip's names. A name that no strip has whole moves into the strip with most of
        it."""
        begin, end = strip[0], strip[0] + strip[2]
        for class_, name, low, high, y in labels:
            inside = begin <= low and high <= end
            if not inside and not self.is_whole(low, high) and self.best_strip(low, high) == strip:
                low = min(max(low, begin + 3), end - 3 - (high - low))
                inside = True
            if inside:
                yield f'<text x="{low:.0f}" y="{y:.0f}" class="{class_}">{text(name)}</text>'

    def is_whole(self, low, high):
        """Returns whether some strip has a name whole."""
        return any(x <= low and high <= x + width for x, _, width, _ in self.strips)

    def best_strip(self, low, high):
        """Returns the strip that has most of a name."""
        return max(self.strips, key=lambda strip: min(high, strip[0] + strip[2]) - max(low, strip[0]))

    def is_torn(self):
        """Returns whether some joint could not be drawn as one."""
        return self.layout.is_cut or any(
            not joint.is_aside() and self.layout.row(joint.low) != self.layout.row(joint.high)
            for joint in self.layout.joints)

    # -- views

    def beside(self, frames):
        """Returns frames side by side, as many as are readable at the plan's width."""
        width = max(strip[2] for strip in self.strips)
        in_row = next((count for count, most in IN_ROW if width <= most), 1)
        return tag("div", frames, class_=f"frames f{in_row}")

    def view(self, content, title):
        """Returns a view of all strips. `content` is a pair: below and over the plan."""
        self.count += 1
        below, over = content
        inner = f'{below}<use href="#tracks"/>{over}'
        windows, y = [], 0.0
        for number, (x0, y0, width, height) in enumerate(self.strips):
            shown = inner if len(self.strips) == 1 else (
                f'<g id="v{self.count}">{inner}</g>' if number == 0
                else f'<use href="#v{self.count}"/>')
            shown += f'<use href="#names{number}"/>'
            edges = self.edges(number, y, width, height)
            windows.append(f'<svg x="0" y="{y:.0f}" width="{width:.0f}" height="{height:.0f}" '
                           f'viewBox="{x0:.0f} {y0:.0f} {width:.0f} {height:.0f}">{shown}</svg>'
                           + edges)
            y += height + 8
        width = max(strip[2] for strip in self.strips)
        return ('<div class="box">'
                f'<svg class="plan" viewBox="0 0 {width:.0f} {y:.0f}" width="{width:.0f}" '
                f'role="img">'
                f"<title>{text(title)}</title>{''.join(windows)}</svg></div>")

    def edges(self, number, y, width, height):
        """Returns the marks at the cut ends of a strip."""
        marks = ""
        if number > 0:
            marks += path([(1, y), (1, y + height)], "cut")
        if number < len(self.strips) - 1:
            marks += path([(width - 1, y), (width - 1, y + height)], "cut")
        return marks

    def plan(self, marks=None, title="track plan"):
        """Returns the plan with marks, as for a broken rule."""
        marks = marks or Marks()
        boards = "".join(self.sign(b, None, b in marks.boards)
                         for b in range(len(self.plant.boards)))
        return self.view((self.marked(marks), boards), title)

    def frame(self, state, marks, title, numbers=()):
        """Returns the plan in a state; `numbers` are its trains'."""
        over = "".join(self.in_state(x, state) for x in range(len(self.plant.sections)))
        over += "".join(self.sign(b, state.aspect[b], b in marks.boards)
                        for b in range(len(self.plant.boards)))
        over += "".join(train(self, direction, body, state, number) for (direction, body), number
                        in zip(state.trains, numbers or range(1, len(state.trains) + 1)))
        if marks.hazard is not None:
            over += signs.hazard(self.middle(marks.hazard), self.y(marks.hazard))
        return self.view((self.marked(marks), over), title)

    def sign(self, b, aspect, is_marked):
        """Returns a board's sign; `aspect` is `None` without a state."""
        x, y = self.signs[b]
        ring = f'<circle cx="{x:.0f}" cy="{y:.0f}" r="11" class="ring"/>' if is_marked else ""
        look = "hollow" if aspect is None and b in self.hollow else aspect
        name = signs.board_id(self.plant.boards[b].direction, look)
        return f'{ring}<use href="#{name}" x="{x:.0f}" y="{y:.0f}"/>'

    def marked(self, marks):
        """Returns the marks below the plan."""
        parts = []
        for class_, legs in (("on", marks.path), ("ov", marks.overlap), ("pp", marks.protecting),
                             ("mk", marks.sections)):
            for x, leg in legs:
                for name, points in self.legs(x).items():
                    if leg is None or name in ("stem", "line", leg):
                        parts.append(path(points, class_))
        return "".join(parts)

    def letter_place(self, x):
        """Returns the middle of a section's letter: above the begin of its line, for points above
        the stem, away from names."""
        section = self.plant.sections[x]
        if not section.is_point:
            return self.end(x, "down")[0] + 7, self.y(x) - 8
        return self.end(x, "stem")[0] + (4 if section.faces == "up" else -4), self.y(x) - 8

    def laid(self, points, lock):
        """Returns a line that is set, in its state."""
        core = path(points, "core") if lock == "u" else ""
        return path(points, f"t {lock}") + core

    def in_state(self, x, state):
        """Returns a section with its lock and its letter, and points in their position."""
        lock = LOCK_CLASS[state.lock[x]]
        legs = self.legs(x)
        letter = ""
        if lock != "f":
            at, y = self.letter_place(x)
            word = LETTERS[state.lock[x]]
            letter = f'<text x="{at:.0f}" y="{y:.0f}" class="letter">{word}</text>'
        if not self.plant.sections[x].is_point:
            return "" if lock == "f" else self.laid(legs["line"], lock) + letter
        parts = [self.laid(legs["stem"], lock)]
        for leg in ("plus", "minus"):
            if leg == state.at[x]:
                parts.append(self.laid(legs[leg], lock))
            else:
                parts.append(path(legs[leg], "w") + path(legs[leg], f"d {lock}"))
        is_moving = state.at[x] == "moving"
        parts.append('<circle cx="{:.0f}" cy="{:.0f}" r="{}" class="g{}"/>'.format(
            *self.frog(x), 6 if is_moving else 4, " mv" if is_moving else ""))
        return "".join(parts) + letter
