"""A measurement's chart: seconds over sections, on logarithmic scales.

A line joins the generated stations; other plants are squares. A hollow mark shows when a call was
ended.
"""

import math

from irvtools.html.markup import tag, text
from irvtools.performance.tables import MADE, SOLVERS

WIDTH, HEIGHT = 760, 460
LEFT, RIGHT, TOP, BOTTOM = 60, 620, 30, 400     # the field of the marks
COLOURS = {"irv verify": "#0b5394", "cadical": "#b45f06", "minisat": "#6aa84f", "picosat": "#a64d79"}
GREYS = ("#e8e8e8", "#b0b0b0")
LEAST = 0.01            # seconds: shorter times look the same
EVEN = 1 + 1e-9         # numbers nearer than this are equal
SIZE = 4.5              # half of a mark


def seconds_of(plant, name):
    """Returns a plant's seconds by a name, and whether the call was ended; `None` if missing."""
    if name == "irv verify":
        return plant.seconds, False
    time = plant.solvers.get(name)
    return None if time is None else (time.seconds, time.is_over)


class Scale:
    """A logarithmic scale. Its ends are rounded outwards to 1, 2 or 5 times a power of ten."""

    def __init__(self, numbers, begin, end):
        named = [digit * 10.0 ** power for power in range(-4, 8) for digit in (1, 2, 5)]
        self.low = max(number for number in named if number <= min(numbers) * EVEN)
        self.high = min(number for number in named if number * EVEN >= max(numbers) and number > self.low)
        self.begin, self.end = begin, end

    def at(self, number):
        """Returns the place of a number."""
        part = math.log(number / self.low) / math.log(self.high / self.low)
        return self.begin + part * (self.end - self.begin)

    def marks(self):
        """Returns the numbers with lines, and their digits before the zeros."""
        for power in range(-4, 8):
            for digit in range(1, 10):
                number = digit * 10.0 ** power
                if self.low <= number * EVEN and number <= self.high * EVEN:
                    yield number, digit


class Picture:
    """The picture of some plants."""

    def __init__(self, plants):
        self.plants = sorted(plants, key=lambda plant: plant.sections)
        self.names = [name for name in ("irv verify", *SOLVERS)
                      if any(seconds_of(plant, name) for plant in plants)]
        every = [max(seconds_of(plant, name)[0], LEAST) for plant in plants for name in self.names
                 if seconds_of(plant, name)]
        self.x = Scale([plant.sections for plant in plants], LEFT, RIGHT)
        self.y = Scale(every, BOTTOM, TOP)

    def place(self, plant, name):
        """Returns a plant's mark position by a name."""
        return self.x.at(plant.sections), self.y.at(max(seconds_of(plant, name)[0], LEAST))

    def grid(self):
        """Returns the grid with its numbers and axis labels."""
        for number, digit in self.x.marks():
            x = self.x.at(number)
            yield f'<path d="M{x:.1f} {TOP}V{BOTTOM}" stroke="{GREYS[digit == 1]}"/>'
            if digit in (1, 2, 5):
                yield label(x, BOTTOM + 16, f"{number:g}", "middle")
        for number, digit in self.y.marks():
            y = self.y.at(number)
            yield f'<path d="M{LEFT} {y:.1f}H{RIGHT}" stroke="{GREYS[digit == 1]}"/>'
            if digit in (1, 2, 5):
                yield label(LEFT - 6, y + 4, f"{number:g}", "end")
        yield label((LEFT + RIGHT) / 2, BOTTOM + 36, "sections (points among them)", "middle")
        yield label(LEFT - 6, TOP - 12, "seconds of a processor", "start")

    def line(self, name):
        """Returns the line that joins the generated stations."""
        places = [self.place(plant, name) for plant in self.plants
                  if MADE.fullmatch(plant.name) and seconds_of(plant, name)]
        way = "L".join(f"{x:.1f} {y:.1f}" for x, y in places)
        return f'<path d="M{way}" fill="none" stroke="{COLOURS[name]}" stroke-width="1.5"/>' if way else ""

    def marks(self, name):
        """Returns the marks of all plants."""
        for plant in self.plants:
            found = seconds_of(plant, name)
            if found:
                title = tag("title", text(f"{plant.name}, {name}: {'over ' if found[1] else ''}{found[0]:.2f} s"))
                yield mark(*self.place(plant, name), COLOURS[name], MADE.fullmatch(plant.name), found[1], title)

    def legend(self):
        """Returns the legend of colours and marks."""
        x, y = RIGHT + 24, TOP + 10
        for name in self.names:
            yield mark(x, y - 4, COLOURS[name], True, False) + label(x + 12, y, name, "start")
            y += 20
        for is_round, is_over, word in ((True, False, "generated stations"), (False, False, "other plants"),
                                        (False, True, "ended there")):
            y += 20
            yield mark(x, y - 4, "#444", is_round, is_over) + label(x + 12, y, word, "start")

    def drawn(self):
        """Returns the whole picture."""
        parts = [f'<rect width="{WIDTH}" height="{HEIGHT}" fill="#fff"/>', *self.grid()]
        for name in reversed(self.names):
            parts += [self.line(name), *self.marks(name)]
        return tag("svg", "\n".join(["", *parts, *self.legend(), ""]), xmlns="http://www.w3.org/2000/svg",
                   viewBox=f"0 0 {WIDTH} {HEIGHT}", width=WIDTH, height=HEIGHT, font_family="sans-serif",
                   font_size="12") + "\n"


def label(x, y, word, anchor):
    """Returns a word of the picture."""
    return tag("text", text(word), x=f"{x:.1f}", y=f"{y:.1f}", text_anchor=anchor, fill="#222")


def mark(x, y, colour, is_round, is_over, title=""):
    """Returns a mark: round or square, and hollow if the call was ended."""
    look = {"fill": "#fff" if is_over else colour, "stroke": colour, "stroke_width": "1.5"}
    if is_round:
        return tag("circle", title, cx=f"{x:.1f}", cy=f"{y:.1f}", r=SIZE, **look)
    return tag("rect", title, x=f"{x - SIZE:.1f}", y=f"{y - SIZE:.1f}", width=2 * SIZE, height=2 * SIZE, **look)
