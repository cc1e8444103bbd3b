"""Cuts a long plan into strips, which are windows on the whole."""

STRIP = 1380            # longest uncut plan
LONGEST_TWICE = 200     # most of a cut section that is shown on either side
SEARCH = 320            # range for a better cut
EDGE = 30               # around the plan
TOP = 30                # above the first row
BOTTOM = 44             # below the last row


class Strips:
    """A plan's strips. A section at a cut is shown in both, whole unless it is long."""

    def __init__(self, drawing):
        self.drawing = drawing
        self.signs = sorted(at for at, _ in drawing.signs.values())
        self.spans = []         # both ends of each section
        for x in range(len(drawing.plant.sections)):
            places = [point[0] for points in drawing.legs(x).values() for point in points]
            self.spans.append((min(places), max(places)))

    def cut_at(self, x):
        """Returns the sections that a cut goes through."""
        return [number for number, (begin, end) in enumerate(self.spans) if begin < x < end]

    def price(self, x, ideal):
        """Returns a cut's cost: points cut, parts shown twice, and distance from its ideal place."""
        cut = self.cut_at(x)
        points = sum(self.drawing.plant.sections[number].is_point for number in cut)
        begin, end = self.widened(cut, x)
        return 100 * points + (end - begin) / 8 + abs(x - ideal) / 40

    def widened(self, cut, x):
        """Returns both ends of the sections at a cut; only a part if long."""
        begin = min([self.spans[number][0] for number in cut], default=x)
        end = max([self.spans[number][1] for number in cut], default=x)
        return (self.beside_signs(max(begin, x - LONGEST_TWICE) - 2, -1),
                self.beside_signs(min(end, x + LONGEST_TWICE) + 2, 1))

    def beside_signs(self, x, way):
        """Returns a place moved on if it would cut a sign."""
        for sign in self.signs if way > 0 else reversed(self.signs):
            if abs(sign - x) < 6.5:
                x = sign + 8 * way
        return x

    def windows(self):
        """Returns the windows, each with place and size."""
        full = self.drawing.width + 2 * EDGE
        count = 1 if full <= STRIP * 1.12 else -(-int(full) // STRIP)
        begins, ends = [0.0], []
        for number in range(1, count):
            ideal = full * number / count
            x = min((ideal + step for step in range(-SEARCH, SEARCH + 1, 4)),
                    key=lambda x: self.price(x, ideal))
            begin, end = self.widened(self.cut_at(x), x)
            begins.append(begin)
            ends.append(end)
        return [self.window(begin, end) for begin, end in zip(begins, [*ends, full])]

    def window(self, begin, end):
        """Returns the window between two places, with its contents' height."""
        ys = []
        for x, (low, high) in enumerate(self.spans):
            if low < end - 2 and high > begin + 2:
                ys += [self.drawing.y(x)] + [y for leg in self.drawing.legs(x).values()
                                             for _, y in leg]
        top, bottom = min(ys, default=TOP) - TOP, max(ys, default=TOP) + BOTTOM
        return begin, top, end - begin, bottom - top
