"""Marks in a plan."""


class Marks:
    """Marks in a plan: sections (each with a leg, or `None` for all legs); a route's path, overlap
    and protecting points likewise; boards; and a hazard's section."""

    def __init__(self, sections=(), boards=(), hazard=None):
        self.sections = [(x, None) for x in sections if x is not None]
        self.boards = {b for b in boards if b is not None}
        self.path, self.overlap, self.protecting, self.hazard = [], [], [], hazard

    def with_route(self, route):
        """Adds a route's path, overlap and protecting points; returns the marks."""
        legs = dict(route.wanted)

        def with_leg(sections):
            return [(x, legs.get(x, "plus")) for x in sections if x is not None]
        self.path, self.overlap = with_leg(route.path), with_leg(route.overlap)
        self.protecting = with_leg(x for x, _ in route.protecting_points)
        return self
