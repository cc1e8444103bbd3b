"""The shortest places along a line that keep demands. A demand has two places, their least
distance, and the weight of any excess."""

from __future__ import annotations


def lowest(count: int, demands: list[tuple[int, int, float, float]]) -> list[float]:
    """Returns the least places that keep all demands, by the longest way to each."""
    outs, waits = [[] for _ in range(count)], [0] * count
    for low, high, least, _ in demands:
        outs[low].append((high, least))
        waits[high] += 1
    places = [0.0] * count
    ready = [i for i in range(count) if not waits[i]]
    while ready:
        i = ready.pop()
        for high, least in outs[i]:
            places[high] = max(places[high], places[i] + least)
            waits[high] -= 1
            if not waits[high]:
                ready.append(high)
    return places


def pulled(count: int, demands: list[tuple[int, int, float, float]],
           places: list[float]) -> list[float]:
    """Pulls places together. A group that must move together moves as far as that shortens the
    plan, until no group does."""
    outs, ins = [[] for _ in range(count)], [[] for _ in range(count)]
    for low, high, least, weight in demands:
        outs[low].append((high, least, weight))
        ins[high].append((low, least, weight))
    moved, rounds = True, 0
    while moved and rounds < 60:
        moved, rounds = False, rounds + 1
        for i in range(count):
            for ahead, behind, sign in ((outs, ins, 1), (ins, outs, -1)):
                step = best_step(i, ahead, behind, sign, places)
                if step:
                    group, way = step
                    moved = True
                    for member in group:
                        places[member] += sign * way
    return places


def best_step(i, ahead, behind, sign, places):
    """Returns the group that moves with a place, and its distance; `None` if it should stay."""
    group, stack = {i}, [i]
    while stack:
        at = stack.pop()
        for other, least, _ in ahead[at]:
            if other not in group and sign * (places[other] - places[at]) < least + 1e-6:
                group.add(other)
                stack.append(other)
    gain, way = 0.0, float("inf")
    for member in group:
        for other, least, weight in ahead[member]:
            if other not in group:
                gain += weight
                way = min(way, sign * (places[other] - places[member]) - least)
        gain -= sum(weight for other, _, weight in behind[member] if other not in group)
    return (group, way) if gain > 1e-9 and 1e-6 < way < float("inf") else None
