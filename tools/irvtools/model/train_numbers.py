"""Train numbers along a run, in order of entry."""

from __future__ import annotations


def numbered(states: list, events: list) -> list:
    """Returns each state's train numbers, in list order."""
    numbers = list(range(1, len(states[0].trains) + 1))
    count, found = len(numbers), [numbers]
    for before, (word, x) in zip(states, events):
        if word == "enter":
            count += 1
            numbers = [*numbers, count]
        elif word == "leave":
            place = next(i for i, (_, body) in enumerate(before.trains) if body == [x])
            numbers = numbers[:place] + numbers[place + 1:]
        found.append(numbers)
    return found
