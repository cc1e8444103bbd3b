"""Run texts too long to write out in cases."""


def run_text(events):
    """Returns a run of these events from the initial state."""
    return "".join(f"{line}\n" for line in ["run 1", "start", *events, "end"]).encode()


def through(count):
    """Returns a train's run up through and out of a line of `count` sections."""
    events = ["enter s0"]
    for i in range(count - 1):
        events += [f"head s{i}", f"tail s{i}"]
    return run_text([*events, f"leave s{count - 1}"])


def into(count):
    """Returns the same run into a train that entered at the other end."""
    events = [f"enter s{count - 1}", "enter s0"]
    for i in range(count - 1):
        events += [f"head s{i}", f"tail s{i}"]
    return run_text(events[:-1])


def use(count):
    """Returns the use of route r0 over a path from s1 on: 3 events, 1, 3 per section, releases, 1."""
    events = ["mark r0", "allocate r0", "lock r0", "enter s0"]
    for i in range(count):
        events += [f"head s{i}", "sense r0", f"tail s{i}"]
    return run_text([*events, *["release r0"] * (count - 1), "finish r0"])


MADE = {"through": through, "into": into, "use": use}
