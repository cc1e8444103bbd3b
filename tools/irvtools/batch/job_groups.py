"""Groups the jobs of small configurations. A group is one job for Snakemake, which takes 0.1 to 0.2
seconds for each. Each job of a group still has its own key, process and answer. A failed job does
not affect the others.

Long jobs are not grouped: HTML reports; the queries of verify_with unless the configuration is
small; all jobs of a configuration that fills a group alone. A configuration's jobs are not grouped
either if an earlier call began one of them and got no answer, so its effects stay separate.
"""

from __future__ import annotations

from typing import Any

from irvtools.batch.store import Store

BYTES = 131072  # default bytes of configurations in a group
SHARES = 3  # a group is 1 / (SHARES * jobs at once) of the rest
ALWAYS_APART = ("html",)
OF_QUERIES = ("export", "solve", "rup", "verify_with")
SHORT_QUERIES = 8192            # queries of smaller configurations (bytes) are short


def grouped(store: Store, missing: list[dict[str, Any]], tried: set[str], most: int, at_once: int
            ) -> tuple[list[list[dict[str, Any]]], list[dict[str, Any]]]:
    """Returns these jobs as groups, each in plan order, and those not grouped. `tried` has the keys
    of jobs begun before. `most` limits the configuration bytes in a group, and `at_once` the jobs
    that run at once."""
    alone = {job["configuration"] for job in missing if job["key"] in tried}
    joined, apart = {}, []
    for job in missing:
        if job["configuration"] in alone or job["kind"] in ALWAYS_APART or is_long(
                store, job, most):
            apart.append(job)
        else:
            joined.setdefault(job["configuration"], []).append(job)
    return filled(store, joined, most, at_once), apart


def is_long(store, job, most):
    """Returns whether a job may take long, by its configuration's length."""
    short = min(most, SHORT_QUERIES) if job["kind"] in OF_QUERIES else most
    return store.given(job["configuration"]).stat().st_size >= short


def filled(store, joined, most, at_once):
    """Returns groups of the jobs of these configurations, longest first. A configuration's jobs are
    in one group. Each group is a fraction of the rest, so the last ones are short and the end isn't
    delayed."""
    sizes = {checksum: store.given(checksum).stat().st_size for checksum in joined}
    groups, room, left = [], 0, sum(sizes.values())
    for checksum in sorted(joined, key=sizes.get, reverse=True):
        if not groups or sizes[checksum] > room:
            groups.append([])
            room = min(most, left // (SHARES * at_once))
        groups[-1] += joined[checksum]
        room -= sizes[checksum]
        left -= sizes[checksum]
    return groups
