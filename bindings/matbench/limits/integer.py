"""A plan by HiGHS, where scipy is there. It proves nothing here: the bound is the program's."""
from __future__ import annotations

import importlib
from typing import TYPE_CHECKING

if TYPE_CHECKING:
    from matbench.limits.plans import Search


def plan_by_highs(search: Search, size: int | None, seconds: float) -> list[int] | None:
    """The elements of a plan that HiGHS finds, or None where scipy is not there, a matroid does
    more than count, or none is found."""
    if any(rule.counts is None for part in search.joined.parts for rule in part.rules):
        return None
    try:
        optimize = importlib.import_module("scipy.optimize")
        sparse = importlib.import_module("scipy.sparse")
        milp = optimize.milp
    except (ImportError, AttributeError):
        return None
    caps = [*search.caps, *([size] if size is not None else [])]
    entries = [(limit, element, amount) for element, own in enumerate(search.of)
               for limit, amount in own]
    entries += [(len(search.caps), it, 1) for it in range(search.joined.n)] \
        if size is not None else []
    if not entries:
        return None
    rows, columns, amounts = zip(*entries)
    matrix = sparse.csr_matrix((amounts, (rows, columns)), (len(caps), search.joined.n))
    least = [0] * len(search.caps) + ([size] if size is not None else [])
    done = milp([-float(it) for it in search.gains], integrality=[1] * search.joined.n,
                bounds=optimize.Bounds(0, 1),
                constraints=optimize.LinearConstraint(matrix, least, caps),
                options={"time_limit": seconds, "mip_rel_gap": 0})
    return None if done.x is None else [it for it, part in enumerate(done.x) if part > 0.5]
