"""What the elements of joined descriptions are called to people, by the tables beside them."""
from __future__ import annotations

from typing import TYPE_CHECKING

from matbench.real_names import COLUMNS, TABLE, RealNames, names_beside
from matbench.weights import pair_of

if TYPE_CHECKING:
    from collections.abc import Sequence

    from matbench.limits.problem import Joined
    from matbench.texts import PathLike

__all__ = ["COLUMNS", "TABLE", "RealNames", "real_names"]


def real_names(paths: Sequence[PathLike], joined: Joined) -> RealNames | None:
    """What the elements of descriptions are called by the tables beside them, or None where one has
    none that fits."""
    return names_beside([(path, part.names) for path, part in zip(paths, joined.parts)],
                        [pair_of(joined.spelled(it)) for it in joined.gains])
