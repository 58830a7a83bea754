#!/usr/bin/env python3
"""pack.py: makes the wheel for Python and the archive for C of what build.sh built, into out/.

It needs Python alone, and no network.
"""
from __future__ import annotations

import sys
from pathlib import Path

BINDINGS = Path(__file__).resolve().parent
sys.path.insert(0, str(BINDINGS / "packing"))

from archives import make_archive  # noqa: E402
from inputs import Missing, built  # noqa: E402
from wheels import make_wheel  # noqa: E402


def main() -> int:
    """Removes the packages of other versions, and makes both anew."""
    if len(sys.argv) > 1:
        print("usage: bindings/pack.py", file=sys.stderr)
        return 2
    try:
        it = built()
        for old in [*it.folder.glob("matbench-*.whl"), *it.folder.glob("matbench-c-*.tar.xz")]:
            old.unlink()
        for path in (make_wheel(it, it.folder), make_archive(it, it.folder)):
            print(f"pack.py: made {path.name}, {path.stat().st_size:,} bytes")
    except (Missing, OSError) as error:
        print(f"pack.py: {error}", file=sys.stderr)
        return 1
    return 0


if __name__ == "__main__":
    sys.exit(main())
