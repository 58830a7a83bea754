"""What pip calls to build the wheel (PEP 517). It needs no package."""
from __future__ import annotations

import sys
from pathlib import Path
from typing import Any, NoReturn

from inputs import Missing, built
from wheels import make_wheel


def get_requires_for_build_wheel(config_settings: Any = None) -> list[str]:
    """The packages that a build needs: none."""
    return []


def build_wheel(wheel_directory: str, config_settings: Any = None,
                metadata_directory: str | None = None) -> str:
    """Makes the wheel in a folder, and answers its name."""
    try:
        return make_wheel(built(), Path(wheel_directory)).name
    except Missing as error:
        sys.exit(f"matbench: {error}")


def build_sdist(sdist_directory: str, config_settings: Any = None) -> NoReturn:
    """There is no archive of the sources: the library is built by the kit alone."""
    sys.exit("matbench: there is a wheel alone, of the library that bindings/build.sh builds")
