"""What the tests share."""

import os
import shlex
import sys
import textwrap
from pathlib import Path
from typing import List

import btspace

TOP = Path(__file__).resolve().parents[3]
PROGRAM = shlex.split(os.environ.get("BTSPACE", "btspace"))


def local(**options) -> btspace.Space:
    return btspace.local(PROGRAM, **options)


def script(text: str) -> List[str]:
    """The command of a program in Python that stands in for btspace."""
    return [sys.executable, "-uc", textwrap.dedent(text)]
