"""The pages of the repository: their files and their text."""
from __future__ import annotations

import os
import re

from dev.repository import TOP


def pages() -> list[str]:
    """Returns the paths of all pages within the repository, in order, without caches and build results."""
    found = []
    for folder, folders, files in os.walk(TOP):
        folders[:] = sorted(name for name in folders if not name.startswith(".") and name not in ("out", "__pycache__"))
        found += [os.path.relpath(os.path.join(folder, name), TOP) for name in sorted(files) if name.endswith(".md")]
    return found


def without_blocks(text: str) -> str:
    """Returns the text of a page without its fenced blocks."""
    return re.sub(r"^```.*?^```$", "", text, flags=re.M | re.S)
