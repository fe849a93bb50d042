"""The library's version: recorded where the package was installed, else that of the clone's header."""

import re
from importlib import metadata
from pathlib import Path


def _read() -> str:
    here = Path(__file__).resolve()
    recorded, header = here.with_name("VERSION"), here.parents[2] / "include" / "osek.h"
    if recorded.exists():
        return recorded.read_text().strip()
    found = re.search(r'#define OSEK_VERSION "(.*)"', header.read_text()) if header.exists() else None
    return found.group(1) if found else metadata.version("osek")


version = _read()
