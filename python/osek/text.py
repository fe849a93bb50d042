"""The text form of docs/TEXT.md, by the bench tool: the one that OSEK_TOOL names, the clone's build/osek, or `osek` of the path."""

import os
import shutil
import subprocess
import tempfile
from pathlib import Path
from typing import List, NamedTuple, Optional


class Assembled(NamedTuple):
    """The bytes of a text's parts; None for one that it does not have."""

    config: Optional[bytes]
    trace: Optional[bytes]


class TextError(Exception):
    """What is wrong with a text, as the tool says it: line, column, and what was expected."""


def _tool() -> str:
    built = Path(__file__).resolve().parents[2] / "build" / "osek"
    found = os.environ.get("OSEK_TOOL") or (str(built) if built.exists() else shutil.which("osek"))
    if not found:
        raise FileNotFoundError("the bench tool osek is not found: run `make tool` in the clone, or name it in OSEK_TOOL")
    return found


def _run(folder: str, arguments: List[str]) -> bytes:
    done = subprocess.run([_tool(), *arguments], cwd=folder, capture_output=True, check=False)
    if done.returncode != 0:
        raise TextError(done.stderr.decode(errors="replace").strip())
    return done.stdout


def assemble(text: str, names_of: Optional[str] = None) -> Assembled:
    """The bytes of a configuration, a trace or both; names in a trace alone are those of the configuration `names_of`."""
    with tempfile.TemporaryDirectory() as folder:
        Path(folder, "text").write_text(text, encoding="utf-8")
        names: List[str] = []
        if names_of is not None:
            Path(folder, "names").write_text(names_of, encoding="utf-8")
            names = ["--config", "names"]
        _run(folder, ["asm", "text", "-o", "out", *names])
        both = [Path(folder, f"out.{part}.bin") for part in ("config", "trace")]
        if both[0].exists():
            return Assembled(both[0].read_bytes(), both[1].read_bytes())
        data = Path(folder, "out").read_bytes()
        first = _run(folder, ["dump", "text", *names]).splitlines()[0]
        return Assembled(data, None) if first.startswith(b"# configuration") else Assembled(None, data)


def dump(config: Optional[bytes] = None, trace: Optional[bytes] = None) -> str:
    """A configuration, a trace or both in the text form, with the offset and the meaning of each number."""
    with tempfile.TemporaryDirectory() as folder:
        shown = []
        if config is not None:
            Path(folder, "config.bin").write_bytes(config)
            shown.append(_run(folder, ["dump", "config.bin", "--as", "config"]).decode())
        if trace is not None:
            Path(folder, "trace.bin").write_bytes(trace)
            names = [] if config is None else ["--config", "config.bin"]
            shown.append(_run(folder, ["dump", "trace.bin", "--as", "trace", *names]).decode())
        return "\n".join(shown)
