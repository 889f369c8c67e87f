"""Runs the programs of this repository by way of tools/run.

Those of C are built for several targets. PROCESSOR of the environment says which is meant; without it, this machine's processor. For
wasm32 there is no program, but the module of dist/, which programs for node call: those in tests/js and examples/js.
"""

import os
import platform
import subprocess
from pathlib import Path

ROOT = Path(__file__).resolve().parent.parent
C = f"c/{os.environ.get('PROCESSOR', platform.machine())}"  # where tools/build-c put the programs of C, under target/


MODULE = ROOT / "dist/addercoil.wasm"
FOR_NODE = {f"c/wasm32/{path.stem}": path for folder in ("tests/js", "examples/js") for path in (ROOT / folder).glob("*.mjs")}


def built():
    """The names of the programs of C that there are."""
    return {path.name for path in (ROOT / "target" / C).glob("*")}


def ran(program, *words, given=b"", seconds=600):
    """What came of a program under target/ or by its path, or of one for node: its status, and what it wrote."""
    command = [ROOT / "tools/run", ROOT / "target" / program, *map(str, words)]
    if program in FOR_NODE:
        command = ["node", FOR_NODE[program], MODULE, *map(str, words)]
    return subprocess.run(command, input=given, capture_output=True, timeout=seconds, check=False)
