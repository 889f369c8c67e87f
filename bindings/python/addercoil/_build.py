"""Builds the shared library from dist/ with the C compiler. The build backend and the package in the tree go by it; it imports nothing of the package."""
from __future__ import annotations

import hashlib
import os
import shlex
import shutil
import subprocess
import tempfile
from collections.abc import Callable
from pathlib import Path
from typing import TypeVar

Library = TypeVar("Library")
NAME = "libaddercoil.so"
COMPILERS = "cc", "gcc", "clang"


class NotBuilt(ImportError):
    """Why there is no shared library."""


def sources(top: Path) -> Path:
    """The folder dist/ of a package's folder, bindings/python: in it, if it came as a source package, or at the top of the tree."""
    for folder in (top / "dist", top.parent.parent / "dist"):
        if any(folder.glob("*.S")):
            return folder
    raise NotBuilt(f"there is no dist/ with the library's assembler, neither in {top} nor in {top.parent.parent}")


def compiler() -> list[str]:
    """The C compiler: CC of the environment, or the first one that is there."""
    if os.environ.get("CC"):
        return shlex.split(os.environ["CC"])
    for name in COMPILERS:
        if shutil.which(name):
            return [name]
    raise NotBuilt("there is no C compiler: install gcc, or name one in CC")


def build(dist: Path, made: Path) -> None:
    """Writes the shared library, whole or not at all: two that build it at once do no harm."""
    made.parent.mkdir(parents=True, exist_ok=True)
    handle, part = tempfile.mkstemp(dir=made.parent, suffix=".part")
    os.close(handle)
    words = ["-shared", "-fPIC", f"-I{dist}", *map(str, sorted(dist.glob("*.S"))), "-o", part]
    try:
        done = subprocess.run([*compiler(), *words], capture_output=True, text=True, check=False)
        if done.returncode != 0:
            raise NotBuilt(f"the C compiler ended with {done.returncode}: {done.stderr}")
        os.chmod(part, 0o755)
        os.replace(part, made)
    except OSError as why:
        raise NotBuilt(f"the library cannot be built: {why}") from why
    finally:
        Path(part).unlink(missing_ok=True)


def digest(dist: Path) -> str:
    """What the sources are, and the compiler's name: a change of either makes another library."""
    whole = hashlib.sha256(" ".join(compiler()).encode())
    for path in sorted(path for path in dist.rglob("*") if path.is_file()):
        content = path.read_bytes()
        whole.update(f"{path.relative_to(dist)} {len(content)}\n".encode() + content)
    return whole.hexdigest()[:16]


def kept(dist: Path) -> Path | None:
    """Where the tree keeps the library of these sources, in its target/; None if nothing can be written there."""
    made = dist.parent / "target" / "python" / f"{digest(dist)}.so"
    try:
        made.parent.mkdir(parents=True, exist_ok=True)
    except OSError:
        return None
    return made if made.exists() or os.access(made.parent, os.W_OK) else None


def with_library(top: Path, package: Path, load: Callable[[str], Library]) -> Library:
    """What a function makes of the shared library: the one beside an installed package; else that of the tree, built if it is not there yet."""
    if (package / NAME).exists():
        return load(str(package / NAME))
    dist = sources(top)
    made = kept(dist)
    if made is None:
        with tempfile.TemporaryDirectory(prefix="addercoil-") as folder:
            build(dist, Path(folder) / NAME)
            return load(str(Path(folder) / NAME))  # what is loaded stays when its file goes
    if not made.exists():
        build(dist, made)
    return load(str(made))
