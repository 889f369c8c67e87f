"""What the model makes of many calls, made once and replayed on every target.

It is kept in target/model/, in a folder named by the contents of the model and of the headers, so that a change of either makes it
anew.
"""

import sys
from functools import cache
from hashlib import sha256
from shutil import rmtree

from programs import ROOT

KEPT = ROOT / "target/model"


@cache
def folder():
    """The folder of this model and these headers."""
    whole = sha256(f"{sys.version_info[:2]}".encode("ascii"))
    files = [path for top in ("reference", "include") for path in (ROOT / top).rglob("*") if path.is_file() and path.suffix != ".pyc"]
    for path in sorted(files):
        whole.update(f"{path.relative_to(ROOT)} {path.stat().st_size}\n".encode("ascii") + path.read_bytes())
    return KEPT / whole.hexdigest()[:16]


def once(name, make):
    """The rows of a name, tuples of texts: those that were kept, or those that are made now."""
    path = folder() / name
    if not path.exists():
        rows = list(make())
        for old in KEPT.iterdir() if KEPT.exists() else ():
            if old != folder():
                rmtree(old)
        folder().mkdir(parents=True, exist_ok=True)
        part = path.with_suffix(".part")
        part.write_text("".join("\t".join(row) + "\n" for row in rows), encoding="ascii")
        part.replace(path)
        return rows
    return [tuple(line.split("\t")) for line in path.read_text(encoding="ascii").splitlines()]
