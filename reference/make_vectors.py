"""Writes the stdin and the stdout of the vector programs, or compares them with those that stand.

    python3 reference/make_vectors.py [--check] [--root FOLDER] [PROGRAM ...]

Without a PROGRAM: those that crates.txt lists. With --check nothing is written; the first difference
is named and the status is 1.
"""

import argparse
import sys
from pathlib import Path

from vectors import integrity_vectors, message_vectors, parity_vectors, position_vectors, readings_vectors, stamps_vectors, table_vectors

PROGRAMS = {
    "parity_vectors": parity_vectors,
    "readings_vectors": readings_vectors,
    "position_vectors": position_vectors,
    "message_vectors": message_vectors,
    "integrity_vectors": integrity_vectors,
    "table_vectors": table_vectors,
    "stamps_vectors": stamps_vectors,
}


def listed(root):
    """The vector programs of crates.txt, where a line is a name, a colon and what the crate needs."""
    lines = (root / "crates.txt").read_text(encoding="ascii").splitlines()
    names = [line.partition(":")[0].strip() for line in lines]
    return [name for name in names if name.endswith("_vectors")]


def made(program):
    """The two files of a program, and in words how many cases they have."""
    cases = list(PROGRAMS[program].cases())
    records = [record for record, _ in cases]
    stdout = "".join(line + "\n" for _, line in cases).encode("ascii")
    noted = f", {PROGRAMS[program].noted(records)}" if hasattr(PROGRAMS[program], "noted") else ""
    return {"stdin": b"".join(records), "stdout": stdout}, f"{len(cases)} cases{noted}"


def first_difference(name, content, standing):
    """Where the two part: the byte of a stdin, the line of a stdout."""
    shorter = min(len(content), len(standing))
    place = next((k for k in range(shorter) if content[k] != standing[k]), shorter)
    return f"byte {place}" if name == "stdin" else f"line {content[:place].count(10) + 1}"


def check(root, program, name, content):
    """Does the file hold this? Names the first difference."""
    path = root / "crates" / program / name
    if not path.is_file():
        print(f"crates/{program}/{name}: missing")
        return False
    standing = path.read_bytes()
    if standing != content:
        print(f"crates/{program}/{name}: differs at {first_difference(name, content, standing)}")
        return False
    return True


def write(root, program, name, content):
    """Writes the file, in a new folder if need be."""
    path = root / "crates" / program / name
    path.parent.mkdir(parents=True, exist_ok=True)
    path.write_bytes(content)


def main():
    parser = argparse.ArgumentParser(description="The vector programs' stdin and stdout.")
    parser.add_argument("--check", action="store_true", help="write nothing, compare")
    parser.add_argument("--root", type=Path, default=Path(__file__).resolve().parent.parent)
    parser.add_argument("program", nargs="*")
    arguments = parser.parse_args()
    root = arguments.root
    programs = arguments.program or listed(root)
    if not programs:
        parser.error("crates.txt lists no vector program")
    for program in programs:
        if program not in PROGRAMS:
            parser.error(f"no vector program {program}: there are {', '.join(PROGRAMS)}")
    for program in programs:
        files, count = made(program)
        for name, content in files.items():
            if not arguments.check:
                write(root, program, name, content)
            elif not check(root, program, name, content):
                return 1
        print(f"{program}: {count} {'as made' if arguments.check else 'written'}")
    return 0


if __name__ == "__main__":
    sys.exit(main())
