"""Shows that dist/ is taken by the compilers that are here, and that `tools/dist --check` sees each change of it.

    python3 reference/run_dist.py

Each compiler makes a shared library of it, which exports the functions of the header and nothing else, has no relocations in its code and no
executable stack. What dist/ has no assembler for is refused in words. In a copy of dist/ one byte of each file is another, one file is missing,
or one is too many: each is seen. tools/dist must have made what it compares with, as --check does before the tests.
"""

import re
import shutil
import subprocess
import sys
from importlib.machinery import SourceFileLoader
from importlib.util import module_from_spec, spec_from_loader
from pathlib import Path
from random import Random
from tempfile import TemporaryDirectory

from programs import ROOT

sys.path.insert(0, str(ROOT / "tools"))
from targets import LINUX, MODULE, TARGETS, X86

SOURCES = sorted((ROOT / "dist").glob("*.S"))
# Words for a compiler of C that is not for a target of ours, or not for its way to pass doubles
REFUSED = [
    ["gcc", "-m32"],
    ["gcc", "-mx32"],
    ["aarch64-linux-gnu-gcc", "-mbig-endian"],
    ["arm-linux-gnueabihf-gcc", "-mbig-endian"],
    ["arm-none-eabi-gcc", "-mcpu=arm926ej-s"],
    ["arm-none-eabi-gcc", "-mcpu=cortex-a9", "-mfloat-abi=softfp", "-mfpu=vfpv3"],
    ["arm-none-eabi-gcc", "-mcpu=cortex-m4", "-mfloat-abi=hard", "-mfpu=fpv4-sp-d16"],
    ["riscv64-linux-gnu-gcc", "-march=rv64imac", "-mabi=lp64"],
    ["riscv64-linux-gnu-gcc", "-march=rv32imac", "-mabi=ilp32"],
    ["clang", "--target=i686-linux-gnu"],
    ["clang", "--target=mips64el-linux-gnu"],
    ["clang", "--target=x86_64-apple-darwin"],
]
# .. and for one that is, with what it must take
TAKEN = [
    ("thumbv7m", ["arm-none-eabi-gcc", "-mcpu=cortex-m4", "-mfloat-abi=softfp", "-mfpu=fpv4-sp-d16"]),
    ("thumbv7m", ["arm-none-eabi-gcc", "-mcpu=cortex-m33"]),
    ("thumbv6m", ["arm-none-eabi-gcc", "-mcpu=cortex-m23"]),
    ("armv6", ["arm-none-eabi-gcc", "-mcpu=cortex-a9", "-mfloat-abi=hard", "-mfpu=vfpv3"]),
    ("thumbv7m", ["clang", "--target=thumbv7m-none-eabi", "-mcpu=cortex-m3"]),
    ("thumbv6m", ["clang", "--target=thumbv6m-none-eabi", "-mcpu=cortex-m0"]),
    ("armv6", ["clang", "--target=armv6-linux-gnueabihf", "-mcpu=arm1176jzf-s"]),
]


def script():
    """tools/dist, as a module of Python."""
    loader = SourceFileLoader("dist", str(ROOT / "tools/dist"))
    made = module_from_spec(spec_from_loader("dist", loader))
    loader.exec_module(made)
    return made


def ran(*words):
    return subprocess.run([str(word) for word in words], cwd=ROOT, capture_output=True, text=True, check=False)


# The compilers


def compilers():
    """Each target with Linux, and a command that links shared libraries for it here."""
    own = {X86: "x86_64-linux-gnu-gcc"}
    for name, target in TARGETS.items():
        gnu = own.get(name, target.compiler)
        if target.sort == LINUX and shutil.which(gnu):
            yield name, [gnu]
            if shutil.which("clang"):
                yield name, ["clang", f"--target={gnu.removesuffix('-gcc')}"]


def shared_faults(functions, folder):
    """What is wrong with the shared libraries, and how many there are."""
    for name, command in compilers():
        made = folder / "libaddercoil.so"
        hardened = ["-fcf-protection=full"] if name == X86 else ["-mbranch-protection=standard"] if name == "aarch64" else []
        for words in ([], hardened) if hardened else ([],):
            done = ran(*command, *words, "-shared", "-fPIC", "-Wl,-z,text", "-Wl,--fatal-warnings", *SOURCES, "-o", made)
            yield f"{name}, {command} {words}: {done.stdout + done.stderr}" if done.returncode or done.stderr else None
            said = ran("readelf", "-dlW", "--dyn-syms", made).stdout
            exported = sorted(re.findall(r" (?:GLOBAL|WEAK) +DEFAULT +\d+ (\S+)$", said, flags=re.M))
            yield f"{name}, {command}: exports {exported}" if exported != functions else None
            stack = re.search(r"GNU_STACK .* (RWE?) ", said)
            yield f"{name}, {command}: an executable stack, or text relocations" if "TEXTREL" in said or not stack or stack[1] != "RW" else None


def choice_faults(clang):
    """What is taken that must not be, or not as it must; by the kit's clang for every target, besides those that are here."""
    for command in REFUSED:
        said = ran(*command, "-E", "dist/addercoil.S") if shutil.which(command[0]) else None
        if said is not None:
            yield f"not refused: {command}: {said.stderr}" if said.returncode == 0 or "Addercoil has no assembler for this" not in said.stderr else None
    own = [(name, [clang, f"--target={target.triple}", *target.words]) for name, target in TARGETS.items() if target.sort != MODULE]
    for name, command in (*TAKEN, *own):
        if shutil.which(command[0]):
            for source in SOURCES:
                done = ran(*command, "-Wall", "-Werror", "-c", source, "-o", "/dev/null")
                chosen = f'"dist/{name}/{source.stem}.inc"' in ran(*command, "-E", source.relative_to(ROOT)).stdout
                yield None if done.returncode == 0 and chosen else f"{command} of {source.name}: {done.stderr or 'another target'}"


# What the check sees


def change_faults(made, folder):
    """The changes of dist/ that tools/dist does not see."""
    chance, dist = Random(49), script()
    copy = folder / "dist"
    shutil.copytree(ROOT / "dist", copy)
    yield "; ".join(dist.faults(copy, made)[0]) or None
    for path in sorted(path for path in copy.rglob("*") if path.is_file()):
        whole = path.read_bytes()
        at = chance.randrange(len(whole))
        for other in (whole[:at] + bytes([whole[at] ^ 1 << chance.randrange(8)]) + whole[at + 1 :], whole[:-1], whole + b"\n", None):
            path.unlink() if other is None else path.write_bytes(other)
            yield None if dist.faults(copy, made)[0] else f"not seen: a change of {path.relative_to(copy)}"
        path.write_bytes(whole)
    (copy / "more.S").write_text("")
    yield None if dist.faults(copy, made)[0] else "not seen: a file too many"


def kit_faults(made, folder):
    """With another kit that was tried: other assembler is said and no fault, other names are one, and so are other headers."""
    dist, copy = script(), folder / "other"
    shutil.copytree(ROOT / "dist", copy)
    writer = (copy / dist.KIT).read_text(encoding="utf-8").strip()
    dist.staticlib.TRIED[:] = [writer, "a kit of another day"]
    (copy / dist.KIT).write_text("a kit of another day\n")
    text = copy / "x86_64/display.inc"
    text.write_text(text.read_text(encoding="utf-8") + "\t.text\n", encoding="utf-8")
    wrong, said = dist.faults(copy, made)
    yield None if not wrong and len(said) == 1 and "x86_64/display.inc" in said[0] else f"with another kit: {wrong}, {said}"
    text.write_text(text.read_text(encoding="utf-8").replace("addercoil_line", "addercoil_lime"), encoding="utf-8")
    yield None if any("exports other names" in one for one in dist.faults(copy, made)[0]) else "not seen with another kit: another name"
    shutil.copyfile(ROOT / "dist/x86_64/display.inc", text)
    (copy / "addercoil.h").write_text("")
    yield None if dist.faults(copy, made)[0] else "not seen with another kit: another header"


def main():
    dist = script()
    with TemporaryDirectory() as name:
        folder, made = Path(name), dist.compiled()
        functions, clang = dist.staticlib.functions(), dist.staticlib.tool("clang")
        parts = shared_faults(functions, folder), choice_faults(clang), change_faults(made, folder), kit_faults(made, folder)
        tried = [list(part) for part in parts]
    found = [fault for part in tried for fault in part if fault]
    if found or not all(tried):
        print("\n".join(found) or "nothing was tried")
        return 1
    libraries = len(list(compilers()))
    print(f"{libraries} compilers make a shared library of dist/; {len(tried[1])} choices of a target are right; {len(tried[2]) - 1} changes are seen")
    return 0


if __name__ == "__main__":
    sys.exit(main())
