"""Compares the crate for Rust, bindings/rust, with the model.

    python3 reference/run_rust.py

A copy of bindings/rust is built in a folder of the test, without the kit. Each cargo that is here builds it: Debian's, and that
of rustup. Its own tests pass, and its papers are made, without a warning. The calls of tests/c are made over slices. If the types of the
crate can say a call, it is made by these too. Its example prints the listings of all samples. The package that cargo makes of it builds
by itself. Its build script makes the archive of each target, or says why it does not. Without dist/, or without a C compiler, it says what
to do. The first difference is named, and the status is 1.
"""

import os
import re
import shutil
import struct
import subprocess
import sys
import tarfile
from fractions import Fraction
from pathlib import Path
from random import Random
from tempfile import TemporaryDirectory

from degrees import DEGREE
from embedding import AT, FRESH, FUNCTIONS
from once import once
from programs import ROOT
from run_calls import tried

CRATE = ROOT / "bindings/rust"
SAMPLES = sorted((ROOT / "samples").glob("*.capture"))
KIT = "rt"
OURS, HOMES = ("CARGO", "RUST", "CC", "AR", "TARGET_"), ("CARGO_HOME", "RUSTUP_HOME")  # what begins so is not handed on, but for the homes
LAST = 2**64 - 1


def due(what, found, expected):
    """Ends the test if something else was found."""
    if found != expected:
        sys.exit(f"run_rust: {what}: found\n{str(found)[:3000]}\nand expected\n{str(expected)[:3000]}")


# The cargo of each folder


def folders():
    """The folders of PATH, in its order, each once: on some systems /bin is /usr/bin."""
    named = [Path(one) for one in os.environ["PATH"].split(os.pathsep) if one]
    return list(dict.fromkeys(one.resolve() for one in named if one.is_dir()))


def cargos():
    """Those that have a cargo."""
    return [one for one in folders() if os.access(one / "cargo", os.X_OK)]


class Crate:
    """A copy of the crate, built by the cargo of a folder into one of its own, with nothing of the kit on the PATH."""

    def __init__(self, folder, where, made):
        self.folder, self.where, self.made, self.tools = folder, where, made, made.with_name(f"{made.name}-tools")
        self.tools.mkdir()
        for name in ("cargo", "rustc", "rustdoc"):
            (self.tools / name).symlink_to(folder / name)
        path = [self.tools, *(one for one in folders() if not (one / KIT).exists())]
        kept = {name: value for name, value in os.environ.items() if not name.startswith(OURS) or name in HOMES}
        self.environment = kept | {"PATH": os.pathsep.join(map(str, path)), "CARGO_TARGET_DIR": str(made)}

    def ran(self, *words, **environment):
        """What came of a command of cargo."""
        command = [self.tools / "cargo", *words]
        environment = self.environment | environment
        return subprocess.run(command, cwd=self.where, env=environment, capture_output=True, text=True, timeout=900, check=False)

    def done(self, *words):
        """What a command of cargo printed, which ends well and has no warning."""
        done = self.ran(*words)
        is_good = done.returncode == 0 and "warning" not in done.stderr
        due(f"{self.folder}/cargo {' '.join(words)}", "" if is_good else done.stderr + done.stdout, "")
        return done.stdout

    def example(self, name, *words, given=None):
        """What came of an example."""
        program = self.made / "debug/examples" / name
        return subprocess.run([program, *map(str, words)], input=given, capture_output=True, timeout=600, check=False)


def copied(folder):
    """A copy of what the crate needs, and of nothing else; its folder."""
    left_out = shutil.ignore_patterns("target", "Cargo.lock")
    shutil.copytree(CRATE, folder / "bindings/rust", ignore=left_out)
    return folder / "bindings/rust"


# Calls


def nearest_due(*given):
    """The spot nearest to degrees, a half of a unit away from zero; exactly. None if they are beyond."""
    latitude, longitude = given
    if not (-90 <= latitude <= 90 and -180 <= longitude <= 360):
        return None
    units = [int(abs(Fraction(one) / DEGREE) + Fraction(1, 2)) * (1 if one >= 0 else -1) for one in given]
    return units[0], units[1] % 2**32


FIGURES = [0.0, -0.0, 45.0, 89.99999999, 90.0, -90.0, 90.00000001, 179.99999999, 180.0, -180.0, -180.00000001, 359.99999999, 360.0, 360.1]
FIGURES += [float("nan"), float("inf"), -float("inf"), 1e300, 5e-324]
FIGURES += [sign * float(part * DEGREE / 2) for part in (1, 2, 3, 2**31 + 1) for sign in (1, -1)]
TYPED = 20_000


def nearest_rows():
    """Degrees as people type them: a line each, and what must come of it."""
    chance = Random(53)
    pairs = [(one, two) for one in FIGURES for two in FIGURES]
    for _ in range(TYPED):
        pairs.append(tuple(round(chance.uniform(*ends), chance.randrange(2, 15)) for ends in ((-91, 91), (-181, 361))))
    for pair in pairs:
        patterns = [struct.unpack("<Q", struct.pack("<d", one))[0] for one in pair]
        found = nearest_due(*pair)
        entries = [one & LAST for one in found] if found else [int.from_bytes(bytes([FRESH]) * 8, "big")] * 2
        yield f"nearest 2 {patterns[0]} {patterns[1]}", f"= {0 if found else 8} {entries[0]:016x}{entries[1]:016x}"


def every_call(crate, rows):
    """All calls over slices and by types; how many calls the types made."""
    done = crate.example("calls", given="".join(f"{call}\n" for call, _ in rows).encode("ascii"))
    due("the calls", (done.returncode, done.stderr.decode() if done.returncode else ""), (0, ""))
    found = done.stdout.decode("ascii").splitlines()
    due("how many answers", len(found), len(rows))
    for (call, outcome), answer in zip(rows, found):
        if answer != outcome:
            due(call[:300], answer, outcome)
    counts = dict(re.findall(r"^(\w+) (\d+)$", done.stderr.decode(), flags=re.M))
    due("the functions that the types call", set(counts), set(FUNCTIONS))
    return sum(map(int, counts.values()))


# The example


def every_listing(crate):
    """The listings of all samples, both ways; and what the example cannot do."""
    for path in SAMPLES:
        for words, ending in ((["all"], ".listing"), ([], ".positioned")):
            done = crate.example("listing", path, *words)
            expected = 0, path.with_suffix(ending).read_bytes(), b""
            due(f"listing {path.name} {words}", (done.returncode, done.stdout, done.stderr), expected)
    for words, status in (([], 2), ([SAMPLES[0], "some"], 2), ([SAMPLES[0], "all", "all"], 2), (["/nowhere"], 1)):
        done = crate.example("listing", *words)
        due(f"listing {words}", (done.returncode, done.stdout, done.stderr.count(b"\n")), (status, b"", 1))
    with open("/dev/full", "wb") as full:
        words = [crate.made / "debug/examples/listing", SAMPLES[0]]
        done = subprocess.run(words, stdout=full, stderr=subprocess.PIPE, check=False)
    due("listing to a full device", (done.returncode, done.stderr), (1, b"listing: the output cannot be written\n"))
    return 2 * len(SAMPLES)


# Its package, and what is missing


def packaged(crate):
    """What cargo packs has dist/ in it as files, builds by itself, and is of the version of the header."""
    done = crate.ran("package", "--offline", "--allow-dirty")
    due("cargo package", (done.returncode, done.stderr if done.returncode else ""), (0, ""))
    number = AT["VERSION"]
    name = f"addercoil-{number // 10_000}.{number // 100 % 100}.{number % 100}"
    with tarfile.open(crate.made / f"package/{name}.crate") as made:
        files = {one.name.removeprefix(f"{name}/") for one in made.getmembers() if one.isfile()}
    assembler = {str(path.relative_to(ROOT)) for path in (ROOT / "dist").rglob("*") if path.suffix in (".S", ".inc")}
    due("the assembler in the package", {one for one in files if one.endswith((".S", ".inc"))}, assembler)
    return len(files)


def says(done, *words):
    """A build fails, and says these words."""
    if done.returncode == 0 or not all(one in done.stderr for one in words):
        due("a build that lacks something", done.stderr, f"a failure, and {words}")


def refused(crate, folder):
    """A build that lacks something fails, and says what to do."""
    for name, command, words in (("CC", "/nowhere/cc", "cannot be run"), ("CC", "false", "ended with"), ("AR", "/nowhere", "cannot be run")):
        says(crate.ran("build", "--offline", **{name: command}), f"addercoil: {command} {words}")
    # Nothing but Rust and a linker that is named, by which the build script itself is linked
    bare = Crate(crate.folder, crate.where, folder / "bare")
    (bare.tools / "ld").symlink_to(shutil.which("ld"))
    said = subprocess.run([bare.tools / "rustc", "-vV"], capture_output=True, text=True, check=True).stdout
    host = re.search(r"^host: (.*)$", said, flags=re.M)[1]
    linker = {f"CARGO_TARGET_{host.upper().replace('-', '_')}_LINKER": shutil.which("gcc")}
    needs_compiler = f"addercoil: there is no C compiler for {host}: install gcc, or name one in CC_"
    says(bare.ran("build", "--offline", PATH=str(bare.tools), **linker), needs_compiler)
    says(bare.ran("build", "--offline", "--target", "wasm32-unknown-unknown"), "addercoil: for WebAssembly take dist/addercoil.wasm")
    shutil.rmtree(crate.where / "dist")
    says(bare.ran("build", "--offline"), "addercoil: there is no assembler in", "take the whole repository, in which dist/ is")


# The build script alone, for each target

ROW = re.compile(r'^    \("([^"]+)", "([^"]+-)", &\[', flags=re.M)
DOUBLES = "Tag_ABI_VFP_args: VFP registers"
OBJECTS = {  # by the first word of a target, what readelf says of an object
    "x86_64": ("Machine: Advanced Micro Devices X86-64",),
    "aarch64": ("Machine: AArch64",),
    "arm": ("Machine: ARM", DOUBLES),
    "armv7": ("Machine: ARM", DOUBLES),
    "riscv64gc": ("Machine: RISC-V", "double-float ABI"),
    "thumbv6m": ("Machine: ARM", "Tag_CPU_arch: v6S-M"),
    "thumbv7m": ("Machine: ARM", "Tag_CPU_arch: v7", "Tag_CPU_arch_profile: Microcontroller"),
    "thumbv7em": ("Machine: ARM", "Tag_CPU_arch: v7", "Tag_CPU_arch_profile: Microcontroller"),
}
IN_SOFTWARE = "the library passes doubles in software on a board: take the target that ends in eabi"
WITHOUT_ELF, NO_ASSEMBLER = "the library is for systems with ELF: there is no assembler for", "there is no assembler for"
REFUSED = {
    "thumbv7em-none-eabihf": IN_SOFTWARE,
    "thumbv8m.main-none-eabihf": IN_SOFTWARE,
    "thumbv8m.main-none-eabi": "there is no C compiler for thumbv8m.main-none-eabi: install gcc, or name one in CC_thumbv8m_main_none_eabi",
    "wasm32-unknown-unknown": "for WebAssembly take dist/addercoil.wasm",
    **{one: f"{WITHOUT_ELF} {one}" for one in ("x86_64-pc-windows-gnu", "x86_64-apple-darwin", "aarch64-apple-ios")},
    **{one: f"{NO_ASSEMBLER} {one}" for one in ("i686-unknown-linux-gnu", "armv7-unknown-linux-gnueabi", "aarch64_be-unknown-linux-gnu")},
    **{one: f"{NO_ASSEMBLER} {one}" for one in ("x86_64-unknown-linux-gnux32", "powerpc64-unknown-linux-gnu", "armv7a-none-eabi")},
}


class Script:
    """The build script, run as cargo runs it."""

    def __init__(self, crate, folder):
        self.crate, self.program, self.out = crate, folder / "build-script", folder / "out"
        self.asked("--edition", "2021", crate.where / "build.rs", "-o", self.program)
        self.host = re.search(r"^host: (.*)$", self.asked("-vV"), flags=re.M)[1]

    def asked(self, *words):
        """What rustc says."""
        command = [self.crate.tools / "rustc", *words]
        return subprocess.run(command, env=self.crate.environment, capture_output=True, text=True, check=True).stdout

    def ran(self, target, **more):
        """What came of it for a target; its folder was empty."""
        shutil.rmtree(self.out, ignore_errors=True)
        self.out.mkdir()
        said = re.findall(r'^(target_\w+)="(.*)"$', self.asked("--print", "cfg", "--target", target), flags=re.M)
        more |= {f"CARGO_CFG_{name.upper()}": value for name, value in said}
        more |= {"TARGET": target, "HOST": self.host, "CARGO_MANIFEST_DIR": str(self.crate.where)}
        environment = self.crate.environment | {"OUT_DIR": str(self.out)} | more
        return subprocess.run([self.program], cwd=self.crate.where, env=environment, capture_output=True, check=False)

    def builds(self, target, **more):
        """It makes the archive of the target: as many objects as dist/ has, each of its processor and its way to pass doubles."""
        done = self.ran(target, **more)
        due(f"the build script for {target} {more}", (done.returncode, done.stderr), (0, b""))
        command, environment = ["readelf", "-hA", self.out / "libaddercoil.a"], os.environ | {"LC_ALL": "C"}
        said = re.sub(" +", " ", subprocess.run(command, env=environment, capture_output=True, text=True, check=True).stdout)
        words = OBJECTS[target.split("-")[0]]
        objects = len(list((ROOT / "dist").glob("*.S")))
        counts = {one: len(re.findall(f"{one}$", said, flags=re.M)) for one in words}
        due(f"the objects for {target} {more}", counts, dict.fromkeys(words, objects))
        due(f"doubles in registers for {target} {more}", DOUBLES in said, DOUBLES in words)

    def refuses(self, target, words, **more):
        """It makes nothing, and says why."""
        done = self.ran(target, **more)
        found = done.returncode, done.stderr.decode("utf-8", "replace")[: len(f"addercoil: {words}")], list(self.out.iterdir())
        due(f"the build script for {target} {more}", found, (1, f"addercoil: {words}", []))


def every_target(crate, folder):
    """The build script for each target that it names, and for some that it refuses; how many archives it made."""
    script, made = Script(crate, folder), 0
    rows = ROW.findall((CRATE / "build.rs").read_text(encoding="ascii"))
    due("the targets", {target.split("-")[0] for target, _ in rows}, set(OBJECTS))
    for target, prefix in rows:
        name = re.sub("[-.]", "_", target)
        is_host = target == script.host
        if not is_host and not shutil.which(f"{prefix}gcc"):
            script.refuses(target, f"there is no C compiler for {target}: install gcc, or name one in CC_{name}", CC="gcc", AR="ar")
            continue
        # the plain names are for the host alone
        chosen = [{}] if is_host else [{"CC": "false", "AR": "false"}, {"TARGET_CC": f"{prefix}gcc"}]
        chosen += [{f"CC_{name}": "clang"}] if shutil.which("clang") else []
        for more in chosen:
            script.builds(target, **more)
        made += len(chosen)
    for target, words in REFUSED.items():
        script.refuses(target, words)
        script.refuses(target, words, CC="arm-none-eabi-gcc")
    script.refuses("thumbv7em-none-eabihf", IN_SOFTWARE, CC_thumbv7em_none_eabihf="arm-none-eabi-gcc -mthumb -march=armv7e-m")
    script.refuses(script.host, "OUT_DIR is not UTF-8, which cargo cannot read", OUT_DIR=os.fsdecode(b"/tmp/\xff"))
    return made, len(rows), len(REFUSED)


def tried_by(crate, rows, sites):
    """All that is tried with one cargo."""
    version = crate.done("--version").split()[1]
    for words in (["test", "--all-targets"], ["test", "--doc"], ["doc"]):
        crate.done(*words, "--offline", "--features", "std")
    crate.done("build", "--offline", "--examples")
    by_types = every_call(crate, [*rows, *sites])
    print(f"cargo {version}: {len(rows)} calls of {len(FUNCTIONS)} functions over slices, {by_types} of them by types too: what the model does")
    print(f"cargo {version}: {len(sites)} sites in degrees: the nearest unit; {every_listing(crate)} listings of samples: the same")
    print(f"cargo {version}: {packaged(crate)} files in a package, which builds by itself", flush=True)


def main():
    found = cargos()
    if not found:
        sys.exit("run_rust: there is no cargo: install Debian's packages cargo and rustc")
    rows, sites = once("calls", tried), list(nearest_rows())
    with TemporaryDirectory() as name:
        folder = Path(name)
        where = copied(folder)
        for number, one in enumerate(found):
            tried_by(Crate(one, where, folder / f"made-{number}"), rows, sites)
        made = every_target(Crate(found[0], where, folder / "targets"), folder)
        print(f"the build script: {made[0]} archives of {made[1]} targets, {made[2]} targets refused", flush=True)
        refused(Crate(found[0], where, folder / "refused"), folder)
    print("what a build needs and does not find is named")
    return 0


if __name__ == "__main__":
    sys.exit(main())
