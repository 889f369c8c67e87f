#!/usr/bin/env python3
"""The targets of the archive for C, a row each, for the scripts that make, build, run and install.

    tools/targets.py SORT               the names of a sort: linux, board or module
    tools/targets.py --triples          what clang calls each
    tools/targets.py --missing          Debian's packages that this machine lacks to build and run programs for all of them
    tools/targets.py --how TARGET       how programs for it run here; or why they cannot be built and run, with status 1
    tools/targets.py --compiler TARGET  the command that builds C programs for it here
    tools/targets.py --run PROGRAM      the command that runs a program here, by what its file says, a word a line; tools/run is that
"""
import platform
import shutil
import subprocess
import sys
from pathlib import Path
from typing import NamedTuple

LINUX, BOARD, MODULE = 'linux', 'board', 'module'  # with a system, without one, and WebAssembly


class Target(NamedTuple):
    """One of them. A program of a sort is told by the machine and the flags that stand in its head."""

    sort: str
    triple: str  # as clang calls it
    words: list  # what clang is told besides
    told: str = ''  # by a compiler's macros, of a processor with the low byte first
    machine: int | None = None
    flags: int = 0  # of those in FLOATS
    compiler: str = ''  # of C, on a machine with another processor
    emulator: str = ''
    needs: dict = {}  # what both need, a command or a file, and its package of Debian
    independent: bool = True  # of where its code lies
    optimised: str = '-O3'


def linux(triple, words, told, machine, gnu, debian, emulator, flags=0, more=()):
    """A processor under Linux, by the names that gcc, Debian and qemu have for it."""
    compiler = f'{gnu}-gcc'
    needs = {compiler: f'gcc-{gnu}', f'/usr/{gnu}/lib/libc.a': f'libc6-dev-{debian}-cross', emulator: 'qemu-user', **dict(more)}
    return Target(LINUX, triple, words, told, machine, flags, compiler, emulator, needs)


def board(triple, words, thumb):
    """A processor of ARM without a system, by its Thumb; its programs look alike."""
    told = f"defined(__arm__) && __ARM_ARCH_PROFILE == 'M' && __ARM_ARCH_ISA_THUMB == {thumb} && !defined(__ARM_PCS_VFP)"
    return Target(BOARD, triple, words, told, 40, SOFT, 'arm-none-eabi-gcc', 'qemu-system-arm', ARM_BOARD, False, '-Os')


FLOATS = 0x600  # of a program for 32-bit ARM: whether doubles pass in registers of their own
HARD, SOFT = 0x400, 0x200
X86 = 'x86_64'  # the kit runs there, and compiles for it
ARM_COMPILER = {'arm-none-eabi-gcc': 'gcc-arm-none-eabi'}
ARM_BOARD = ARM_COMPILER | {'qemu-system-arm': 'qemu-system-arm'}
LONG = '__SIZEOF_POINTER__ == 8'
TARGETS = {
    X86: Target(LINUX, 'x86_64-unknown-linux-gnu', ['-march=x86-64'], f'defined(__x86_64__) && {LONG}', 62),
    'aarch64': linux('aarch64-unknown-linux-gnu', [], f'defined(__aarch64__) && {LONG}', 183, 'aarch64-linux-gnu', 'arm64', 'qemu-aarch64'),
    # Every Raspberry Pi, with a 32-bit system. Debian's C library for it is for ARMv7: without one the calls run on the first one's processor too
    'armv6': linux(
        'armv6-unknown-linux-gnueabihf', ['-mfloat-abi=hard', '-mfpu=vfp2'],
        "defined(__arm__) && __ARM_ARCH_PROFILE != 'M' && __ARM_ARCH >= 6 && defined(__ARM_PCS_VFP)",
        40, 'arm-linux-gnueabihf', 'armhf', 'qemu-arm', HARD, ARM_COMPILER
    ),
    'riscv64': linux(
        'riscv64-unknown-linux-gnu', ['-march=rv64gc', '-mabi=lp64d'],
        'defined(__riscv) && __riscv_xlen == 64 && defined(__riscv_mul) && defined(__riscv_compressed) && defined(__riscv_float_abi_double)',
        243, 'riscv64-linux-gnu', 'riscv64', 'qemu-riscv64'
    ),
    # A Cortex-M3, a Cortex-M0, and what is above them, with doubles in software
    'thumbv7m': board('thumbv7m-unknown-none-eabi', ['-mcpu=cortex-m3', '-mfloat-abi=soft'], 2),
    'thumbv6m': board('thumbv6m-unknown-none-eabi', ['-mcpu=cortex-m0', '-mfloat-abi=soft'], 1),
    'wasm32': Target(MODULE, 'wasm32-unknown-unknown', [], emulator='node', needs={'node': 'nodejs'}, independent=False),
}


# A board reads and prints by semihosting. It is one with a Cortex-M3, 4 MiB for code and 4 of memory, unless the name of the program says another
ON_BOARD = ['-display', 'none', '-serial', 'none', '-monitor', 'none', '-semihosting-config', 'enable=on,target=native']
MACHINE = 'mps2-an385'
# What else a program may be named for, as calls-microbit: a Cortex-M0 with 256 KiB for code and 16 of memory, and the first Raspberry Pi's processor
NAMED = {'microbit': ['-M', 'microbit'], 'arm1176': ['-cpu', 'arm1176']}


def missing(name):
    """What is not here to build and run programs for a target, with the packages."""
    needs = TARGETS[name].needs if name != platform.machine() else {}
    return {what: package for what, package in needs.items() if not (Path(what).exists() if '/' in what else shutil.which(what))}


def how(name):
    """How programs for a target run here, or None, and why not."""
    if name not in TARGETS or platform.machine() not in (X86, 'aarch64'):
        return None, f'there is no {name}, or this machine is neither x86_64 nor aarch64'
    if name == X86 and platform.machine() != X86:
        return None, 'the kit, which builds programs for x86_64, runs there alone'
    lacking = ', '.join(f'{what}, package {package}' for what, package in missing(name).items())
    if lacking:
        return None, f'there is no {lacking}'
    if name == platform.machine():
        return 'natively', ''
    return f'under {TARGETS[name].emulator}', ''


def target_of(program):
    """The target that a program was built for, by the machine at byte 18 of its file and, of 32-bit ARM, by its flags; or None."""
    with open(program, 'rb') as file:
        head = file.read(40)
    machine, narrow = int.from_bytes(head[18:20], 'little'), head[4:5] == b'\1'
    flags = int.from_bytes(head[36:40], 'little') & FLOATS if narrow else 0
    found = [name for name, target in TARGETS.items() if (target.machine, target.flags) == (machine, flags)]
    return found[0] if found and head[:4] == b'\x7fELF' else None


def runner(name, program):
    """The words before a program that runs here, for a target."""
    named = NAMED.get(Path(program).name.rpartition('-')[2], [])
    if name == X86:
        # With the kit's own C library, which `rt` and tools/cc link with
        guide = subprocess.run(['rt', 'doc'], stdout=subprocess.PIPE, text=True, check=True).stdout.strip()
        libraries = Path(guide).parent / 'toolchain/lib'
        return [libraries / 'ld-linux-x86-64.so.2', '--library-path', libraries]
    if name == platform.machine():
        return ['env']
    if TARGETS[name].sort == BOARD:
        return [TARGETS[name].emulator, *(named or ['-M', MACHINE]), *ON_BOARD, '-kernel']
    return [TARGETS[name].emulator, *named]


def compiler(name):
    """The command that builds C programs for a target here. A program for another processor has the C library in it, if there is one."""
    target = TARGETS[name]
    if name == X86:
        return ['tools/cc']
    if name == platform.machine():
        return ['gcc']
    return [target.compiler, '-static'] if target.sort == LINUX else [target.compiler, *target.words, '-nostdlib', '-ffreestanding']


def main():
    words = sys.argv[1:]
    if words in ([LINUX], [BOARD], [MODULE]):
        print(*(name for name, target in TARGETS.items() if target.sort == words[0]))
    elif words == ['--triples']:
        print(*(target.triple for target in TARGETS.values()))
    elif words == ['--missing']:
        print(*sorted({package for name in TARGETS for package in missing(name).values()}))
    elif len(words) == 2 and words[0] == '--how':
        said, why = how(words[1])
        print(said or why)
        return 0 if said else 1
    elif len(words) == 2 and words[0] == '--run':
        name = target_of(words[1])
        if not name:
            sys.exit(f'tools/run: {words[1]} is no program for {", ".join(name for name, target in TARGETS.items() if target.machine)}')
        print(*runner(name, words[1]), sep='\n')
    elif len(words) == 2 and words[0] == '--compiler' and TARGETS.get(words[1], TARGETS['wasm32']).sort != MODULE:
        print(*compiler(words[1]))
    else:
        print(__doc__.strip(), file=sys.stderr)
        return 2
    return 0


if __name__ == '__main__':
    sys.exit(main())
