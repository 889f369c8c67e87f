"""Shows what tools/staticlib refuses: modules with something of x86 in them, other sizes, pointers that are taken for 64 bits, a wide
product in the zone count, assembler that makes another library than rattle, another kit, another way to call clang.

    python3 reference/run_staticlib.py

The modules are small ones, compiled by the kit's clang, and go the way of the library's own, in a folder of the test.
"""

import platform
import sys
from importlib.machinery import SourceFileLoader
from importlib.util import module_from_spec, spec_from_loader
from itertools import cycle, product
from pathlib import Path
from tempfile import TemporaryDirectory

from programs import ROOT

sys.path.insert(0, str(ROOT / "tools"))

LAYOUT = "e-m:e-p270:32:32-p271:32:32-p272:64:64-i64:64-i128:128-f80:128-n8:16:32:64-S128"  # of x86-64
ARM_LAYOUT = "e-m:e-p270:32:32-p271:32:32-p272:64:64-i8:8:32-i16:16:32-i64:64-i128:128-n32:64-S128-Fn32"
MODULE = f"""source_filename = "rattle"
target datalayout = "{LAYOUT}"
target triple = "x86_64-unknown-linux-gnu"

define i32 @one(ptr %p, i64 %n) #0 {{
  %x = call fastcc i32 @"x86::accept"(ptr %p, i64 %n, i8 zeroext 1)
  %y = call double @llvm.arithmetic.fence.f64(double 2.5)
  %z = fptoui double %y to i32
  %w = add i32 %x, %z
  ret i32 %w
}}

define internal fastcc i32 @"x86::accept"(ptr %p, i64 %n, i8 zeroext %b) #0 {{
  call void @llvm.memset.p0.i64(ptr %p, i8 0, i64 %n, i1 false)
  ret i32 1
}}

declare void @llvm.memset.p0.i64(ptr, i8, i64, i1)
declare double @llvm.arithmetic.fence.f64(double)

attributes #0 = {{ nounwind "probe-stack"="inline-asm" "target-cpu"="x86-64" }}
"""
OF_X86 = [
    'define void @f() { call void asm sideeffect "pause", ""() ret void }',
    'module asm "nop"',
    "declare void @llvm.x86.sse2.pause()\ndefine void @f() { call void @llvm.x86.sse2.pause() ret void }",
    "define internal void @f() { %x = alloca x86_fp80 ret void }",
    "define x86_stdcallcc void @f() { ret void }",
    "define win64cc void @f() { ret void }",
    'define void @f() #1 { ret void }\nattributes #1 = { "target-features"="+avx2" }',
    'define void @f() #1 { ret void }\nattributes #1 = { "target-cpu"="haswell" }',
    'define void @f() #1 { ret void }\nattributes #1 = { "tune-cpu"="generic" }',
    "define i32 @f(ptr addrspace(257) %p) { %x = load i32, ptr addrspace(257) %p ret i32 %x }",
    "define i32 @f(ptr byval(i64) %p) { ret i32 1 }",
    "define i32 @f(i8 zeroext %b) { ret i32 1 }",
    "define { i64, i64 } @f() { ret { i64, i64 } zeroinitializer }",
    "define double @f(double %a, double %b) { %x = fadd contract double %a, %b ret double %x }",
    "declare double @llvm.fmuladd.f64(double, double, double)",
]
# Layouts that differ in what every module has, and in what the module beside each has
OTHER_LAYOUTS = [
    ("", ARM_LAYOUT.replace("e-m", "E-m", 1)),
    ("", ARM_LAYOUT.replace("i64:64", "i64:32")),
    ("", ARM_LAYOUT.replace("m:e", "m:o")),
    ("", f"{ARM_LAYOUT}-p:32:64"),
    ("", f"{ARM_LAYOUT}-f64:32"),
    ("define internal void @f() { %x = alloca i128, align 8 ret void }", ARM_LAYOUT.replace("-i128:128", "")),
    ("define internal void @f() { %x = alloca i64, align 16 ret void }", ARM_LAYOUT.replace("S128", "S64")),
    ("define internal void @f() { %x = alloca <2 x i64>, align 8 ret void }", f"{ARM_LAYOUT}-v128:64"),
]
NARROW_LAYOUT = "e-m:e-p:32:32-Fi8-i64:64-v128:64:128-a:0:32-n32-S64"  # of 32-bit ARM
# A pointer and a length in 16 bytes, copied whole; and a pointer alone: as modules have them
SLOT = "%s = alloca [16 x i8], align 8\n  store ptr %p, ptr %s, align 8\n  "
LENT = """
define internal { ptr, i64 } @part(ptr %p, i64 %n) {
  %r = alloca [16 x i8], align 8
  store ptr %p, ptr %r, align 8
  %l = getelementptr i8, ptr %r, i64 8
  store i64 %n, ptr %l, align 8
  %x = load { ptr, i64 }, ptr %r, align 8
  ret { ptr, i64 } %x
}

define internal void @lent(ptr %p, i64 %n) {
  %a = alloca ptr, align 8
  store ptr %p, ptr %a, align 8
  %x = load ptr, ptr %a, align 8
  %s = alloca [16 x i8], align 8
  store ptr %x, ptr %s, align 8
  %l = getelementptr i8, ptr %s, i64 8
  store i64 %n, ptr %l, align 8
  %t = alloca [16 x i8], align 8
  call void @llvm.memmove.p0.p0.i64(ptr %t, ptr %s, i64 16, i1 false)
  %y = load ptr, ptr %t, align 8
  %b = call { ptr, i64 } @part(ptr %y, i64 %n)
  %c = extractvalue { ptr, i64 } %b, 0
  %d = extractvalue { ptr, i64 } %b, 1
  store ptr %c, ptr %t, align 8
  ret void
}

declare void @llvm.memmove.p0.p0.i64(ptr, ptr, i64, i1)
"""
# What a function with a pointer %p does that goes by its 64 bits
BY_POINTERS = [
    "%x = getelementptr { ptr, i32 }, ptr %p, i64 0, i32 1",
    "%x = alloca [2 x ptr], align 8",
    "%x = ptrtoint ptr %p to i64",
    "%x = ptrtoaddr ptr %p to i64",
    "%x = inttoptr i64 8 to ptr",
    "%x = getelementptr ptr, ptr %p, i64 1",
    "%x = load ptr, ptr %p, align 8",
    "store ptr %p, ptr %p, align 8",
    "%x = alloca [8 x i8], align 8\n  store ptr %p, ptr %x, align 8",
    f"{SLOT}%x = getelementptr i8, ptr %s, i64 4",
    f"{SLOT}%x = getelementptr i8, ptr %s, i64 12",
    f"{SLOT}%x = load i64, ptr %s, align 8",
    "%x = load { ptr, i64 }, ptr %p, align 8",
    "%s = alloca [24 x i8], align 8\n  %x = load { ptr, i64 }, ptr %s, align 8",
    "%s = alloca { ptr, i64 }, align 8",
    "%x = getelementptr { ptr, i64 }, ptr %p, i64 1",
    "%b = call { ptr, i64 } @part(ptr %p, i64 1)\n  store { ptr, i64 } %b, ptr %p, align 8",
    "%s = alloca [16 x i8], align 8\n  %x = load { ptr, i64 }, ptr %s, align 8\n  %y = load i64, ptr %s, align 8",
    "%s = alloca [16 x i8], align 8\n  %x = load { ptr, i32 }, ptr %s, align 8",
    f"{SLOT}call void @llvm.memmove.p0.p0.i64(ptr %p, ptr %s, i64 8, i1 false)",
    "%a = alloca ptr, align 8\n  call void @llvm.memmove.p0.p0.i64(ptr %a, ptr %p, i64 8, i1 false)",
    "%a = alloca ptr, align 8\n  %x = load i64, ptr %a, align 8",
    "%a = alloca ptr, align 8\n  %x = getelementptr i8, ptr %a, i64 8",
]
ZONES = "".join(
    f'define internal i32 @"positions::{name}"(i32 %a, i64 %b) {{\n  %x = mul nuw i32 %a, 3\n  %y = mul nuw i64 %b, 8\n  ret i32 %x\n}}\n'
    for name in ("zone_count_at", "zone_count", "units_in", "apart")
)
WIDE = ["mul nuw i64 %b, %b", "mul i64 %b, 131072000", "mul nsw nuw i64 %b, %b", "mul i128 %c, %c", "mul i33 %d, %d"]
WORDS = "--target=x86_64-unknown-linux-gnu -march=x86-64 -Werror -c -x ir module.bc -o module.o -fPIC -O3 --sysroot=/kit".split()


def staticlib(folder):
    """The script, as a module of Python, that works in a folder of its own."""
    loader = SourceFileLoader("staticlib", str(ROOT / "tools/staticlib"))
    made = module_from_spec(spec_from_loader("staticlib", loader))
    loader.exec_module(made)
    made.MADE = folder
    return made


def keep(script, crate, text):
    """The module of a crate as rattle would have left it."""
    (script.MADE / "module.ll").write_text(text, encoding="ascii")
    words = ["--no-default-config", "-Wno-override-module", "-c", "-emit-llvm", "-O0", "-Xclang", "-disable-llvm-passes"]
    target = "--target=x86_64-unknown-linux-gnu"
    script.output(script.tool("clang"), target, *words, "-x", "ir", "module.ll", "-o", f"{crate}.bc", folder=script.MADE)
    (script.MADE / f"{crate}.words").write_text("\n".join(WORDS), encoding="ascii")


def refusal(script, function, *arguments):
    """Why a call is refused, or nothing."""
    try:
        function(*arguments)
    except script.Refused as why:
        return str(why)
    return ""


def module_faults(script):
    """What is wrong with how modules are taken or refused, for every target."""
    others = [name for name in script.TARGETS if name != script.X86]
    for crate in script.LIBRARY:
        keep(script, crate, MODULE + LENT)
    due = [f"{crate}.o" for crate in script.LIBRARY]
    for name in (name for name in others if script.TARGETS[name].sort != script.MODULE):
        said = refusal(script, script.make_archive, name)
        if said or script.output(script.tool("llvm-ar"), "t", script.archive(name)).split() != due:
            yield f"{name}: modules without anything of x86: {said}"
        elif script.symbols(script.archive(name)) != ["one"] * len(due):
            yield f"{name}: the global names of an archive were not found"
    for text, crate, name in zip(OF_X86, cycle(script.LIBRARY), cycle(others)):
        keep(script, crate, f"{MODULE}\n{text}\n")
        if "of x86 in it, or something that was not tried" not in refusal(script, script.make_archive, name):
            yield f"{name}: not refused: {text}"
        keep(script, crate, MODULE)


def text_faults(script):
    """What is wrong with the assembler: its names, and that for x86-64 it makes what rattle makes."""
    if script.plain('\t.ascii\t"a::b"\n"a::b":\n\tcall\t"a::b"@PLT\n\t.ident\t"x"\n') != '\t.ascii\t"a::b"\na.b:\n\tcall\ta.b@PLT\n':
        yield "names are not plain, or more than names is changed"
    words = [*WORDS[:-1], "--no-default-config"]
    for crate in script.LIBRARY:
        keep(script, crate, MODULE.replace("@one", f"@{crate}"))
        own = [f"{crate}.bc" if word == "module.bc" else f"{crate}.o" if word == "module.o" else word for word in words]
        script.output(script.tool("clang"), *own, folder=script.MADE)
    script.output(script.tool("llvm-ar"), "rcsD", script.of_rattle(), *(f"{crate}.o" for crate in script.LIBRARY), folder=script.MADE)
    said = refusal(script, script.make_archive, script.X86)
    if said:
        yield f"the assembler of rattle's own modules was refused: {said}"
    keep(script, script.LIBRARY[-1], MODULE.replace("@one", f"@{script.LIBRARY[-1]}").replace("ret i32 1", "ret i32 2"))
    if "another library than rattle" not in refusal(script, script.make_archive, script.X86):
        yield "not refused: assembler that is not what rattle makes"


def layout_faults(script):
    """What is wrong with how sizes, alignments and pointers are looked at."""
    for text, layout in OTHER_LAYOUTS:
        if "the order of bytes differ" not in refusal(script, script.rewritten, f"{MODULE}{text}\n", "aarch64", layout):
            yield f"not refused: {layout}"
    for text, layout in ((MODULE + LENT, NARROW_LAYOUT), *((MODULE, layout) for text, layout in OTHER_LAYOUTS if text)):
        if refusal(script, script.rewritten, text, "armv6", layout):
            yield f"refused, though the module has nothing that differs: {layout}"
    for body in BY_POINTERS:
        text = f"{MODULE}{LENT}\ndefine internal void @f(ptr %p) {{\n  {body}\n  ret void\n}}\n"
        if "(p)" not in refusal(script, script.rewritten, text, "armv6", NARROW_LAYOUT) or refusal(script, script.rewritten, text, "aarch64", ARM_LAYOUT):
            yield f"taken for 32 bits, or refused for 64: {body}"
    if "is not for" not in refusal(script, script.rewritten, MODULE.replace("-linux-gnu", "-linux-musl"), "aarch64", ARM_LAYOUT):
        yield "not refused: another target"


def product_faults(script):
    """What is wrong with the guard of RULES 7.5."""
    if script.wide_product([ZONES, MODULE]):
        yield "a product of 32 bits, or an index times the size of an element, was taken for a wide one"
    for name, wide in product(script.NARROW, WIDE):
        before, at, after = ZONES.partition(f'@"{name}"')
        if name not in (script.wide_product([ZONES, before + at + after.replace("mul nuw i64 %b, 8", wide, 1)]) or ""):
            yield f"not seen in {name}: {wide}"
    for name in script.NARROW:
        if name not in (script.wide_product([ZONES.replace(f'"{name}"', '"another"')]) or ""):
            yield f"not seen: there is no {name}"
    for crate in script.LIBRARY:
        keep(script, crate, MODULE + ZONES)
    if refusal(script, script.check_products):
        yield "modules without a wide product were refused"
    keep(script, script.LIBRARY[-1], MODULE + ZONES.replace("mul nuw i64 %b, 8", "mul nuw i64 %b, %b"))
    if "RULES 7.5" not in refusal(script, script.check_products):
        yield "not refused: a module with a wide product"


def other_faults(script):
    """What is wrong with how another kit, other words or another target are refused."""
    for at, name in product((WORDS.index(word) for word in WORDS[:2] + ["-fPIC", "-O3"]), ("aarch64", "wasm32")):
        if "with other words" not in refusal(script, script.words_for, name, WORDS[:at] + WORDS[at + 1 :], "other.ll", "other.o"):
            yield f"not refused: without {WORDS[at]}"
    (script.MADE / f"{script.LIBRARY[-1]}.words").unlink()
    if "handed no module" not in refusal(script, script.make_archive, "aarch64"):
        yield "not refused: no module"
    if "there is no archive for" not in refusal(script, script.make, "i686"):
        yield "not refused: another processor"
    script.TRIED[:] = ["a kit of another day"]
    if "were tried with a kit of another day" not in refusal(script, script.make, "aarch64"):
        yield "not refused: a kit that it was not tried with"


def faults(script):
    """What is wrong with the script."""
    for part in (module_faults, text_faults, layout_faults, product_faults, other_faults):
        yield from part(script)


def main():
    if platform.machine() not in ("x86_64", "aarch64"):
        print("tools/staticlib has no archive for this machine")
        return 1
    with TemporaryDirectory(prefix="x86 ") as folder:
        found = list(faults(staticlib(Path(folder))))
    if found:
        print("\n".join(found))
        return 1
    print(f"{len(OF_X86)} modules with something of x86, {len(OTHER_LAYOUTS)} layouts, {len(BY_POINTERS)} uses of a pointer's 64 bits, other assembler, other words,")
    print(f"another kit: refused, each in a sentence; {len(WIDE)} wide products in each part of the zone count: seen")
    return 0


if __name__ == "__main__":
    sys.exit(main())
