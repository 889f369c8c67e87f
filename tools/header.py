"""What include/addercoil.h says, read once into one list: the version, every number with its name and group, the words of the
refusals, and every function with its parameters. `tools/bindings` writes it out for other languages."""
import re
from pathlib import Path
from typing import NamedTuple

ROOT = Path(__file__).resolve().parent.parent
HEADER = ROOT / 'include/addercoil.h'
PREFIX = 'ADDERCOIL_'
SIZES = {'uint8_t': 'u8', 'uint32_t': 'u32', 'int32_t': 'i32', 'uint64_t': 'u64', 'addercoil_size': 'u64', 'double': 'f64'}


class Parameter(NamedTuple):
    """A number, or an array with its count behind it."""

    name: str
    type: str  # one of SIZES
    array: str  # '' of a number; else 'reads' or 'writes'


class Function(NamedTuple):
    """A function, by its name without the prefix."""

    name: str
    answer: str
    parameters: list


class Header(NamedTuple):
    """What the header says."""

    version: int
    defines: dict  # the plain numbers, by name without the prefix
    formulas: dict  # how many bytes belong to so many places, in C, by name without the prefix
    enums: list  # of each enum its numbers by name, in its order
    words: list  # of the numbers that come back
    functions: list


def numbers_of(inside):
    """The numbers of an enum, by name without the prefix."""
    made, value = {}, -1
    for name, given in re.findall(rf'{PREFIX}(\w+)(?: = (\d+))?', inside):
        value = int(given) if given else value + 1
        made[name] = value
    return made


def parameters_of(inside):
    """The parameters of a declaration; an array and its count are one."""
    made = []
    for text in [' '.join(part.split()) for part in inside.split(',') if part.strip() != 'void']:
        constant, kind, star, name = re.fullmatch(r'(const )?(\w+) (\*?)(\w+)', text).groups()
        if star:
            made.append(Parameter(name, SIZES[kind], 'reads' if constant else 'writes'))
        elif not (made and made[-1].array and name == f'{made[-1].name}_len'):
            made.append(Parameter(name, SIZES[kind], ''))
    return made


def read():
    """The header."""
    text = re.sub(r'/\*.*?\*/', '', HEADER.read_text(encoding='ascii'), flags=re.S)
    defines = {name: int(value) for name, value in re.findall(rf'^#define {PREFIX}(\w+) (\d+)$', text, flags=re.M)}
    version = defines.pop('VERSION')
    formulas = dict(re.findall(rf'^#define {PREFIX}(\w+)\(places\) \((.*)\)$', text, flags=re.M))
    words = re.findall(r'"(.*)"', re.search(rf'#define {PREFIX}NUMBER_WORDS.*?\{{(.*?)\}}', text, flags=re.S)[1])
    declared = re.findall(r'^(\w+) addercoil_(\w+)\(([^)]*)\);', text, flags=re.M)
    functions = [Function(name, SIZES[answer], parameters_of(inside)) for answer, name, inside in declared]
    enums = [numbers_of(inside) for inside in re.findall(r'enum \{(.*?)\}', text, flags=re.S)]
    return Header(version, defines, formulas, enums, words, functions)


def with_prefix(header, prefix):
    """The numbers of the enum whose first name begins so, by name without that prefix; a count at its end has another name."""
    found = next(numbers for numbers in header.enums if next(iter(numbers)).startswith(prefix))
    return {name.removeprefix(prefix): number for name, number in found.items() if name.startswith(prefix)}


def layouts(header):
    """Of each layout, by name: the entries of its fields of ME, and of its readings, each by name. Both velocities end alike."""
    heads = next(numbers for numbers in header.enums if next(iter(numbers)) == 'LAYOUT')
    made = {}
    for layout in with_prefix(header, 'LAYOUT_'):
        entries = with_prefix(header, f'{layout}_')
        entries |= with_prefix(header, 'VERTICAL_') if layout in ('GROUND', 'AIR') else {}
        readings = {name.removesuffix('_IS'): at for name, at in entries.items() if name.endswith('_IS')}
        fields = {name: at for name, at in entries.items() if not name.endswith('_IS') and name not in readings}
        made[layout] = fields, readings
    return heads, made


def counts(header):
    """How many entries each array has: the name that ends its enum, which says 'how many there are'."""
    ends = {list(numbers)[-1]: list(numbers.values())[-1] for numbers in header.enums}
    return {name: ends[name] for name in ('STAMPS', 'SITE', 'TRACK', 'SPOT', 'COUNTS', 'DEGREES')}
