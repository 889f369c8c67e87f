"""What the package for Python needs of the C header."""
from header import ROOT, counts, layouts, with_prefix

PATH = ROOT / 'bindings/python/addercoil/_names.py'


def rows(name, kind, pairs):
    """A dictionary of Python, a line for each pair."""
    return [f'{name}: Final[dict[{kind}]] = {{', *(f'    {key!r}: {value!r},' for key, value in pairs), '}', '']


def lowered(numbers):
    return {name.lower(): at for name, at in numbers.items()}


def write(header):
    """The text of PATH."""
    heads, of_layout = layouts(header)
    refusals = {number: name.removeprefix('REFUSED_') for name, number in header.enums[0].items() if name.startswith('REFUSED_')}
    kinds, track = with_prefix(header, 'KIND_'), with_prefix(header, 'TRACK_')
    lines = ['"""Names and numbers of include/addercoil.h. tools/bindings writes this file."""', 'from typing import Final', '']
    lines += [f'VERSION: Final = {header.version}', *(f'{name}: Final = {value}' for name, value in header.defines.items()), '']
    lines += ['# How many entries an array has', *(f'{name}: Final = {value}' for name, value in counts(header).items()), '']
    lines += ['# What a reading is, and what an integrity is']
    for first in ('UNKNOWN', 'INTEGRITY_UNKNOWN'):
        numbers = next(numbers for numbers in header.enums if first in numbers)
        lines += [f'{name}: Final = {value}' for name, value in numbers.items()]
    lines += ['', '# The numbers that come back: each by its name, and in words']
    lines += rows('REFUSALS', 'int, str', refusals.items()) + rows('WORDS', 'int, str', enumerate(header.words))
    lines += ['# The kinds by their letters, the layouts, and the entries of each array']
    lines += rows('KINDS', 'str, int', kinds.items()) + rows('LAYOUTS', 'str, int', with_prefix(header, 'LAYOUT_').items())
    lines += rows('TRACK_ENTRIES', 'str, int', lowered(track).items()) + rows('HEAD', 'str, int', lowered(heads).items())
    lines += rows('FIELDS_OF', 'str, dict[str, int]', ((name, lowered(fields)) for name, (fields, _) in of_layout.items()))
    lines += ['# A reading has two entries: what it is stands at the number, and its value behind it']
    lines += rows('READINGS_OF', 'str, dict[str, int]', ((name, lowered(readings)) for name, (_, readings) in of_layout.items()))
    lines += ['# Each function: its answer, and its parameters, each with its type and what is done to an array']
    lines += rows('FUNCTIONS', 'str, tuple[str, tuple[tuple[str, str, str], ...]]',
                  ((one.name, (one.answer, tuple(map(tuple, one.parameters)))) for one in header.functions))
    return '\n'.join(lines)
