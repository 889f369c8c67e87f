"""What the module for JavaScript needs of the C header, and what TypeScript is told of it."""
import json

from header import ROOT, counts, layouts, with_prefix

FOLDER = ROOT / 'bindings/js'
PATH = FOLDER / 'names.js'
TYPES = FOLDER / 'names.d.ts'
ARRAYS = {'u8': 'Uint8Array', 'u64': 'BigUint64Array', 'f64': 'Float64Array'}
NUMBERS = {'u32': 'number', 'i32': 'number', 'u64': 'number | bigint', 'f64': 'number'}


def camel(name):
    """ALTITUDE_STEP_IS is altitudeStepIs."""
    first, *rest = name.lower().split('_')
    return first + ''.join(word.capitalize() for word in rest)


def plain(header):
    """The numbers that have a name of their own: the version, sizes, how many entries an array has, what a reading is, and an integrity."""
    made = {'VERSION': header.version} | header.defines | counts(header)
    for first in ('UNKNOWN', 'INTEGRITY_UNKNOWN'):
        made |= next(numbers for numbers in header.enums if first in numbers)
    return made


def tables(header):
    """The tables, by their names: the numbers that come back, the kinds, the layouts, and the entries of each array."""
    heads, of_layout = layouts(header)
    refusals = {number: name.removeprefix('REFUSED_') for name, number in header.enums[0].items() if name.startswith('REFUSED_')}
    named = [{camel(name): at for name, at in numbers.items()} for numbers in (with_prefix(header, 'TRACK_'), heads)]
    parts = [{layout: {camel(name): at for name, at in both[part].items()} for layout, both in of_layout.items()} for part in (0, 1)]
    functions = {one.name: [one.answer, list(map(list, one.parameters))] for one in header.functions}
    return {
        'REFUSALS': refusals, 'WORDS': header.words, 'KINDS': with_prefix(header, 'KIND_'), 'LAYOUTS': with_prefix(header, 'LAYOUT_'),
        'TRACK_ENTRIES': named[0], 'HEAD': named[1], 'FIELDS_OF': parts[0], 'READINGS_OF': parts[1], 'FUNCTIONS': functions
    }


def shown(name, table):
    """A table of JavaScript, a line for each of its rows."""
    rows = table if isinstance(table, list) else [f'{json.dumps(key)}: {json.dumps(row)}' for key, row in table.items()]
    opened, closed = '[]' if isinstance(table, list) else '{}'
    lines = [json.dumps(row) if isinstance(table, list) else row for row in rows]
    return [f'export const {name} = {opened}', *(f'    {line},' for line in lines), f'{closed};', '']


def write(header):
    """The text of PATH."""
    lines = ['// Names and numbers of include/addercoil.h. tools/bindings writes this file. A reading has two entries: what it is stands at',
             '// its number, and its value behind it. A function has its answer and its parameters, each with its type and what is done',
             '// to an array.']
    lines += [f'export const {name} = {value};' for name, value in plain(header).items()] + ['']
    return '\n'.join([*lines, *(line for name, table in tables(header).items() for line in shown(name, table))])


def call_type(function):
    """A function as TypeScript has it."""
    parameters = [f'{one.name}: {ARRAYS[one.type] if one.array else NUMBERS[one.type]}' for one in function.parameters]
    return f"    {function.name}({', '.join(parameters)}): number;"


def names_type(name, table):
    """The keys of a table as a type."""
    return f"export type {name} = {' | '.join(json.dumps(key) for key in table)};"


def write_types(header):
    """The text of TYPES."""
    made = tables(header)
    lines = ['// The types of names.js, and of every function of include/addercoil.h. tools/bindings writes this file.']
    lines += [f'export const {name}: {value};' for name, value in plain(header).items()] + ['']
    lines += [names_type('Kind', made['KINDS']), names_type('Layout', made['LAYOUTS'])]
    lines += [names_type('RefusalName', made['REFUSALS'].values()), names_type('TrackEntry', made['TRACK_ENTRIES']), '']
    lines += ['/** Every function of the C header by its name, without addercoil_ before it and with the lengths filled in. */']
    lines += ['export interface Calls {', *map(call_type, header.functions), '}', '']
    lines += ['export const REFUSALS: Readonly<Record<number, RefusalName>>;', 'export const WORDS: readonly string[];']
    lines += ['export const KINDS: Readonly<Record<Kind, number>>;', 'export const LAYOUTS: Readonly<Record<Layout, number>>;']
    lines += ['export const TRACK_ENTRIES: Readonly<Record<TrackEntry, number>>;', 'export const HEAD: Readonly<Record<string, number>>;']
    lines += [f'export const {name}: Readonly<Record<Layout, Readonly<Record<string, number>>>>;' for name in ('FIELDS_OF', 'READINGS_OF')]
    lines += ['type Parameter = readonly [name: string, type: string, use: string];']
    lines += ['export const FUNCTIONS: Readonly<Record<keyof Calls, readonly [answer: string, parameters: readonly Parameter[]]>>;', '']
    return '\n'.join(lines)
