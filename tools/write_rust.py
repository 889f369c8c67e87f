"""What the crate for Rust needs of the C header: its names and numbers, every function over slices, and the version of its manifest."""
import re

from header import PREFIX, ROOT, counts, with_prefix

CRATE = ROOT / 'bindings/rust'
NAMES, CALLS, MANIFEST = CRATE / 'src/names.rs', CRATE / 'src/calls.rs', CRATE / 'Cargo.toml'
PLAIN = 'version', 'table_bytes'  # whose answer is a number of its own, and no refusal
MODULES = ['TRACK', 'IDENTIFICATION', 'SURFACE', 'AIRBORNE', 'GROUND', 'AIR', 'VERTICAL', 'STATUS', 'COARSE']
KINDS = {
    'I': 'what an aircraft sends itself, under an ICAO address', 'O': 'what an aircraft sends itself, under another address',
    'T': 'what a ground station tells, of an ICAO address', 'M': 'what a ground station tells, of a Mode A code and a track number',
    'N': 'what a ground station tells, of another address', 'C': 'what a ground station tells coarsely',
}


def camel(name):
    """A name of a case, as Rust has it."""
    return ''.join(part.capitalize() for part in name.split('_'))


# The names and numbers


def constants(numbers, kind, prefix='', inset=''):
    """A constant for each number, each with its name in the header."""
    return [line for name, number in numbers.items()
            for line in (f'{inset}/// `{PREFIX}{prefix}{name}`', f'{inset}pub const {name}: {kind} = {number};')]


def module(name, said, numbers, kind, prefix=''):
    """A module of constants."""
    return [f'/// {said}', f'pub mod {name} {{', *constants(numbers, kind, prefix, '    '), '}', '']


def sizes(header):
    """How many bytes belong to so many places, as the header computes it."""
    for name, formula in header.formulas.items():
        yield f'/// `{PREFIX}{name}`, for the length of an array; `usize::MAX` if that is too small.'
        yield '///'
        yield '/// [`Table::bytes_for`](crate::Table::bytes_for) says whether there is a table of so many places.'
        yield f'pub const fn {name.lower()}(places: usize) -> usize {{'
        yield '    let places = places as u128;'
        yield f"    let bytes = {formula.replace('(addercoil_size)(places)', 'places')};"
        yield '    if bytes > usize::MAX as u128 {'
        yield '        usize::MAX'
        yield '    } else {'
        yield '        bytes as usize'
        yield '    }'
        yield '}'
        yield ''


def cases(name, said, rows):
    """An enum of numbers: its rows are a case, its number and what it is."""
    yield f'/// {said}'
    yield '#[derive(Clone, Copy, Debug, PartialEq, Eq, PartialOrd, Ord, Hash)]'
    yield '#[repr(u32)]'
    yield '#[non_exhaustive]'
    yield f'pub enum {name} {{'
    for case, number, words in rows:
        yield f'    /// {number}: {words}.'
        yield f'    {case} = {number},'
    yield '}'
    yield ''
    yield f'impl {name} {{'
    yield '    /// The one with a number, if there is one.'
    yield '    pub const fn from_number(number: u32) -> Option<Self> {'
    yield '        match number {'
    yield from (f'            {number} => Some(Self::{case}),' for case, number, _ in rows)
    yield from ('            _ => None,', '        }', '    }')


def refusals(header):
    """Why the library refuses."""
    rows = [(camel(name.removeprefix('REFUSED_')), number, header.words[number])
            for name, number in header.enums[0].items() if name.startswith('REFUSED_')]
    yield from cases('Refusal', 'Why the library refused.', rows)
    yield ''
    yield '    /// What it means, in the words of the header.'
    yield '    pub const fn words(self) -> &\'static str {'
    yield '        match self {'
    yield from (f'            Self::{case} => "{words}",' for case, _, words in rows)
    yield from ('        }', '    }', '}', '')


def names(header):
    """The text of NAMES."""
    lines = ['//! Names and numbers of include/addercoil.h. tools/bindings writes this file.', '']
    lines += [f'/// `{PREFIX}VERSION`: that of the header.', f'pub const VERSION: u32 = {header.version};']
    lines += [*constants(header.defines, 'usize'), *constants(counts(header), 'usize'), '', *sizes(header), *refusals(header)]
    lines += [*cases('Kind', 'The kinds of aircraft, in the order of the listing.',
                     [(name, number, KINDS[name]) for name, number in with_prefix(header, 'KIND_').items()]), '}', '']
    for name, kind, first, said in (('reading', 'u64', 'UNKNOWN', 'What a reading is.'), ('head', 'usize', 'LAYOUT', 'The first fields of a message.')):
        lines += module(name, said, next(numbers for numbers in header.enums if first in numbers), kind)
    for prefix, said in (('LAYOUT_', 'The layouts of a message.'), ('INTEGRITY_', 'What the integrity of a track is.')):
        lines += module(prefix[:-1].lower(), said, with_prefix(header, prefix), 'u64', prefix)
    for prefix in MODULES:
        lines += module(prefix.lower(), f'The entries `{PREFIX}{prefix}_..`.', with_prefix(header, f'{prefix}_'), 'usize', f'{prefix}_')
    return '\n'.join(lines[:-1]) + '\n'


# The functions

CALLS_HEAD = '''//! Every function of include/addercoil.h by its name, over slices: safe, and otherwise as the header says.
//!
//! An array is a slice, so that its pointer and its count fit. Two slices that are both only read may overlap. No other file of the crate
//! has unsafe code. tools/bindings writes this one.
#![allow(unsafe_code)]

use crate::Refusal;

/// As C declares them.
mod c {
    extern "C" {
DECLARED
    }
}

/// An answer of the library.
fn answered(number: u32) -> Result<(), Refusal> {
    match (number, Refusal::from_number(number)) {
        (0, _) => Ok(()),
        (_, Some(refusal)) => Err(refusal),
        (_, None) => panic!("the library is of another version: it answers {}", number),
    }
}

'''
POINTERS = {'reads': ('*const', 'as_ptr'), 'writes': ('*mut', 'as_mut_ptr')}


def declared(one):
    """A function as C has it: an array is a pointer and a count."""
    given = [f'{p.name}: {POINTERS[p.array][0]} {p.type}, {p.name}_len: u64' if p.array else f'{p.name}: {p.type}' for p in one.parameters]
    return f"        pub fn addercoil_{one.name}({', '.join(given)}) -> {one.answer};"


def reason(one):
    """Why the call is safe."""
    arrays = [p for p in one.parameters if p.array]
    written = [f'`{p.name}`' for p in arrays if p.array == 'writes']
    if not arrays:
        return 'it is lent nothing.'
    said = 'each pointer and count are those of a slice, which is aligned and lives through the call.'
    return f"{said} The call writes {' and '.join(written)}, and nobody else has these bytes: the slice is mutable."


def over_slices(one):
    """A function over slices."""
    use = {'reads': '&', 'writes': '&mut '}
    taken = ', '.join(f'{p.name}: {use[p.array]}[{p.type}]' if p.array else f'{p.name}: {p.type}' for p in one.parameters)
    given = ', '.join(f'{p.name}.{POINTERS[p.array][1]}(), {p.name}.len() as u64' if p.array else p.name for p in one.parameters)
    plain = one.name in PLAIN
    yield f"/// `addercoil_{one.name}`{'' if plain else ', or why it is refused'}."
    yield f"pub fn {one.name}({taken}) -> {one.answer if plain else 'Result<(), Refusal>'} {{"
    yield f'    // SAFETY: {reason(one)}'
    call = f'unsafe {{ c::addercoil_{one.name}({given}) }}'
    yield f"    {call if plain else f'answered({call})'}"
    yield '}'
    yield ''


def calls(header):
    """The text of CALLS."""
    lines = CALLS_HEAD.replace('DECLARED', '\n'.join(map(declared, header.functions))).splitlines()
    for one in header.functions:
        lines += over_slices(one)
    return '\n'.join(lines[:-1]) + '\n'


def manifest(header):
    """The text of MANIFEST: as it is, with the version of the header."""
    number = header.version
    version = f'{number // 10_000}.{number // 100 % 100}.{number % 100}'
    return re.sub(r'(?<=^version = ").*(?="$)', version, MANIFEST.read_text(encoding='ascii'), flags=re.M)


WRITERS = {NAMES: names, CALLS: calls, MANIFEST: manifest}
