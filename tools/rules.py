"""Holds docs/RULES.md to its form and its examples to the model, and docs/TRACE.md and all others to its numbers, for tools/check-docs.

- Sections '## N. ..' and paragraphs '**N.M** ..' are numbered without a gap. Each paragraph ends in a line '> ..' that names a
  definition, a function or a theorem. Where the paper says 'section N' or 'paragraph N.M', it is there.
- In a block that begins with ```model each line is 'QUESTION = ANSWER'; one that ends in a backslash goes on. A question is an
  expression of Python over the names in QUESTIONS, and the model in reference/ answers it anew.
- Whoever cites 'RULES N', 'RULES N.M' or several, as 'RULES 2.3 to 2.5, 3.2 and 17', cites what is there.
- A row of docs/TRACE.md has the first words of a sentence and its paragraphs. Under one heading no words are there twice.
"""
import re
import sys
from fractions import Fraction
from pathlib import Path

ROOT = Path(__file__).resolve().parent.parent
sys.path.insert(0, str(ROOT / 'reference'))
import captures
import checker
import degrees
import embedding
import integrity
import listings
import messages
import parity
import positions
import readings
import replay
import stamps
import table
import tracks
from refusals import Refused

SECTION = re.compile(r'^## (\d+)\. ', flags=re.M)
PARAGRAPH = re.compile(r'^\*\*(\d+)\.(\d+)\*\* ', flags=re.M)
NUMBERS = r'(\d+(?:\.\d+)?(?:(?:, | and | to )\d+(?:\.\d+)?)*)'
CITED = re.compile(r'\bRULES ' + NUMBERS)
MARK = re.compile(r'^\s*(?:--|//|#|\*|>) ', flags=re.M)
ROW = re.compile(r'\| (.+) \| (\d+\.\d+(?:, \d+\.\d+)*) \|')
TITLES = ('| First words | Paragraphs |', '|---|---|')
NAMED = re.compile(r'^> (?:Definition|Function|Theorem|Shown by): ', flags=re.M)
LETTERS = {letter: number for number, letter in captures.KINDS.items()}
TURNS = {'air': positions.AIRBORNE, 'surface': positions.SURFACE}
ZEROS = '00' * 14  # refused with 4, so that it only moves a clock


def spot(latitude, longitude):
    """A place in degrees, as texts, in 2^-32 of a turn."""
    return positions.nearest(Fraction(latitude) / positions.UNIT), positions.nearest(Fraction(longitude) % 360 / positions.UNIT)


def heard(places, calls, site=None):
    """A table of so many places after calls of a time and a message in hex, and the number that each call returned."""
    made, numbers = bytearray(table.length_of(places)), []
    table.set_up(made, site and spot(*site))
    for time, text in zip(calls[::2], calls[1::2]):
        try:
            table.receive(made, bytes.fromhex(text), time)
            numbers.append(0)
        except Refused as refusal:
            numbers.append(refusal.number)
    return made, numbers


def in_a_row(text):
    """The lines of a listing with ' / ' between them."""
    return ' / '.join(text.splitlines())


def in_lines(row):
    """The bytes of such a listing."""
    return ''.join(f'{line}\n' for line in row.split(' / ')).encode('ascii')


def listed(every, calls, site=None):
    """The listing of a table of 256 places, its lines with ' / ' between them."""
    return in_a_row(captures.listing_of(heard(captures.PLACES, calls, site)[0], 0, every))


def stamped(*given):
    """What each stamp of 14 zero bytes does: the clock after it, or the number that refuses it as a stamp."""
    made, state, said = bytearray(table.length_of(1)), stamps.Stamps(), []
    table.set_up(made)
    for stamp in given:
        answer, state = stamps.receive(made, state, bytes(14), stamp)
        number = answer.number if isinstance(answer, Refused) else 0
        said.append(f'refused {number}' if number in stamps.NOT_ACCEPTED else table.clock_of(made))
    return said


def doubles(latitude, longitude):
    """A place in degrees."""
    return [degrees.struct.unpack('>d', one.to_bytes(8, 'big'))[0] for one in degrees.to_degrees(latitude, longitude)]


def undone(*figures):
    """The place that two doubles are."""
    return degrees.from_degrees(*(int.from_bytes(degrees.struct.pack('>d', one), 'big') for one in figures))


def level(kind, version, type_code, a=0, b=0, c=0):
    """The integrity of a TYPE, after a status of subtype 1 with a version and supplements."""
    status = 31 << 51 | 1 << 48 | c << 36 | version << 13 | a << 12
    return integrity.integrity(LETTERS[kind], status, type_code, b)


def tracked(key, *calls):
    """The entries of a track in C, after calls of a table of 256 places."""
    return embedding.look_up(heard(captures.PLACES, calls)[0], key)


def checked(theirs, *calls):
    """What a check says of lines, ' / ' between them, against the capture of these calls."""
    whole = captures.capture([(time, bytes.fromhex(text)) for time, text in zip(calls[::2], calls[1::2])])
    return checker.check(whole, in_lines(theirs))


def replayed(kind, address, *calls):
    """The last time heard of a track that is worked out from a log, or 'not held'."""
    log = b''.join(captures.record(time, bytes.fromhex(text)) for time, text in zip(calls[::2], calls[1::2]))
    track = replay.replay(log, LETTERS[kind], address)
    return 'not held' if track is None else track.heard


QUESTIONS = {
    'zeros': ZEROS,
    'remainder': lambda text: f'{parity.remainder(bytes.fromhex(text)):06X}',
    'decode': lambda text: messages.decode(bytes.fromhex(text)) and 'taken',
    'field': lambda text, name: messages.decode(bytes.fromhex(text))[name],
    'again': lambda text: messages.encode(messages.decode(bytes.fromhex(text))).hex().upper(),
    'key': lambda text: captures.key_text(tracks.key_of(messages.decode(bytes.fromhex(text)))),
    'key_number': lambda kind, *rest: tracks.key_for(LETTERS[kind], *rest),
    'altitude': readings.altitude,
    'step': readings.step,
    'speed': readings.speed,
    'rate': readings.rate,
    'difference': readings.difference,
    'heading': readings.heading,
    'surface_heading': readings.surface_heading,
    'angle': readings.track_angle,
    'coarse_speed': readings.coarse_speed,
    'movement': readings.movement,
    'shown': lambda text: f"'{readings.text(messages.decode(bytes.fromhex(text))['characters'])}'",
    'row': lambda text: embedding.row(embedding.AT['FIELDS'], embedding.message_row(messages.decode(bytes.fromhex(text)))),
    'track': tracked,
    'latitudes': positions.FIGURES,
    'NL': lambda degree: positions.zone_count(Fraction(degree)),
    'counts': lambda turn, f, latitude, longitude, size=17: positions.encode(TURNS[turn], f, *spot(latitude, longitude), 2**size),
    'pair': lambda later, *four, size=17: positions.pair(later, *four, size=2**size),
    'single': lambda turn, f, a, b, at, size=17: positions.single(TURNS[turn], f, a, b, *spot(*at), size=2**size),
    'numbers': lambda places, *calls: heard(places, calls)[1],
    'table': lambda places, *calls: heard(places, calls)[0].hex().upper(),
    'listing': lambda *calls, site=None: listed(False, calls, site),
    'listing_all': lambda *calls, site=None: listed(True, calls, site),
    'stamps': stamped,
    'degrees': doubles,
    'from_degrees': undone,
    'integrity': level,
    'levels': lambda version, *bits: [level('I', version, one, *bits)[1] for one in integrity.TYPES],
    'check': checked,
    'merge': lambda *two: in_a_row(listings.merge(*map(in_lines, two)).decode('ascii')),
    'replay': replayed,
}


def told(question):
    """The answer in words."""
    try:
        given = eval(question, {'__builtins__': {}}, QUESTIONS)
    except Refused as refusal:
        return str(refusal)
    return ' '.join(map(str, given)) if isinstance(given, (tuple, list)) else str(given)


def examples(text):
    """What is wrong with the examples."""
    for block in re.findall(r'^```model\n(.*?)^```', text, flags=re.M | re.S):
        for line in block.replace('\\\n', '').splitlines():
            question, _, answer = line.rpartition(' = ')
            given = told(question)
            if given != answer:
                yield f'{question} is {given}, and not {answer}'


def numbers(text):
    """The numbers of the sections and of the paragraphs."""
    return {*SECTION.findall(text), *(f'{section}.{at}' for section, at in PARAGRAPH.findall(text))}


def numbering(text):
    """What is wrong with the numbers and the lines of names."""
    sections = [int(number) for number in SECTION.findall(text)]
    if sections != [*range(1, len(sections) + 1)]:
        yield 'the sections are not numbered without a gap'
    parts = SECTION.split(text)
    for section, part in zip(parts[1::2], parts[2::2]):
        found = PARAGRAPH.findall(part)
        if found != [(section, str(at)) for at in range(1, len(found) + 1)] or not found:
            yield f'the paragraphs of {section} are not numbered without a gap'
    for one in re.split(r'^(?=\*\*\d+\.\d+\*\* |## )', text, flags=re.M):
        if one.startswith('**') and not (NAMED.search(one) and one.rstrip().rsplit('\n', 1)[-1].startswith('> ')):
            yield f"{one.split('**')[1]} does not end in a line of names"
    there = numbers(text)
    for cited in re.findall(r'(?<!\w)(?:section|paragraphs?) (\d+(?:\.\d+)?(?:(?:, | and | to )\d+\.\d+)*)', ' '.join(text.split())):
        yield from (f'there is no section or paragraph {one}' for one in re.findall(r'\d+(?:\.\d+)?', cited) if one not in there)


def faults(path):
    """All that is wrong with the paper."""
    text = path.read_text()
    return [*numbering(text), *examples(text)]


def uncited(text, there):
    """The numbers that a text cites and that are not there; a comment may go on in its next line."""
    joined = ' '.join(MARK.sub('', text).split()) if 'RULES' in text else ''
    return [one for cited in CITED.findall(joined) for one in re.findall(r'\d+(?:\.\d+)?', cited) if one not in there]


def index_faults(text, there):
    """What is wrong with the rows of the index."""
    for part in re.split(r'^#+ ', text, flags=re.M):
        heading, rows = part.partition('\n')[0], [line for line in part.splitlines() if line.startswith('|') and line not in TITLES]
        for line in rows:
            row = ROW.fullmatch(line)
            yield from [f'{heading}: {line} is no row'] if row is None else \
                (f'{heading}: {row[1]}: there is no paragraph {one}' for one in row[2].split(', ') if one not in there)
        words = [line.split(' | ')[0] for line in rows]
        yield from (f'{heading}: {one} is there twice' for one in sorted({*words}) if words.count(one) > 1)
