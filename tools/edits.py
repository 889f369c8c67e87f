"""The edits that must fail: read, applied as `rt must-fail` does, and tried by it over what `rt check` keeps.

An edit lies in one of two folders of its crate. The gate, `rt ci`, tries those in must-fail/: each costs a check of its
crate. `./test --all` also tries those in more-edits/, which are put into must-fail/ of a copy.
"""
import os
import re
import shutil
import subprocess
import tempfile
from concurrent.futures import ThreadPoolExecutor
from pathlib import Path
from typing import NamedTuple

ROOT = Path(__file__).resolve().parent.parent
GATE, MORE = 'must-fail', 'more-edits'
FOLDERS = (GATE, MORE)
JOBS = int(os.environ.get('RT_JOBS') or min(4, os.cpu_count() or 1))


class Edit(NamedTuple):
    """An edit: its crate, its name, its folder, the texts that it changes in files of the crate, and why no program shows it."""

    crate: str
    name: str
    folder: str
    changes: list
    unseen: str

    @property
    def label(self):
        return f'{self.crate}/{self.name}'


class Unfit(Exception):
    """An edit does not fit its crate."""


# Reading and applying


def read_edit(path):
    """A 'file:' line holds for the pairs of 'old:' and 'new:' after it."""
    file, old, changes, unseen = '', '', [], ''
    for line in path.read_text(encoding='utf-8').splitlines():
        if line.startswith('# unseen: '):
            unseen = line.removeprefix('# unseen: ')
        elif line.startswith('file: '):
            file = line.removeprefix('file: ')
        elif line.startswith('old: '):
            old = line.removeprefix('old: ')
        elif line.startswith('new:'):
            changes.append((file, old, line.removeprefix('new:').removeprefix(' ')))
            old = ''
    return Edit(path.parts[-3], path.stem, path.parts[-2], changes, unseen)


def edits_of(crate, folders=FOLDERS):
    """The edits of a crate, by name; '*' is every crate."""
    paths = [path for folder in folders for path in ROOT.glob(f'crates/{crate}/{folder}/*.edit')]
    return sorted(map(read_edit, paths), key=lambda edit: edit.label)


def edited(edit, folder):
    """The files of the crate in a folder that the edit changes, with their new texts. Each old text must stand there once."""
    texts = {}
    if not edit.changes:
        raise Unfit("it has no 'old:' and 'new:' pair")
    for file, old, new in edit.changes:
        path = folder / file
        if file.partition('/')[0] not in ('src', 'specs', 'proofs') or '..' in path.parts or not path.is_file():
            raise Unfit(f'{file!r} is no file of the crate')
        text = texts.get(path) or path.read_text(encoding='utf-8')
        if not old or text.count(old) != 1:
            raise Unfit(f'{old!r} stands {text.count(old) if old else 0} times in {file}')
        texts[path] = text.replace(old, new)
    if all(path.read_text(encoding='utf-8') == text for path, text in texts.items()):
        raise Unfit('it changes nothing')
    return texts


def apply(edit, folder):
    """Applies an edit to the crate in a folder."""
    for path, text in edited(edit, folder).items():
        path.write_text(text, encoding='utf-8')


# Trying

SAID = re.compile(r'rt: must-fail (\S+)\.edit: (refused, as it must be|[A-Z ]+)')
PARTS = ('src', 'specs', 'proofs')


def start_of(said, most=20):
    """The first lines of what a command printed."""
    lines = said.splitlines()
    return '\n'.join([*lines[:most], *([f'.. and {len(lines) - most} lines more'] if len(lines) > most else [])])


def lines_of_crates(text):
    """What each crate needs, by the text of crates.txt: a line is a name, a word for a static library, a colon and what the crate names."""
    lines = [line.partition('#')[0] for line in text.splitlines()]
    return {name.split()[0]: rest.split() for name, colon, rest in (line.partition(':') for line in lines) if colon}


def linked(one, other):
    """A copy of what was proved, which is replaced by a check and never changed: a link, where there can be one."""
    try:
        if one.endswith('.oantt'):
            return os.link(one, other)
    except OSError:
        pass
    return shutil.copy2(one, other)


def copied(crates, folders, room):
    """A repository of some crates and those that they need, with what was proved of them; of the edits, those of these crates in some folders."""
    listed = lines_of_crates((ROOT / 'crates.txt').read_text(encoding='utf-8'))
    needed = [*crates]
    for crate in needed:
        needed += [one for one in listed[crate] if one in listed and one not in needed]
    kept = [line for line in (ROOT / 'crates.txt').read_text(encoding='utf-8').splitlines() if lines_of_crates(line).keys() & {*needed}]
    (room / 'crates.txt').write_text('\n'.join(kept) + '\n', encoding='utf-8')
    if (ROOT / 'HANDLES').exists():
        shutil.copy(ROOT / 'HANDLES', room)
    for crate in needed:
        here, there = ROOT / 'crates' / crate, room / 'crates' / crate
        for part in PARTS:
            if (here / part).is_dir():
                shutil.copytree(here / part, there / part)
        if (here / 'out').is_dir():
            shutil.copytree(here / 'out', there / 'out', symlinks=True, copy_function=linked)
    for edit in (edit for crate in crates for edit in edits_of(crate, folders)):
        place = room / 'crates' / edit.crate / GATE / f'{edit.name}.edit'
        place.parent.mkdir(exist_ok=True)
        shutil.copy(ROOT / 'crates' / edit.crate / edit.folder / place.name, place)


def checked(folder):
    """The status of `rt check` in a crate's folder, and what it said."""
    kept = {'stdin': subprocess.DEVNULL, 'stdout': subprocess.PIPE, 'stderr': subprocess.STDOUT}
    done = subprocess.run(['rt', 'check'], cwd=folder, text=True, errors='replace', check=False, **kept)
    return done.returncode, done.stdout


def refused(room, crates, say):
    """The labels of the edits that `rt must-fail` says the prover refuses; it says more of each."""
    kept = {'stdin': subprocess.DEVNULL, 'stdout': subprocess.PIPE, 'stderr': subprocess.STDOUT}
    found = set()
    with subprocess.Popen(['rt', 'must-fail', *crates], cwd=room, text=True, errors='replace', **kept) as running:
        for line in running.stdout:
            say(line.rstrip())
            said = SAID.match(line)
            if said and said[2].startswith('refused'):
                found.add(said[1])
    return found


def try_edits(crates, folders, say):
    """Tries the edits of crates; the labels of those that fail. A copy without an edit must be proved first: else a refusal would show nothing."""
    chosen = [crate for crate in crates if edits_of(crate, folders)]
    if not chosen:
        return []
    with tempfile.TemporaryDirectory() as name:
        room = Path(name)
        copied(chosen, folders, room)
        with ThreadPoolExecutor(JOBS) as pool:
            checks = dict(zip(chosen, pool.map(lambda crate: checked(room / 'crates' / crate), chosen)))
        failed = [crate for crate, (status, _) in checks.items() if status != 0]
        for crate in failed:
            say(f'{crate}: not proved without an edit:\n{start_of(checks[crate][1])}')
        proved = [crate for crate in chosen if crate not in failed]
        found = refused(room, proved, say) if proved else set()
    return [*(f'rt check of {crate}' for crate in failed), *(edit.label for crate in proved for edit in edits_of(crate, folders) if edit.label not in found)]
