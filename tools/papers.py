"""The commands that a paper shows, taken from its text and run as a user types them, for tools/try-readme and tools/try-guide."""
import re
import subprocess
import sys
from pathlib import Path

ROOT = Path(__file__).resolve().parent.parent
COMMAND = re.compile(r'(\./|~/|tools/|gcc |rt |python3 |export |DESTDIR=|nc |mkdir |node |cargo |redis-server |\(redis-server )')
PROGRESS = re.compile(r'^(proving |crate \d+ of |the last crate).*\n', flags=re.M)


def blocks(section):
    """The blocks of a section that are set in by four spaces, each a list of lines."""
    found, last = [], ''
    for line in section.splitlines():
        if line.startswith('    '):
            if not last.startswith('    '):
                found.append([])
            found[-1].append(line[4:])
        last = line
    return found


def ran(commands, folder=ROOT, **environment):
    """What commands of one shell print: on standard error, but for the progress of proofs, then on standard output."""
    print(f'$ {commands}', flush=True)
    command = ['bash', '-e', '-o', 'pipefail', '-c', commands]
    done = subprocess.run(command, cwd=folder, stdin=subprocess.DEVNULL, capture_output=True, text=True, check=False, **environment)
    if done.returncode != 0:
        sys.exit(f'{done.stdout}{done.stderr}{sys.argv[0]}: that ended with status {done.returncode}')
    return PROGRESS.sub('', done.stderr) + done.stdout


def compare(paper, shown, printed):
    """Ends where something else was printed than the paper shows; '..' ends one of which the beginning is shown."""
    lines = printed.splitlines()
    if shown[-1] == '..':
        shown = shown[:-1]
        lines = lines[:len(shown)]
    if lines != shown:
        sys.exit('\n'.join([f'{sys.argv[0]}: {paper} shows', *shown, 'and here comes', *lines]))
