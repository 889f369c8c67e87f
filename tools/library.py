"""The crates of the archive for C, for the scripts that go by them: libraries, whose functions the theorems are about, and over each a static library, which
exports those for C and is an object of its own in the archive, since the compiler puts a function that has one caller in an object in that caller's place
(docs/DECISIONS.md, 147). And the functions that a library hands out."""
import re
from pathlib import Path

ROOT = Path(__file__).resolve().parent.parent
LIBRARY = ['addercoil', 'display', 'audit', 'arbiter', 'dealer']


def exporting(crate):
    """The static library over a library."""
    return f'{crate}_c'


def public(crate):
    """The functions that a library hands out: those of lib.rt, what it passes on of its parts, and what C may call."""
    code = {path.stem: re.sub(r'//.*', '', path.read_text(encoding='utf-8')) for path in (ROOT / 'crates' / crate / 'src').glob('*.rt')}
    own = re.findall(r'^pub fn (\w+)', code['lib'], flags=re.M)
    handed = re.findall(r'^pub use (\w+)::(?:(\w+)|\{([\w\s,]*)\});', code['lib'], flags=re.M)
    passed = [name for part, *which in handed for name in re.findall(r'\w+', ' '.join(which)) if f'pub fn {name}' in code.get(part, '')]
    called = re.findall(r'^pub fn (addercoil_\w+)', '\n'.join(text for part, text in code.items() if part != 'lib'), flags=re.M)
    return [*own, *passed, *called]
