"""The page for a first look: one file with its style, its script, the module of WebAssembly and a sample inside it.

The scripts are joined as one module: the names at their tops are all different, so that `import` and `export` can go. The page's policy
lets just this style and this script run, by their hashes, and WebAssembly; it lets nothing be loaded or sent.
"""
import hashlib
import re
import sys
from base64 import b64encode

import write_js
from header import ROOT

FOLDER = ROOT / 'bindings/page'
PATH = FOLDER / 'addercoil.html'
MODULE = ROOT / 'dist/addercoil.wasm'
SAMPLE = ROOT / 'samples/airport.capture'
IMPORT = re.compile(r'^import \{[^}]*\} from "[^"]*";\n', flags=re.M)
ENDS = re.compile(r'</(?:script|style)|<!--', flags=re.I)  # what ends a script or style early, or hides its end
EXPORT = re.compile(r'^export (?=async|class|const|function)', flags=re.M)


def inside(path):
    """The bytes of a file as text."""
    return b64encode(path.read_bytes()).decode('ascii')


def script(header):
    """All of it as one module."""
    held = f'const SAMPLE_NAME = "{SAMPLE.name}", SAMPLE = "{inside(SAMPLE)}";\nconst MODULE = "{inside(MODULE)}";\n'
    paths = write_js.FOLDER / 'addercoil.js', FOLDER / 'reading.js', FOLDER / 'page.js'
    texts = [write_js.write(header), *(path.read_text(encoding='ascii') for path in paths)]
    return f'\n{held}' + ''.join(EXPORT.sub('', IMPORT.sub('', text)) for text in texts)


def source(text):
    """What the policy allows, by the hash of its text. A text that the page cannot have inside it is a fault."""
    if ENDS.search(text):
        sys.exit(f'tools/write_page.py: a script or style of the page has {ENDS.search(text)[0]} in it')
    return f"'sha256-{b64encode(hashlib.sha256(text.encode('ascii')).digest()).decode('ascii')}'"


def write(header):
    """The text of PATH."""
    style, scripts = f"\n{(FOLDER / 'page.css').read_text(encoding='ascii')}", script(header)
    allowed = f"style-src {source(style)}; script-src {source(scripts)} 'wasm-unsafe-eval'"
    policy = f"default-src 'none'; base-uri 'none'; form-action 'none'; {allowed}"
    made = (FOLDER / 'page.html').read_text(encoding='ascii')
    for name, text in {'POLICY': policy, 'STYLE': style, 'SCRIPT': scripts}.items():
        before, after = made.split(f'@{name}@')
        made = before + text + after
    return made
