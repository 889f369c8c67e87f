"""What a paper cites as `NAME` in FILE of CRATE, for tools/check-docs and tools/believed."""
import re

TICKED = re.compile(r'`([^`]+)`')
NAMES = r'((?:`[^`]+`(?:,? and |, )?)+)'
CITED = re.compile(NAMES + r' in ([A-Z]\w*)(?: of ([a-z_]+))?\b')


def prose(text):
    """The paragraphs of a paper, each in one line, without its blocks of code, and the heading that each stands under."""
    heading = ''
    for block in re.split(r'\n\s*\n', re.sub(r'```.*?```', '', text, flags=re.S)):
        lines = [line.removeprefix('> ') for line in block.split('\n')] if not block.startswith('    ') else []
        for line in lines:
            heading = line.lstrip('# ') if line.startswith('#') else heading
        yield heading, re.sub(r'\]\([^)]*\)', ']', ' '.join(' '.join(lines).split()))


def citations(heading, text):
    """The names, the file and the crates that it may be of: the one that is named, else those of the heading."""
    for cited, file, crate in CITED.findall(text):
        yield TICKED.findall(cited), file, [crate] if crate else re.findall(r'\w+', heading)
