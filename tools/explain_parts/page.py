"""The pages that are cited: the sections of docs/ERRORS.md, and the rows of docs/PORTING.md."""
import os
import re

ROOT = os.path.dirname(os.path.dirname(os.path.dirname(os.path.realpath(__file__))))
ROW = re.compile(r'^\| (?P<as_written>.*?) \| (?P<taken>.*?) \| `(?P<case>\w+)` \|$', re.M)
SPAN = re.compile(r'`([^`]*)`')


def text_of(name):
    """The text of a page, or nothing where it is not there."""
    try:
        with open(os.path.join(ROOT, 'docs', name), encoding='utf-8') as file:
            return file.read()
    except OSError:
        return ''


def section(head):
    """The part of docs/ERRORS.md below the heading that begins with these words."""
    for part in re.split(r'^## ', text_of('ERRORS.md'), flags=re.M):
        if part.startswith(head + ' '):
            return re.split(r'^# ', part, flags=re.M)[0].split('\n', 1)[1].strip()
    return ''


def prose(text, has_tables=False):
    """A section without its examples: the paragraphs, and the tables where they are wanted, in front of the first."""
    kept = re.split(r'^```|^Printed: |^Corrected', text, flags=re.M)[0].strip().split('\n\n')
    kept = [part for part in kept if has_tables or not part.startswith('|')]
    while len(kept) > 1 and (kept[-1].endswith(':') or 'base file' in kept[-1]):
        kept.pop()
    return '\n\n'.join(kept)


def rows():
    """The rows of docs/PORTING.md: what is written, what wgcc takes, and the case."""
    return [(match['as_written'].replace('\\|', '|'), match['taken'].replace('\\|', '|'), match['case'])
            for match in ROW.finditer(text_of('PORTING.md'))]


def row_of(case):
    """The row of a case as a sentence, or None where there is no such row."""
    for as_written, taken, name in rows():
        if name == case:
            return 'In place of %s: %s (docs/PORTING.md, `%s`).' % (as_written, taken, case)
    return None


def rows_that_name(word):
    """The rows whose left sides name this function, as sentences, or nothing."""
    return ' '.join(row_of(case) for as_written, _, case in rows()
                    if any(re.search(r'\b%s\b' % re.escape(word), span) for span in SPAN.findall(as_written)))
