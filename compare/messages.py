#!/usr/bin/env python3
"""Thirty broken documents, and what this program, serdi and rapper (Debian's serdi and raptor2-utils) say of each.

    compare/messages.py            prints the rows of the table of docs/REFUSALS.md, "Beside serdi and rapper"
    compare/messages.py --check    compares them with the page; the last line counts, and the status is 1 where something differs

The program is ./rdfconv at the top, or what the variable RDFCONV names. Where another reader is missing nothing is compared."""
import os
import re
import shutil
import subprocess
import sys
import tempfile

TOP = os.path.dirname(os.path.dirname(os.path.abspath(__file__)))
PROGRAM = os.environ.get('RDFCONV', os.path.join(TOP, 'rdfconv'))
PAGE = os.path.join(TOP, 'docs', 'REFUSALS.md')
HEADING = '## Beside serdi and rapper'
LONG = {'nt': 'ntriples', 'nq': 'nquads', 'ttl': 'turtle', 'trig': 'trig'}
X = '@prefix x: <http://a/> .\n'
# What is wrong, the format, the document.
DOCUMENTS = [
    ('no dot at the end of a line', 'nt', '<a:s> <a:p> <a:o>\n<a:s> <a:p> <a:o> .\n'),
    ('a space in an IRI', 'nt', '<a:s> <a:p> <a:o b> .\n'),
    ('a relative IRI', 'nt', '<a:s> <p> <a:o> .\n'),
    ('a string that is not closed', 'nt', '<a:s> <a:p> "x .\n'),
    ('an escape that is none', 'nt', '<a:s> <a:p> "\\q" .\n'),
    ('a surrogate as an escape', 'nt', '<a:s> <a:p> "\\uD83D" .\n'),
    ('a literal as subject', 'nt', '"x" <a:p> <a:o> .\n'),
    ('a node as predicate', 'nt', '<a:s> _:p <a:o> .\n'),
    ('a graph in N-Triples', 'nt', '<a:s> <a:p> <a:o> <a:g> .\n'),
    ('two statements on one line', 'nt', '<a:s> <a:p> <a:o> . <a:s> <a:p> <a:o> .\n'),
    ('Turtle given as N-Triples', 'nt', X + 'x:s x:p 1 .\n'),
    ('a `_` in a language tag', 'nt', '<a:s> <a:p> "x"@en_US .\n'),
    ('Latin-1', 'nt', '<a:s> <a:p> "caf\\351" .\n'),
    ('a fifth term', 'nq', '<a:s> <a:p> <a:o> <a:g> <a:h> .\n'),
    ('no dot before the next statement', 'ttl', X + 'x:s x:p x:o\nx:s x:p x:o .\n'),
    ('no `;` between two verbs', 'ttl', X + 'x:s x:p x:o x:q x:r .\n'),
    ('an unbound prefix', 'ttl', 'y:s y:p y:o .\n'),
    ('no base', 'ttl', '<s> <p> <o> .\n'),
    ('a `]` that is missing', 'ttl', X + 'x:s x:p [ x:q 1 .\n'),
    ('a `)` that is missing', 'ttl', X + 'x:s x:p ( 1 2 .\n'),
    ('a `]` too many', 'ttl', X + 'x:s x:p x:o ] .\n'),
    ('a string as verb', 'ttl', X + 'x:s "p" x:o .\n'),
    ('a datatype that is missing', 'ttl', X + 'x:s x:p "1"^^ .\n'),
    ('a `/` in a local part', 'ttl', X + 'x:s x:p x:a/b .\n'),
    ('`@prefix` without its dot', 'ttl', '@prefix x: <http://a/>\nx:s x:p x:o .\n'),
    ('`@prefix` without its colon', 'ttl', '@prefix x <http://a/> .\n'),
    ('a document that ends early', 'ttl', X + 'x:s x:p'),
    ('a graph given as Turtle', 'ttl', X + 'x:g { x:s x:p x:o . }\n'),
    ('a `}` that is missing', 'trig', X + 'x:g { x:s x:p x:o .\n'),
    ('a directive within a graph', 'trig', X + 'x:g { @prefix y: <http://b/> . }\n'),
]


def said(words, path):
    """The first line that a reader says of a file, without what stands in front of every one of its messages; or what its silence means."""
    ran = subprocess.run(words, stdout=subprocess.DEVNULL, stderr=subprocess.PIPE, text=True, errors='replace')
    lines = [line for line in ran.stderr.splitlines() if line.strip() and not line.startswith('rdfconv: ')]
    if not lines:
        return 'nothing, status %d' % ran.returncode
    line = lines[0].replace('file://' + path, 'D').replace(path, 'D')
    # rapper shows bytes of memory that it has given back.
    line = re.sub(r'(Illegal string escape \\. in ).*', r'\1..', line)
    return re.sub(r'^(?:serdi|rapper): |^error: |^Error - ', '', re.sub(r'^rapper: Error - (?:URI D:)?', 'D:', line))


def row(what, form, text):
    with tempfile.TemporaryDirectory() as room:
        path = os.path.join(room, 'd.' + form)
        with open(path, 'wb') as file:
            file.write(text.encode('ascii').replace(b'\\351', b'\xe9'))
        answers = [
            said([PROGRAM, 'check', '--format', form, '--explain', path], path),
            said(['serdi', '-i', LONG[form], path], path),
            said(['rapper', '-q', '-i', LONG[form], path], path),
        ]
    cells = [what + ', ' + form] + [answer.replace('|', '\\|') for answer in answers]
    return '| ' + ' | '.join(cells) + ' |'


def main():
    if not (shutil.which('serdi') and shutil.which('rapper')):
        sys.exit('messages: serdi and rapper are not both here')
    rows = [row(*document) for document in DOCUMENTS]
    if '--check' not in sys.argv[1:]:
        print('\n'.join(rows))
        return 0
    with open(PAGE, encoding='utf-8') as page:
        after = page.read().partition(HEADING)[2].partition('\n## ')[0]
    differ = [line for line in rows if line not in after]
    for line in differ:
        print('differs: ' + line)
    print(f'{len(rows)} documents: {len(differ)} differ')
    return len(differ) != 0


if __name__ == '__main__':
    if '--help' in sys.argv[1:]:
        print(__doc__.strip())
        sys.exit()
    sys.exit(main())
