#!/usr/bin/env python3
"""Compares `rdfconv convert` with the independent reader beside this file, over documents written by hand and at random.

    compare/independent/compare.py                                     # 1,000 random documents of each format, half a minute in all
    compare/independent/compare.py --documents 20000 --seed 2          # more of them, and others
    compare/independent/compare.py --all-characters                    # each character of Unicode in names, labels, IRIs, strings: hours
    compare/independent/compare.py --program ~/.local/bin/rdfconv      # another program

Status, output and message have to be the same, byte for byte. What the program writes is read back as N-Quads too, many outputs at
a time, and has to come out as it is. Prints a line for each kind of document, and for each difference the file with the document, in a
folder that is kept. Ends with status 1 where any differ. `rt ci` or `rt run` in crates/rdf_tool builds the program.
"""
import argparse
import os
import random
import shutil
import subprocess
import sys
import tempfile

from cases import REFERENCE_BASE, REFERENCES, cases
from documents import BASE_ENDS, OTHER_ENDS, REFERENCES as ODD_REFERENCES, STRANGE, make
from reader import read

TOP = os.path.dirname(os.path.dirname(os.path.dirname(os.path.abspath(__file__))))
PROGRAM = os.environ.get('RDFCONV', os.path.join(TOP, 'crates', 'rdf_tool', 'out', 'rdf_tool'))
NAMES = {'nt': 'N-Triples', 'nq': 'N-Quads', 'ttl': 'Turtle', 'trig': 'TriG'}
MOST_SHOWN = 10

SEGMENTS = ['', *'. .. a ... .a a. b;c x:y %2e é ..b : @'.split()]
BASES = [REFERENCE_BASE, *'''http://a http://a?q http://a#f http://a// http://a/.. http://a/b/../ http://a/b?c/d http://a/b#c/d file:///a/b a: a:b a:/
    a:// a:/// a:b/c/../d a:./b a:.. a:b?q/r x:/..//b x:/.//b/c mailto:u@h urn:x:y'''.split()]

# Where a character stands, and what each document begins with. In the first places much of Unicode may stand, in the others some of ASCII.
HEADS = {'ttl': 'PREFIX : <e:> ', 'trig': 'PREFIX : <e:> ', 'nt': ''}
WIDE_PLACES = [
    *(('ttl', it) for it in (':s a :%s .', ':s a :a%sb .', ':s a :a%s .', 'PREFIX %s: <x:>', 'PREFIX a%sb: <x:>', 'PREFIX a%s: <x:>', '#%s\n')),
    *(('ttl', ':s a %s .' % it) for it in ('_:%s', '_:a%sb', '_:a%s', '<x:%s>', '"%s"', "'%s'", '"""a%sb"""', "'''a%sb'''")),
    *(('nt', '<e:s> <e:p> %s .' % it) for it in ('_:%s', '_:a%sb', '_:a%s', '<e:%s>', '"%s"')), ('nt', '#%s\n')]
NARROW_PLACES = [
    *(('ttl', ':s a %s .' % it) for it in ('<x%sy:>', '<%sx:>', '"\\%s"', '"\\u004%s"', ':\\%s', ':%a%s', '""@a%s', '""@a-%s', '1%s', '1.%s', '1e%s')),
    ('ttl', ':s a%s:o .'), ('ttl', ':s a :o .%s'), ('ttl', '@base%s<x:> .'), ('trig', 'GRAPH%s:g {}'), ('trig', ':g%s{}'),
    *(('nt', '<e:s> <e:p> %s .' % it) for it in ('<x%sy:>', '<%sx:>', '"\\%s"', '<e:\\U0000004%s>', '""@%s')),
    ('nt', '<e:s>%s<e:p> "" .'), ('nt', '<e:s> <e:p> "" .%s\n')]
ASCII_MARKS = [chr(it) for it in range(128) if not chr(it).isalnum() and not 1 < it < 8] + [*'019AFGZafgz\x80\xA0\u2028\uFEFF\U0010FFFF']


class Comparison:
    """What was compared, and how much of it differs."""

    def __init__(self, program):
        self.program = program
        self.differ = self.shown = 0
        self.folder = None
        self.start('')

    def start(self, kind):
        self.kind, self.count, self.accepted, self.differs, self.written = kind, 0, 0, 0, []

    def run(self, document, form, base):
        words = [self.program, 'convert', '--format', form] + (['--base', base] if base else [])
        done = subprocess.run(words, input=document, stdout=subprocess.PIPE, stderr=subprocess.PIPE)
        return done.returncode, done.stdout, done.stderr.decode('utf-8', 'replace')

    def compare(self, document, form, base=None, expected=None, group=''):
        """Holds the program to the reader, and both to what is expected: the lines and None, or None and the refusal's reason and byte. A
        difference names the group, if there is one."""
        outcome = read(document, form, base)
        due = (1, outcome.lines, 'rdfconv: %s at byte %d, line %d\n' % outcome.refusal) if outcome.refusal else (0, outcome.lines, '')
        found = self.run(document, form, base)
        self.count += 1
        self.accepted += outcome.refusal is None
        if found != due:
            self.report(document, form, base, group, 'the program', found, 'the reader', due)
        elif expected and expected != ((None, outcome.refusal[:2]) if outcome.refusal else (outcome.lines, None)):
            self.report(document, form, base, group, 'both', found, 'the table', expected)
        elif found[1]:
            self.written.append(found[1])

    def report(self, document, form, base, group, *said):
        self.differs += 1
        self.shown += 1
        if self.shown > MOST_SHOWN:
            return
        self.folder = self.folder or tempfile.mkdtemp(prefix='independent-')
        path = os.path.join(self.folder, '%d.%s' % (self.shown, form))
        with open(path, 'wb') as file:
            file.write(document)
        print('differs: %s%s%s' % (path, ' --base ' + base if base else '', ', of %s' % group if group else ''))
        one, other = repr(said[1]), repr(said[3])
        same = len(os.path.commonprefix([one, other]))
        for who, what in ((said[0], one), (said[2], other)):
            print('  %s: %s%s' % (who, '..' if same > 300 else '', what[max(0, same - 200) if same > 300 else 0:][:500]))

    def read_back(self):
        """Reads what was written as N-Quads, many outputs at a time."""
        for first in range(0, len(self.written), 100):
            lines = b''.join(self.written[first:first + 100])
            found = self.run(lines, 'nq', None)
            if found != (0, lines, ''):
                self.report(lines, 'nq', None, '', 'the program', found, 'as written', (0, lines, ''))

    def end(self):
        self.read_back()
        self.differ += self.differs
        print('%s %s, %s of them accepted, %d differ' % (format(self.count, ','), self.kind, format(self.accepted, ','), self.differs), flush=True)


def compare_cases(comparison):
    for it in cases():
        comparison.compare(it.document, it.form, expected=(it.lines, it.refusal), group=it.group)


def compare_references(comparison):
    """The references of the RFC, against the base from the command line and from directives."""
    for reference, iri in REFERENCES:
        for directive in ('', '@base <%s> . ', 'BASE <x:/y> BASE <%s> '):
            document = directive.replace('%s', REFERENCE_BASE) + '<e:s> <e:p> <%s> .' % reference
            comparison.compare(document.encode(), 'ttl', None if directive else REFERENCE_BASE, (('<e:s> <e:p> <%s> .\n' % iri).encode(), None))


def random_reference(chosen):
    path = '/'.join(chosen.choice(SEGMENTS) for _ in range(chosen.randint(0, 5)))
    start = chosen.choice(['', '', '', '/', '//h', '//h/', '//u@h:1/', '//'])
    end = chosen.choice(['', '', '', '?', '?q', '?a/../b']) + chosen.choice(['', '', '', '#', '#f', '#a/../b'])
    return start + path + end if chosen.random() < .9 else chosen.choice(ODD_REFERENCES)


def compare_random_references(comparison, seed):
    """Documents of 300 references against a base, or of bases that are references to the bases before them."""
    chosen = random.Random('references %s' % seed)
    bases = BASES + [chosen.choice(['http://h/', 's:', 's:/']) + '/'.join(chosen.choice(SEGMENTS) for _ in range(chosen.randint(0, 6)))
                     + chosen.choice(['', '', '?q', '#f', '?a/b#c']) for _ in range(20)]
    for base in bases:
        references = [random_reference(chosen) for _ in range(300)]
        for chain in ('', 'BASE <%s> '):
            statements = ['<e:s> <e:p> <%s> . %s\n' % (it, (chain % it if at % 6 else 'BASE <%s>' % base) if chain else '') for at,
            it in enumerate(references)]
            comparison.compare(('@base <%s> .\n' % base + ''.join(statements)).encode(), 'ttl')


def compare_borders(comparison):
    """Characters at the borders of the classes, and marks of ASCII, each in a document of its own for each place."""
    for places, characters in ((WIDE_PLACES, [*BASE_ENDS, *OTHER_ENDS, *STRANGE, *ASCII_MARKS]), (NARROW_PLACES, ASCII_MARKS)):
        for form, place in places:
            for character in sorted(set(characters)):
                comparison.compare((HEADS[form] + place.replace('%s', character)).encode(), form)


def compare_all_characters(comparison):
    """In each wide place those characters that the reader takes there, ten thousand a document, and every ten thousandth of the others."""
    for form, place in WIDE_PLACES:
        taken, others = [], []
        for character in map(chr, [*range(0xD800), *range(0xE000, 0x110000)]):
            statement = place.replace('%s', character) + '\n'
            (others if read((HEADS[form] + statement).encode(), form).refusal else taken).append(statement)
        statements = [''.join(taken[first:first + 10000]) for first in range(0, len(taken), 10000)]
        for text in statements + others[::10000]:
            comparison.compare((HEADS[form] + text).encode(), form)


def compare_random(comparison, form, asked):
    for number in range(asked.documents):
        document, base = make('%d %d' % (asked.seed, number), form)
        comparison.compare(document, form, base if form in ('ttl', 'trig') else None)


def main():
    parser = argparse.ArgumentParser(description=__doc__, formatter_class=argparse.RawDescriptionHelpFormatter)
    parser.add_argument('--program', metavar='P', default=PROGRAM)
    parser.add_argument('--documents', type=int, metavar='N', default=1000, help='how many random documents of each format')
    parser.add_argument('--seed', type=int, metavar='N', default=1, help='of the random documents and references')
    parser.add_argument('--all-characters', action='store_true')
    asked = parser.parse_args()
    if not shutil.which(asked.program):
        parser.error('no program: ' + asked.program)
    comparison = Comparison(asked.program)
    kinds = [
        ('documents written by hand', compare_cases),
        ('references of RFC 3986, 5.4, each by --base, @base and BASE', compare_references),
        ('documents of 300 random references', lambda it: compare_random_references(it, asked.seed)),
        ('documents with characters at the borders of classes', compare_borders),
    ] + [('documents of ' + NAMES[form], lambda it, form=form: compare_random(it, form, asked)) for form in NAMES]
    if asked.all_characters:
        kinds.append(('documents with all characters', compare_all_characters))
    for kind, run in kinds:
        comparison.start(kind)
        run(comparison)
        comparison.end()
    return 1 if comparison.differ else 0


if __name__ == '__main__':
    sys.exit(main())
