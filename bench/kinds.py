#!/usr/bin/env python3
"""What one more object of each kind takes, in instructions by callgrind, and in multiples of a plain name of as many bytes.

    bench/kinds.py                           # the built program
    bench/kinds.py PROGRAM WORD ..           # another one, which reads Turtle from its input, or from a word FILE

By the difference of two documents, of which one has 2,000 objects more in its list, each behind a comma. The shortest plain name has five bytes.
"""
import functools
import os
import sys
import tempfile

from runs import instructions

TOP = os.path.dirname(os.path.dirname(os.path.abspath(__file__)))
PROGRAM = os.path.join(TOP, 'crates', 'rdf_tool', 'out', 'rdf_tool')
FRONT = '''@prefix lib: <http://example.org/library/> .
@prefix : <http://example.org/empty/> .
@prefix xsd: <http://www.w3.org/2001/XMLSchema#> .
lib:s lib:p lib:o'''
MORE = 2000
SHORTEST = len('lib:x')
KINDS = ('<http://example.net/w>', ':x', ':', 'lib:x', ':x.jpg', 'lib:x.jpg', 'lib:a%20b', 'lib:a\\,b', 'lib:été', '_:x', '[]', '1', '-5', '0.5', '1.5e3',
         '-1.5e3', 'true', '"abc"', '"été"', '""', "'abc'", '"""abc"""', '"abc"@en', '"abc"@en-GB', '"abc"@en-GB-x', '"abc"^^xsd:date', '"a\\"b"',
         '"""a \n b "c" d"""')


def taken(words, objects):
    """The instructions of a run over a list of objects."""
    with tempfile.NamedTemporaryFile(suffix='.ttl') as f:
        f.write((FRONT + ''.join(', ' + it for it in objects) + ' .\n').encode())
        f.flush()
        f.seek(0)
        status, count = instructions([f.name if it == 'FILE' else it for it in words], f)
    if status or not count:
        sys.exit('%s: status %s' % (' '.join(words), status))
    return count * 1e6


def one_more(words, item):
    return (taken(words, [item] * 2 * MORE) - taken(words, [item] * MORE)) / MORE


def main():
    words = sys.argv[1:] or [PROGRAM, 'convert', '--format', 'ttl']
    name = functools.lru_cache(None)(lambda size: one_more(words, 'lib:' + 'x' * (size - 4)))
    for item in KINDS:
        count = one_more(words, item)
        print('%6.0f  %4.2f  %s' % (count, count / name(max(SHORTEST, len(item.encode()))), item.replace('\n', '⏎')), flush=True)


if __name__ == '__main__':
    if '--help' in sys.argv[1:]:
        print(__doc__.strip())
        sys.exit()
    main()
