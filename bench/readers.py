#!/usr/bin/env python3
"""Times `rdfconv` beside other readers of the same documents: serdi and rapper (Debian: serdi, raptor2-utils) where they are
installed, a copy that only checks UTF-8 (crates/utf8_copy), and `cat`. All write N-Quads.

    bench/readers.py                                  # 20 MB of each document, best of five runs in turn
    bench/readers.py nt ttl --megabytes 2 --runs 1    # a quick run
    bench/readers.py nt --by 100                      # through a pipe, written by so many bytes
    bench/readers.py --instructions --megabytes 2     # millions of instructions by callgrind in place of times, the same on a busy machine
    bench/readers.py --json figures.json              # and the figures as JSON, for bench/draw.py

The runs of one document are interleaved: each reader once, then each again. Prints MB/s of the input by processor time, and how
many times as fast `convert` is as each other reader. A reader that ends with another status than 0 has no figure. `rt run` in
crates/utf8_copy builds the copy.
"""
import argparse
import json
import os
import shutil
import subprocess
import sys
import tempfile

import documents
import runs

TOP = os.path.dirname(os.path.dirname(os.path.abspath(__file__)))
PROGRAM = os.path.join(TOP, 'crates', 'rdf_tool', 'out', 'rdf_tool')
COPY = os.path.join(TOP, 'crates', 'utf8_copy', 'out', 'utf8_copy')
LONG = {'nt': 'ntriples', 'nq': 'nquads', 'ttl': 'turtle', 'trig': 'trig'}
KINDS = ['catalogue', 'vocabulary', 'nt', 'plain', 'escaped', 'tabs', 'wide', 'crlf', 'short', 'long', 'nq', 'ttl', 'indented', 'trig', 'names', 'objects', 'collection', 'labels', 'small',
         'blanks', 'comments', 'nested', 'prefixes', 'references', 'literal']


def readers(document):
    """The command line of each reader that is there."""
    found = {
        'convert': [PROGRAM, 'convert', '--format', document.format] + document.options,
        'check': [PROGRAM, 'check', '--format', document.format] + document.options,
        'serdi': ['serdi', '-q', '-i', LONG[document.format], '-o', 'nquads', '-'],
        'rapper': ['rapper', '-q', '-i', LONG[document.format], '-o', 'nquads', '-', 'http://example.org/'],
        'UTF-8 copy': [COPY],
        'cat': ['cat'],
    }
    return {name: words for name, words in found.items() if shutil.which(words[0])}


def seconds(words, path, by):
    """Seconds of processor time of a run over the file, or through a pipe that is written by so many bytes; None where it fails."""
    if by:
        with subprocess.Popen(['dd', 'if=' + path, 'bs=%d' % by, 'status=none'], stdout=subprocess.PIPE) as feed:
            status, user, system = runs.processor_seconds(words, feed.stdout)
    else:
        with open(path, 'rb') as f:
            status, user, system = runs.processor_seconds(words, f)
    return None if status else user + system


def instructions(words, path):
    """Millions of instructions of a run over the file; None where it fails."""
    with open(path, 'rb') as f:
        status, count = runs.instructions(words, f)
    return None if status else count


def measure(kind, asked, path):
    """The bytes of the document, and the best of each reader's runs."""
    documents.write(kind, asked.megabytes, path)
    commands = readers(documents.DOCUMENTS[kind])
    if asked.instructions:
        rounds = [{name: instructions(words, path) for name, words in commands.items() if name != 'cat'}]
    else:
        rounds = [{name: seconds(words, path, asked.by) for name, words in commands.items()} for _ in range(asked.runs)]
    best = {name: min(r[name] for r in rounds) for name in commands if all(r.get(name) for r in rounds)}
    if 'convert' not in best or 'check' not in best:
        sys.exit('%s is refused' % kind)
    return os.path.getsize(path), best


def cell(name, size, best, is_count):
    if name not in best:
        return '-'
    rate = '%.1f' % best[name] if is_count else format(round(size / best[name] / 1e6), ',')
    return rate if name in ('convert', 'check') else '%s (%.1f)' % (rate, best[name] / best['convert'])


def main():
    parser = argparse.ArgumentParser(description=__doc__, formatter_class=argparse.RawDescriptionHelpFormatter)
    parser.add_argument('documents', nargs='*', metavar='DOCUMENT', help=', '.join(documents.DOCUMENTS))
    parser.add_argument('--megabytes', type=int, metavar='N', default=20)
    parser.add_argument('--runs', type=int, metavar='N', default=5)
    parser.add_argument('--by', type=int, metavar='BYTES', default=0, help='read through a pipe that is written by so many bytes')
    parser.add_argument('--instructions', action='store_true', help='count instructions, and measure no time')
    parser.add_argument('--json', metavar='FILE', help='write the figures there too')
    asked = parser.parse_args()
    unknown = set(asked.documents) - set(documents.DOCUMENTS)
    if unknown:
        parser.error('no document: ' + ', '.join(unknown))
    columns = list(readers(documents.DOCUMENTS['nt']))
    print('| Document, %s | %s |' % ('millions of instructions' if asked.instructions else 'MB/s', ' | '.join(columns)))
    print('|---' * (len(columns) + 1) + '|')
    measured = {}
    with tempfile.TemporaryDirectory() as folder:
        path = os.path.join(folder, 'document')
        for kind in asked.documents or KINDS:
            size, best = measure(kind, asked, path)
            measured[documents.DOCUMENTS[kind].name] = {'bytes': size, 'instructions' if asked.instructions else 'seconds': best}
            print('| %s | %s |' % (documents.DOCUMENTS[kind].name, ' | '.join(cell(c, size, best, asked.instructions) for c in columns)), flush=True)
    if asked.json:
        with open(asked.json, 'w') as f:
            json.dump(measured, f, indent=1)
            f.write('\n')


if __name__ == '__main__':
    main()
