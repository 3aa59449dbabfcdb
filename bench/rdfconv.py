#!/usr/bin/env python3
"""Runs `rdfconv convert` and `rdfconv check` over documents of several sizes, beside `cat` and `wc -l` on the same file
in the same run.

    bench/rdfconv.py                                            # 25 and 200 MB of nine documents
    bench/rdfconv.py --megabytes 1 2 --runs 1                   # a quick run
    bench/rdfconv.py nt nq ttl trig --megabytes 10 100 400      # these documents alone
    bench/rdfconv.py --json figures.json                        # and the figures as JSON, for bench/draw.py

Prints MB/s of the input (by processor time, the best of the runs) and the most memory held, then by how much time and memory grow from the
first size to the last. Ends with a failure where a status is not what it should be, where not as many quads are counted
or lines written as the document has, and where a `.` after its end is not refused at its place.
"""
import argparse
import collections
import json
import os
import subprocess
import sys
import tempfile

import documents
import runs

TOP = os.path.dirname(os.path.dirname(os.path.abspath(__file__)))
PROGRAM = os.path.join(TOP, 'crates', 'rdf_tool', 'out', 'rdf_tool')
COLUMNS = ['convert', 'check', 'cat', 'wc -l']

# The documents that are measured where none is named.
NINE = ['nt', 'nq', 'ttl', 'trig', 'prefixes', 'comments', 'nested', 'deep', 'literal']

# Bytes of a document, and for each column the seconds of the best run and the kilobytes held at most.
Figures = collections.namedtuple('Figures', ['size', 'seconds', 'held'])


def words_of(column, document):
    """The command line of a column."""
    if column in ('convert', 'check'):
        return [PROGRAM, column, '--format', document.format] + document.options
    return column.split()


def seconds(words, path):
    """Seconds of processor time of a run that reads the file."""
    with open(path, 'rb') as f:
        status, user, system = runs.processor_seconds(words, f)
    expect(status, 0)
    return user + system


def answer(words, path):
    """What a run writes, says on standard error, and its status."""
    with open(path, 'rb') as f:
        p = subprocess.run(words, stdin=f, stdout=subprocess.PIPE, stderr=subprocess.PIPE)
        return p.stdout.decode(), p.stderr.decode(), p.returncode


def line_count(words, path):
    """How many lines a run writes, what it says on standard error, and its status."""
    with open(path, 'rb') as f, subprocess.Popen(words, stdin=f, stdout=subprocess.PIPE, stderr=subprocess.PIPE) as p:
        count = subprocess.run(['wc', '-l'], stdin=p.stdout, stdout=subprocess.PIPE, check=True)
        return int(count.stdout), p.stderr.read().decode(), p.wait()


def expect(got, wanted):
    if got != wanted:
        sys.exit('%s, but should be: %s' % (got, wanted))


def expect_accepted(document, path, quads):
    """Ends with a failure unless this many quads are counted, and lines written."""
    accepted = 'accepted, %d quads, %d bytes\n' % (quads, os.path.getsize(path))
    expect(answer(words_of('check', document), path), (accepted, '', 0))
    expect(line_count(words_of('convert', document), path), (quads, '', 0))


def expect_refused(document, path, quads):
    """Ends with a failure unless a `.` behind the document is refused there, after all lines."""
    line_feeds, _, _ = answer(['wc', '-l'], path)
    place = 'rdfconv: unexpected token at byte %d, line %d\n' % (os.path.getsize(path), int(line_feeds) + 1)
    with open(path, 'ab') as f:
        f.write(b'.')
    expect(answer(words_of('check', document), path), ('', place, 1))
    expect(line_count(words_of('convert', document), path), (quads, place, 1))


def measure(kind, megabytes, rounds, path):
    document = documents.DOCUMENTS[kind]
    quads = documents.write(kind, megabytes, path)
    size = os.path.getsize(path)
    expect_accepted(document, path, quads)
    lines = [words_of(column, document) for column in COLUMNS]
    found = [[seconds(words, path) for words in lines] for _ in range(rounds)]
    figures = Figures(size, [min(column) for column in zip(*found)], [runs.held(words, path) for words in lines])
    expect_refused(document, path, quads)
    return figures


def print_row(name, figures):
    cells = ['%s MB/s, %.1f MiB' % (format(round(figures.size / s / 1e6), ','), kilobytes / 1024)
             for s, kilobytes in zip(figures.seconds, figures.held)]
    convert, _, cat, wc = figures.seconds
    print('| %s | %.0f MB | %s | 1 to %.0f, 1 to %.0f |'
          % (name, figures.size / 1e6, ' | '.join(cells), convert / cat, convert / wc), flush=True)


def print_growth(name, first, last):
    cells = ['%.1f, %.1f' % (last.seconds[n] / first.seconds[n], last.held[n] / first.held[n]) for n in range(2)]
    print('| %s | %.1f | %s |' % (name, last.size / first.size, ' | '.join(cells)))


def as_json(figures):
    """The figures of one run over one document: bytes, and for each column seconds and kilobytes."""
    columns = {column: {'seconds': s, 'kilobytes': kb} for column, s, kb in zip(COLUMNS, figures.seconds, figures.held)}
    return {'bytes': figures.size, 'columns': columns}


def write_json(path, measured):
    """Writes the figures of each document, smallest size first."""
    with open(path, 'w') as f:
        json.dump({name: [as_json(figures) for figures in sizes] for name, sizes in measured.items()}, f, indent=1)
        f.write('\n')


def main():
    parser = argparse.ArgumentParser(description=__doc__, formatter_class=argparse.RawDescriptionHelpFormatter)
    parser.add_argument('documents', nargs='*', metavar='DOCUMENT', help=', '.join(documents.DOCUMENTS))
    parser.add_argument('--megabytes', type=int, nargs='+', metavar='N', default=[25, 200])
    parser.add_argument('--runs', type=int, metavar='N', default=3)
    parser.add_argument('--json', metavar='FILE', help='write the figures there too')
    asked = parser.parse_args()
    unknown = set(asked.documents) - set(documents.DOCUMENTS)
    if unknown:
        parser.error('no document: ' + ', '.join(unknown))
    measured = {}
    print('| Document | Size | %s | `convert` beside `cat`, `wc -l` |' % ' | '.join('`%s`' % c for c in COLUMNS))
    print('|---|---|---|---|---|---|---|')
    with tempfile.TemporaryDirectory() as folder:
        path = os.path.join(folder, 'document')
        for kind in asked.documents or NINE:
            name = documents.DOCUMENTS[kind].name
            measured[name] = []
            for megabytes in asked.megabytes:
                measured[name].append(measure(kind, megabytes, asked.runs, path))
                print_row(name, measured[name][-1])
    print('\n| Document | Bytes | Time and memory of `convert` | of `check` |\n|---|---|---|---|')
    for name, figures in measured.items():
        print_growth(name, figures[0], figures[-1])
    if asked.json:
        write_json(asked.json, measured)


if __name__ == '__main__':
    main()
