#!/usr/bin/env python3
"""Prints the dearest functions of `rdfconv convert` on N-Triples and on Turtle with prefixes, by callgrind: the share of
all instructions that each runs itself, all its instances together.

    bench/callgrind.py [MEGABYTES]     (2)
"""
import collections
import os
import re
import subprocess
import sys
import tempfile

import documents

TOP = os.path.dirname(os.path.dirname(os.path.abspath(__file__)))
PROGRAM = os.path.join(TOP, 'crates', 'rdf_tool', 'out', 'rdf_tool')

# A line of callgrind_annotate, as `1,234 (56.78%)  FILE:FUNCTION::<INSTANCE> [PROGRAM]`.
LINE = re.compile(r' *[\d,]+ \( *([\d.]+)%\)  [^:]*:(.+?)(?:::<#\w+>)?(?: \[.*\])?$')


def shares(kind, megabytes, folder):
    """The share of each function in per cent."""
    path, profile = (os.path.join(folder, name) for name in ('document', 'profile'))
    documents.write(kind, megabytes, path)
    words = ['valgrind', '--quiet', '--tool=callgrind', '--callgrind-out-file=' + profile]
    with open(path, 'rb') as f:
        subprocess.run(words + [PROGRAM, 'convert', '--format', kind], stdin=f, stdout=subprocess.DEVNULL, check=True)
    listed = subprocess.run(['callgrind_annotate', profile], stdout=subprocess.PIPE, check=True).stdout.decode()
    found = collections.Counter()
    for line in filter(None, map(LINE.match, listed.splitlines())):
        found[line.group(2)] += float(line.group(1))
    return found


def main():
    megabytes = int(sys.argv[1]) if len(sys.argv) > 1 else 2
    with tempfile.TemporaryDirectory() as folder:
        for kind in ('nt', 'ttl'):
            print(documents.DOCUMENTS[kind].name)
            for name, share in shares(kind, megabytes, folder).most_common(8):
                print('    %4.1f %%  %s' % (share, name))


if __name__ == '__main__':
    if '--help' in sys.argv[1:]:
        print(__doc__.strip())
        sys.exit()
    main()
