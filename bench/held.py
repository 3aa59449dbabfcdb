#!/usr/bin/env python3
"""How much memory `convert` holds of documents that are made to hold as much as their limits allow, beside the bound that is proved of
the texts (`most_held`, clause `most` of `TrigReader::new`).

    bench/held.py [FIGURES]

Limits on tokens and IRIs at 1, 2, 4 and 8 times a size, 64 brackets and 64 bindings, or 512 of both. With FIGURES they are written as
JSON, which `bench/draw.py FIGURES FOLDER` draws. `rt ci` or `rt run` in crates/rdf_tool builds the program.
"""
import json
import os
import sys
import tempfile

import runs

TOP = os.path.dirname(os.path.dirname(os.path.abspath(__file__)))
PROGRAM = os.environ.get('RDFCONV', os.path.join(TOP, 'crates', 'rdf_tool', 'out', 'rdf_tool'))

TOKEN = 2048
SCALES = (1, 2, 4, 8)


def bound(token, depth, bindings, iri):
    """The most bytes of texts that a reader of Turtle or TriG holds."""
    return 4 * (token + 1) + 3 + max(iri, 4 * token) * (2 * (depth + 1) + 3) + iri + bindings * (4 * token + iri)


def document(token, depth, bindings, iri):
    """Bindings of IRIs as long as they may be, a base, a label of characters of four bytes, a verb as long as it may be within each
    bracket, and a string that does not end."""
    def long_iri(n):
        start = 'http://a/%d/' % n
        return '<' + start + '\U00020000' * ((iri - len(start)) // 4) + '>'

    heads = ['@prefix p%d: %s .\n' % (n, long_iri(n)) for n in range(bindings)]
    label = '_:' + '\U00020000' * (token - 2)
    verbs = [long_iri(n) + ' [ ' for n in range(depth)]
    return ''.join(heads) + '@base %s .\n' % long_iri(0) + label + ' ' + ''.join(verbs) + '<a:p> "' + '\U00020000' * (token - 1)


def main():
    figures = []
    with tempfile.TemporaryDirectory() as room:
        path = os.path.join(room, 'document')
        for brackets in 64, 512:
            for scale in SCALES:
                token = TOKEN * scale
                limits = token, brackets, brackets, 4 * token - 80
                with open(path, 'w') as file:
                    file.write(document(*limits))
                words = [PROGRAM, 'convert', *('--%s=%d' % it for it in zip(('token', 'depth', 'bindings', 'iri'), limits))]
                kilobytes = runs.held(words, path, may_fail=True)
                figures.append({'limits': limits, 'bound': bound(*limits), 'document': os.path.getsize(path), 'kilobytes': kilobytes})
                print('tokens of %5d characters, IRIs of %5d bytes, %3d brackets and bindings: document %6.2f MiB, held %6.2f MiB, bound of its texts %6.2f MiB'
                      % (token, limits[3], brackets, figures[-1]['document'] / 2**20, kilobytes / 1024, figures[-1]['bound'] / 2**20))
    if len(sys.argv) > 1:
        with open(sys.argv[1], 'w') as file:
            json.dump({'held': figures}, file)


if __name__ == '__main__':
    if '--help' in sys.argv[1:]:
        print(__doc__.strip())
        sys.exit()
    main()
