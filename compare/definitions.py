#!/usr/bin/env python3
"""Compares the definitions in crates/*/specs, run as they stand, with the Recommendations, the RFCs and the independent reader.

    compare/definitions.py              # minutes, on one processor
    compare/definitions.py --quick      # less of what is generated: under 90 seconds
    compare/definitions.py --seed 2     # other documents and texts

First it shows that it sees planted mistakes: edits of the definitions' text, in memory. Prints a line for each comparison, and the first
differences. Ends in one line `N passed, M failed`, with status 1 where any failed. compare/README.md says what is compared, and what not.
"""
import argparse
import sys
import threading
import time

sys.dont_write_bytecode = True

from paths import INDEPENDENT      # noqa: E402

sys.path.insert(0, INDEPENDENT)

import productions      # noqa: E402
import readings         # noqa: E402
import references       # noqa: E402
import scanning         # noqa: E402
import shapes           # noqa: E402
import utf8             # noqa: E402
import values           # noqa: E402
from antt import BadEdit, NoClause, Specs       # noqa: E402
from mutants import MUTANTS     # noqa: E402
from notation import NoComputation      # noqa: E402

MOST_SHOWN = 5
STACK = 512 * 1024 * 1024       # trees and lists are gone through by recursion
FAULTS = (NoClause, NoComputation, productions.Ambiguous, readings.Wrong)       # what definitions that do not fit each other end in


def comparisons(seed, is_quick):
    """Rows of what is compared and a function of specs that gives None for each thing that agrees, or a difference."""
    def size(quick, whole):
        return quick if is_quick else whole
    yield 'rows of the table of shapes, each with the terminals of a grammar', shapes.compare_rows
    yield 'names of labels and tags, white space, line ends, with the terminals', shapes.compare_parts
    yield 'pairs of kinds: no text has both but keywords that are tags', shapes.compare_kinds
    if not is_quick:
        yield 'classes, over all code points: as in the cells of the automata', shapes.compare_all_code_points
    yield 'definitions of trees, each with its production of Turtle or TriG', productions.compare_trees
    yield 'definitions of lines, each with its production of N-Triples or N-Quads', productions.compare_lines
    yield 'lists of tokens: the first with which no document begins', lambda it: readings.compare_viable(it, seed, size(300, 3000))
    yield 'sequences of bytes: UTF-8', with_kit(lambda it: utf8.compare_bytes(it, seed, 3, size(3000, 60000)))
    yield 'characters: their bytes in UTF-8', with_kit(lambda it: utf8.compare_characters(it, size(97, 7)))
    yield 'examples of RFC 3986, 5.4', references.compare_examples
    yield 'texts: the parts of a reference', lambda it: references.compare_parts(it, size(5, 6))
    yield 'paths: dot segments', lambda it: references.compare_dots(it, size(8, 10))
    yield 'references against a base', lambda it: references.compare_resolved(it, seed, size(3, 4), size(50, 1000))
    yield 'values of escapes in strings, IRIs and local parts', lambda it: values.compare_values(it, seed, size(5000, 50000))
    yield 'IRIs that documents mean without spelling them', values.compare_known
    yield 'characters as they are written', lambda it: values.compare_written_characters(it, size(997, 17))
    yield 'names of nodes, all different', values.compare_names
    yield 'words that are replaced to be fast', lambda it: scanning.compare_words(it, seed, size(100, 1500))
    yield 'texts: their tokens, whole or cut, broken, limited', lambda it: scanning.compare_tokens(it, seed, size(2, 3), size(2000, 20000))
    yield 'documents written by hand', readings.compare_cases
    for form in readings.FORMATS:
        many = size(200, 2500)
        yield 'documents (%s): tokens, quads with marks, refusals' % form, lambda it, form=form: readings.compare_documents(it, seed, form, many)
        yield 'documents (%s) with small limits' % form, lambda it, form=form: readings.compare_limits(it, seed, form, many)
        yield 'written lines (%s), read back' % form, lambda it, form=form: readings.compare_read_back(it, seed, form, many // 2)
    for form in ('ttl', 'trig'):
        yield 'documents (%s): what is owed after each token' % form, lambda it, form=form: readings.compare_owed(it, seed, form, size(200, 2500))


def with_kit(compare):
    """The comparison over the kit's own definitions of UTF-8; none where the kit is not there."""
    def compared(specs):
        files = utf8.kit_modules()
        return compare(Specs(specs.edits, files)) if files else ()
    return compared


# What sees a mutant, over few documents and texts.
FOR_MUTANTS = {
    'rows': shapes.compare_rows, 'parts': shapes.compare_parts, 'kinds': shapes.compare_kinds, 'trees': productions.compare_trees,
    'lines': productions.compare_lines, 'examples': references.compare_examples, 'names': values.compare_names,
    'known': values.compare_known,
    'utf8': lambda it: utf8.compare_bytes(it, 1, 2, 0),
    'parts of references': lambda it: references.compare_parts(it, 4),
    'dots': lambda it: references.compare_dots(it, 6),
    'resolved': lambda it: references.compare_resolved(it, 1, 2, 0),
    'values': lambda it: values.compare_values(it, 1, 2000),
    'written': lambda it: values.compare_written_characters(it, 4999),
    'words': lambda it: scanning.compare_words(it, 1, 20),
    'tokens': lambda it: scanning.compare_tokens(it, 1, 1, 500),
    'documents': lambda it: readings.compare_documents(it, 1, 'trig', 200),
    'cases': readings.compare_cases,
    'line documents': lambda it: readings.compare_documents(it, 1, 'nq', 100),
    'back': lambda it: readings.compare_read_back(it, 1, 'trig', 200),
    'owed': lambda it: readings.compare_owed(it, 1, 'trig', 100),
    'limits': lambda it: readings.compare_limits(it, 1, 'trig', 300),
}


class Tally:
    """How many things passed and failed."""

    def __init__(self):
        self.passed = self.failed = 0

    def run(self, title, found):
        """Counts what a comparison gives, and prints a line."""
        start, passed, differences = time.monotonic(), 0, []
        try:
            for it in found():
                if it is None:
                    passed += 1
                else:
                    differences.append(it)
        except FAULTS as error:
            differences.append('%s: %s' % (type(error).__name__, error))
        self.passed += passed
        self.failed += len(differences)
        answer = '%d differ' % len(differences) if differences else 'no difference' if passed else 'not compared'
        print('%8s %s: %s, %.1f s' % (format(passed + len(differences), ','), title, answer, time.monotonic() - start), flush=True)
        for it in differences[:MOST_SHOWN]:
            print('         ' + it[:1000], flush=True)


def seen(mutants):
    """None for each mutant that is seen."""
    for it in mutants:
        try:
            yield None if is_seen(it) else 'not seen: ' + it.says
        except BadEdit as error:
            yield 'not tried: %s: %s' % (it.says, error)


def is_seen(mutant):
    try:
        return any(it is not None for it in FOR_MUTANTS[mutant.comparison](Specs([mutant[1:4]])))
    except FAULTS:
        return True


def compare(asked):
    tally = Tally()
    tally.run('planted mistakes, each seen', lambda: seen(MUTANTS))
    for title, found in comparisons(asked.seed, asked.quick):
        tally.run(title, lambda: found(Specs()))
    print('%d passed, %d failed' % (tally.passed, tally.failed))
    return tally


def main():
    parser = argparse.ArgumentParser(description=__doc__, formatter_class=argparse.RawDescriptionHelpFormatter)
    parser.add_argument('--seed', type=int, metavar='N', default=1, help='of what is generated')
    parser.add_argument('--quick', action='store_true', help='under 90 seconds')
    asked = parser.parse_args()
    result = []
    threading.stack_size(STACK)
    thread = threading.Thread(target=lambda: result.append(compare(asked)))
    thread.start()
    thread.join()
    return 0 if result and not result[0].failed else 1


if __name__ == '__main__':
    sys.exit(main())
