#!/usr/bin/env python3
"""Puts lines of N-Quads, as rdfconv writes them, into a store of SQLite.

    examples/store.py STORE FILE..

STORE is made where it is not there. Its table `quads` has the columns subject, predicate, object and graph, with the terms as the lines
have them, and '' for no graph. Each quad is there once, whatever files it came from. Either all files are put in or, after a message,
none. Says how many quads the store then has.

Statuses: 0 all is in; 1 a line is none that rdfconv writes; 2 the words are wrong; 3 a file can't be read, or the store or the
answer can't be written.
"""
import re
import sqlite3
import sys

LINE = re.compile(r'(<[^ ]*>|_:[^ ]+) (<[^ ]*>) (<[^ ]*>|_:[^ ]+|".*"[^ "]*) (?:(<[^ ]*>|_:[^ ]+) )?\.\n')

TABLE = '''CREATE TABLE IF NOT EXISTS quads (subject TEXT, predicate TEXT, object TEXT, graph TEXT,
    PRIMARY KEY (subject, predicate, object, graph)) WITHOUT ROWID'''


class NoQuad(Exception):
    """A line that rdfconv does not write."""


def terms(line):
    """The four terms of a line, or None where it is no quad."""
    try:
        found = LINE.fullmatch(line.decode('utf-8'))
    except UnicodeDecodeError:
        return None
    return found and found.groups('')


def quads(path):
    """The terms of each line of a file."""
    with open(path, 'rb') as file:
        for number, line in enumerate(file, 1):
            quad = terms(line)
            if quad is None:
                raise NoQuad('%s:%d: no line of rdfconv: convert the document first' % (path, number))
            yield quad


def put(store, paths):
    """Puts all quads of the files into the store, and counts what it then has."""
    with store:
        store.execute(TABLE)
        for path in paths:
            store.executemany('INSERT OR IGNORE INTO quads VALUES (?, ?, ?, ?)', quads(path))
        store.execute('CREATE INDEX IF NOT EXISTS by_object ON quads (object)')
    return store.execute('SELECT count(*) FROM quads').fetchone()[0]


def main(words):
    if len(words) < 2:
        print('usage: store.py STORE FILE..', file=sys.stderr)
        return 2
    try:
        print('%s: %d quads' % (words[0], put(sqlite3.connect(words[0]), words[1:])), flush=True)
    except NoQuad as why:
        print('store: %s' % why, file=sys.stderr)
        return 1
    except (OSError, sqlite3.Error) as why:
        print('store: %s' % why, file=sys.stderr)
        return 3
    return 0


if __name__ == '__main__':
    if '--help' in sys.argv[1:]:
        print(__doc__.strip())
        sys.exit()
    sys.exit(main(sys.argv[1:]))
