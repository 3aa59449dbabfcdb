#!/usr/bin/env python3
"""Compares the graphs that rdflib reads by rdfconv with those that it reads by its own parsers, and times both.

    compare.py FILE..            the files, and the made documents and refusals below
    compare.py --time FILE..     the processor seconds of both for each file, children included, best of three

Two graphs are the same where they differ in the names of blank nodes alone. rdflib's own parsers refuse labels and a byte order mark that the
standards allow: such documents are counted apart. The last line counts, and the status is 1 where any differ."""
import multiprocessing
import os
import resource
import sys
import warnings

import rdflib
from rdflib import BNode, ConjunctiveGraph, Graph, Literal, Namespace
from rdflib.compare import isomorphic
from rdflib.namespace import XSD

try:
    import rdfconv.rdflib_parser as plugin
except ImportError:
    sys.path.insert(1, os.path.dirname(os.path.dirname(os.path.abspath(__file__))))
    import rdfconv_rdflib as plugin

OWN = {'nt': 'nt', 'nq': 'nquads', 'ttl': 'turtle', 'trig': 'trig'}
OURS = {'nt': 'rdfconv-ntriples', 'nq': 'rdfconv-nquads', 'ttl': 'rdfconv-turtle', 'trig': 'rdfconv-trig'}
PART = Namespace('urn:part:')
BASE = 'http://example.org/dir/document'
MADE = [
    ('nt', '<a:s> <a:p> "a\\tb\\"c\\\\d\\ne\\u00E9\\U0001F600" .\n<a:s> <a:p> _:x .\n_:x <a:p> "x"@en-GB .\n'),
    ('nq', '<a:s> <a:p> "x" .\n<a:s> <a:p> "a \\"b\\" <c> ." <a:g> .\n<a:s> <a:p> "x"^^<a:d> _:g .\n_:g <a:p> "x"@en <a:g> .\n'),
    ('ttl', '@prefix : <#> . <> :p "1"^^:d, 01, 1.50, 2e3, true, """a\n"b"\t""", <../x?y#z>, (), (1 [ :q :r ]), "\\\\" .\n'),
    ('ttl', 'PREFIX e: <http://e/> BASE <http://b/> e:a\\~b e:p%20q <c>, e:, [], [ e:p [] ] .'),
    ('trig', '@prefix : <#> . :a :p "x" . :g { :a :p [ :q "y" ], (:z) } GRAPH _:h { _:h :p _:i } _:i :p _:h . { :c :d :e }'),
]
REFUSED = [
    ('nt', b'<a:s> <a:p> <a:o> .\n<s> <a:p> <a:o> .\n', 'relative IRI at byte 20, line 2', 1),
    ('nq', b'<a:s> <a:p> "\xff" .', 'bad UTF-8 at byte 13, line 1', 0),
    ('ttl', b'@prefix e: <http://e/> .\ne:a e:b e:c .\ne:a e:b x:c .\n', 'unbound prefix at byte 47, line 3', 1),
    ('trig', b'<a:g> { <a:s> <a:p> 1 }\n<a:g> { <a:s> <a:p> 2 ', 'unexpected token at byte 46, line 2', 1),
]


def read(format, name, **where):
    graph = ConjunctiveGraph() if format in ('nquads', 'trig', 'rdfconv-nquads', 'rdfconv-trig') else Graph()
    graph.parse(format=format, publicID=name, **where)
    return graph


def plain(term):
    """In RDF 1.1 a string without a type has the type xsd:string, and rdfconv writes none; rdflib tells the two apart."""
    return Literal(str(term)) if isinstance(term, Literal) and term.datatype == XSD.string else term


def as_triples(graph):
    """A graph that is the same for two sets of quads exactly if they are: each quad is a node with its parts."""
    told = Graph()
    quads = graph.quads() if isinstance(graph, ConjunctiveGraph) else graph
    for parts in quads:
        quad = BNode()
        for part, term in zip('spog', parts):
            told.add((quad, PART[part], plain(getattr(term, 'identifier', term))))
    return told


def compared(format, name, **where):
    """Whether both graphs are the same, or who refuses the document."""
    try:
        ours = as_triples(read(OURS[format], name, **where))
    except plugin.Refused:
        return 'refused by rdfconv'
    try:
        own = as_triples(read(OWN[format], name, **where))
    except Exception:  # those parsers have many ways to fail
        return 'refused by the other'
    return 'same' if len(own) == len(ours) and isomorphic(own, ours) else 'DIFFER'


def refused_right(format, document, message, before):
    graph = ConjunctiveGraph() if format in ('nq', 'trig') else Graph()
    try:
        graph.parse(data=document, format=OURS[format], publicID=BASE)
    except plugin.Refused as refused:
        return (str(refused), '%s at byte %d, line %d' % (refused.reason, refused.offset, refused.line), len(graph)) == (message, message, before)
    return False


def seconds():
    return sum(it.ru_utime + it.ru_stime for it in map(resource.getrusage, (resource.RUSAGE_SELF, resource.RUSAGE_CHILDREN)))


def time_of(formats, name):
    begin, graph = seconds(), read(formats[name.rsplit('.', 1)[1]], BASE, source=name)
    return seconds() - begin, len(graph)


def show_times(names):
    """Each reading is in a process of its own, so that none finds the graph of another in memory."""
    for name in names:
        with multiprocessing.get_context('fork').Pool(1, maxtasksperchild=1) as pool:
            (ours, count), (own, own_count) = (min(pool.apply(time_of, (it, name)) for _ in range(3)) for it in (OURS, OWN))
        print('%s: %d triples by rdfconv in %.2f s, %d by rdflib in %.2f s, %.1f times' % (name, count, ours, own_count, own, own / ours))


def compare(names):
    results = [(name, compared(name.rsplit('.', 1)[1], BASE, source=name)) for name in names]
    results += [('made %s %d' % (it[0], i), compared(it[0], BASE, data=it[1])) for i, it in enumerate(MADE)]
    results += [('refusal %s' % it[0], 'same' if refused_right(*it) else 'DIFFER') for it in REFUSED]
    results = [(what, 'DIFFER' if what.startswith('made') and answer == 'refused by rdfconv' else answer) for what, answer in results]
    for what, answer in results:
        print('%-22s%s' % (answer, what))
    answers = [answer for _, answer in results]
    print('%d files, %d made documents and %d refusals by rdflib %s: %s' % (
        len(names), len(MADE), len(REFUSED), rdflib.__version__,
        ', '.join('%d %s' % (answers.count(it), it) for it in ('same', 'refused by rdfconv', 'refused by the other', 'DIFFER'))))
    return 1 if 'DIFFER' in answers else 0


if __name__ == '__main__':
    warnings.simplefilter('ignore')
    sys.exit(show_times(sys.argv[2:]) if sys.argv[1:2] == ['--time'] else compare(sys.argv[1:]))
