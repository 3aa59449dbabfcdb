"""Parsers for rdflib that read by rdfconv: Graph().parse(path, format="rdfconv-turtle"), and so for rdfconv-ntriples, rdfconv-nquads and
rdfconv-trig (the last two into a Dataset or ConjunctiveGraph).

Where the wheel of rdfconv is installed, rdflib finds them by itself. From a checkout, import this module with examples/ on PYTHONPATH and
the program on the PATH. A document that is refused raises Refused, after the triples before the place were added, as with rdflib's own
parsers. Prefixes of the document are not bound in the graph, since they are not in the lines."""
import io
import re

from rdflib import BNode, ConjunctiveGraph, Literal, URIRef
from rdflib.exceptions import ParserError
from rdflib.parser import Parser
from rdflib.plugin import register

try:
    from rdfconv import PROGRAM, stream
except ImportError:
    import stream
    PROGRAM = 'rdfconv'

ESCAPE = re.compile(r'\\(.)')
ESCAPED = {'n': '\n', 'r': '\r', '"': '"', '\\': '\\'}
LITERAL = re.compile(r'"((?:[^"\\]|\\.)*)"(?:@([^ ]+)|\^\^<([^>]*)>)?')
LONG = 200


class Refused(ParserError):
    """A document that is refused: the reason, the byte from 0, and its line from 1."""

    def __init__(self, refused):
        super().__init__(str(refused))
        self.reason, self.offset, self.line = refused.reason, refused.offset, refused.line


class Terms(dict):
    """The terms of one document by their texts. A text that is not long is read once."""

    def __missing__(self, text):
        term = self.read(text)
        if len(text) < LONG or text[0] == '_':
            self[text] = term
        return term

    def read(self, text):
        if text[0] == '<':
            return URIRef(text[1:-1])
        if text[0] == '_':
            return BNode()
        value, language, datatype = LITERAL.fullmatch(text).groups()
        if '\\' in value:
            value = ESCAPE.sub(lambda it: ESCAPED[it[1]], value)
        return Literal(value, lang=language, datatype=datatype and URIRef(datatype))


def split_object(text):
    """The object and the graph of a line's rest, or None for the graph where there is none."""
    end = LITERAL.match(text).end() if text[0] == '"' else text.find(' ')
    return (text, None) if end in (-1, len(text)) else (text[:end], text[end + 1:])


def quads(lines, terms, graphs):
    """What each line says, with its graph, as rdflib takes it."""
    for line in lines:
        subject, predicate, rest = line.decode()[:-3].split(' ', 2)
        rest, name = split_object(rest)
        yield terms[subject], terms[predicate], terms[rest], graphs[name]


def triples(lines, terms, graph):
    """The same of lines without a graph."""
    for line in lines:
        subject, predicate, rest = line.decode()[:-3].split(' ', 2)
        yield terms[subject], terms[predicate], terms[rest], graph


class Graphs(dict):
    """The graphs of a store by the texts of their names, and the default graph by None."""

    def __init__(self, sink, terms):
        super().__init__({None: sink.default_context})
        self.sink, self.terms = sink, terms

    def __missing__(self, name):
        self[name] = self.sink.get_context(self.terms[name])
        return self[name]


class Document:
    """What the source gives, by read alone: in rdflib 6.1 the read1 of a text fails."""

    def __init__(self, source):
        self.read = (source.getByteStream() or io.BytesIO(source.getCharacterStream().read().encode())).read


class RdfconvParser(Parser):
    def parse(self, source, sink, **_):
        base = str(sink.absolutize(source.getPublicId() or source.getSystemId() or ''))
        words = ['--base', base] if ':' in base else []
        lines = stream.lines(Document(source), self.format, *words, program=PROGRAM)
        try:
            self.add(lines, Terms(), sink)
        except stream.Refused as refused:
            raise Refused(refused) from None

    def add(self, lines, terms, graph):
        graph.addN(triples(lines, terms, graph))


class RdfconvGraphsParser(RdfconvParser):
    def add(self, lines, terms, graph):
        if not graph.store.context_aware:
            raise ParserError('a document with graphs needs a store that has graphs')
        sink = ConjunctiveGraph(store=graph.store, identifier=graph.identifier)
        self.place_default(sink, graph)
        sink.addN(quads(lines, terms, Graphs(sink, terms)))

    def place_default(self, sink, graph):
        """The default graph is where rdflib's own parser of the format puts it."""


class NTriples(RdfconvParser):
    format = 'nt'


class NQuads(RdfconvGraphsParser):
    format = 'nq'


class Turtle(RdfconvParser):
    format = 'ttl'


class TriG(RdfconvGraphsParser):
    format = 'trig'

    def place_default(self, sink, graph):
        sink.default_context = graph


for name, kind in ('ntriples', NTriples), ('nquads', NQuads), ('turtle', Turtle), ('trig', TriG):
    register('rdfconv-' + name, Parser, __name__, kind.__name__)
