"""Reads RDF documents in N-Triples, N-Quads, Turtle and TriG, and writes N-Quads.

    lines = rdfconv.convert('ex:a ex:b [] .', 'ttl', prefixes={'ex': 'http://example.org/'})
    quads, tokens, size = rdfconv.check(document, 'nt')
    for line in rdfconv.lines('dump.ttl', 'ttl'):
        ...

convert and check take a document in memory, and lines takes a file of any size, or one that is open. The formats are nt, nq, ttl and trig.
"""
import tempfile

from . import processor  # first, since the library does not look for itself
from . import stream
from .library import BadPrefixes, Refused, bytes_of, check, convert, prefixes_of, word_of
from .program import PROGRAM

__all__ = ['BadPrefixes', 'PROGRAM', 'Refused', 'check', 'convert', 'lines']


def lines(source, format='trig', base='', prefixes='', word='', *, token=1 << 24, depth=1 << 10, bindings=1 << 16, iri=1 << 20, ascii=False):
    """The lines of the document's quads, as bytes, one by one, in little memory however long it is. The source is a path, or a binary file
    that is open. After the lines before the place comes Refused, which then has none of them."""
    limits = dict(token=token, depth=depth, bindings=bindings, iri=iri)
    check('', format, base, prefixes, ascii=ascii, **limits)  # raises what is wrong with an argument at once
    words = [format, '--ascii'] if ascii else [format]
    words += [it for name, value in limits.items() for it in ('--' + name, str(value))]
    words += ['--base', bytes(bytes_of('base', base))] if base else []
    words += ['--node-prefix', bytes(word_of(word))] if word else []
    return lines_of(source, words, bytes(prefixes_of(prefixes)))


def lines_of(source, words, prefixes):
    with tempfile.NamedTemporaryFile() as bound:
        if prefixes:
            bound.write(prefixes)
            bound.flush()
            words += ['--prefixes', bound.name]
        try:
            yield from stream.lines(source, *words, program=PROGRAM)
        except stream.Refused as refused:
            raise Refused(refused.reason, refused.offset, refused.line, b'') from None
