#!/usr/bin/env python3
"""Writes a document to measure with, and says how many quads it has.

    bench/documents.py KIND MEGABYTES FILE

KIND is one of DOCUMENTS below. The document ends with the first whole statement after so many MB.
"""
import collections
import sys

TITLES = ['The Sea Around Us', 'Ein "kurzer" Titel', 'Жизнь и судьба', 'a\\tb']
PREFIXES = '@prefix lib: <http://example.org/library/> .\n@prefix t: <http://example.org/terms/> .\n'
MOST_DEPTH = 1048576
MOST_TOKEN = 268435456
MOST_BINDINGS = 65536


class Writer:
    """Writes text to a file, and counts its bytes and the quads that it gives."""

    def __init__(self, file, size):
        self.file = file
        self.size = size
        self.bytes = 0
        self.quads = 0

    def put(self, text, quads=0):
        self.bytes += self.file.write(text.encode('utf-8'))
        self.quads += quads

    def is_full(self):
        return self.bytes >= self.size


def lines(out, graph):
    n = 0
    while not out.is_full():
        n += 1
        book = '<http://example.org/library/book-%d>' % n
        title = TITLES[n % 4].replace('"', '\\"')
        end = graph % (n % 31) if graph else ''
        out.put('%s <http://example.org/terms/title> "%s"@en%s .\n' % (book, title, end), 1)
        out.put('%s <http://example.org/terms/shelf> _:shelf%d%s .\n' % (book, n % 97, end), 1)
        out.put('%s <http://example.org/terms/pages> "%d"^^<http://www.w3.org/2001/XMLSchema#integer>%s .\n'
                % (book, n % 900, end), 1)


def ntriples(out):
    lines(out, '')


def nquads(out):
    lines(out, ' <http://example.org/halls/%d>')


def put_numbered(out, quads, text):
    """Puts the text of 1, 2, 3 and so on, each of so many quads."""
    n = 0
    while not out.is_full():
        n += 1
        out.put(text(n), quads)


def plain(out):
    """Lines of three IRIs."""
    put_numbered(out, 1, lambda n: '<http://example.org/library/book-%d> <http://example.org/terms/shelf> <http://example.org/library/shelf-%d> .\n'
                 % (n, n % 97))


def escaped(out):
    """Lines whose strings and IRIs have no character above U+007F but by its number."""
    title = ''.join('\\u%04X' % ord(c) for c in TITLES[2])
    put_numbered(out, 1, lambda n: '<http://example.org/\\u00E9dition/%d> <http://example.org/terms/title> "%s %d\\n"@ru .\n' % (n, title, n))


def tabs(out):
    """Lines with a tab after each part, as some stores dump them."""
    put_numbered(out, 1, lambda n: '<http://example.org/library/book-%d>\t<http://example.org/terms/title>\t"%s"@en\t.\n' % (n, TITLES[n % 2 * 2]))


def wide_ends(out):
    """Lines with three spaces before their dots, as crawls are dumped."""
    put_numbered(out, 1, lambda n: '_:node%032x <http://example.org/terms/title> "%s"@en <http://example.org/page-%d>   .\n' % (n, TITLES[n % 2 * 2], n // 5))


def carriage_returns(out):
    """Lines that end in CR and LF."""
    put_numbered(out, 1, lambda n: '<http://example.org/library/book-%d> <http://example.org/terms/title> "%s" .\r\n' % (n, TITLES[0]))


def short_lines(out):
    put_numbered(out, 1, lambda n: '<a:%d> <a:p> <a:o> .\n' % n)


def long_lines(out):
    """Literals of 100 kB."""
    text = ''.join(TITLES).replace('"', '\\"') * 1600
    put_numbered(out, 1, lambda n: '<http://example.org/library/book-%d> <http://example.org/terms/text> "%s" .\n' % (n, text))


def names(out):
    """Short names alone."""
    out.put(PREFIXES)
    put_numbered(out, 3, lambda n: 'lib:b%d t:p lib:s%d ; t:q lib:r%d , lib:x .\n' % (n, n % 97, n % 89))


def objects(out):
    """Lists of a thousand objects."""
    out.put(PREFIXES)
    others = ''.join(' , lib:y%d' % m for m in range(999))
    put_numbered(out, 1000, lambda n: 'lib:b%d t:p lib:x%s .\n' % (n, others))


def collection(out):
    """One collection."""
    out.put(PREFIXES + 'lib:whole t:parts (')
    put_numbered(out, 2, lambda n: ' %d' % n)
    out.put(' ) .\n', 1)


def labels(out):
    out.put(PREFIXES)
    put_numbered(out, 2, lambda n: '_:b%d t:p _:s%d ; t:q _:r%d .\n' % (n, n % 97, n % 89))


def small_tokens(out):
    """Tokens of one byte or two."""
    out.put('@prefix : <http://example.org/> .\n')
    put_numbered(out, 6, lambda n: ':s a : ; : 1 , 2 , 3 ; : [ a : ] .\n')


def blanks(out):
    """Statements far apart."""
    out.put(PREFIXES)
    put_numbered(out, 1, lambda n: 'lib:b%d%st:p%slib:s .%s' % (n, ' ' * 60, '\n' * 60, '\t' * 60))


def references(out):
    """References with dot segments."""
    out.put('@base <http://example.org/a/b/c/d> .\n')
    put_numbered(out, 1, lambda n: '<../e/./%d> <../../p?q=%d#f> <./g/../h%d> .\n' % (n, n, n))


def put_book(out, n):
    out.put('lib:book-%d a t:Book ; t:shelf lib:shelf-%d , lib:shelf-%d ;\n'
            '    t:pages %d ; t:weight %d.5 ; t:author [ t:name "A%d"@en ] ; t:parts ( lib:p%d lib:q%d ) .\n'
            % (n, n % 97, n % 89, n % 900, n % 7, n, n, n), 12)


def turtle(out):
    """Names with prefixes, in statements of twelve quads."""
    out.put(PREFIXES)
    n = 0
    while not out.is_full():
        n += 1
        put_book(out, n)


def indented(out):
    """The same, with a line for each verb, as programs write it."""
    out.put(PREFIXES)
    n = 0
    while not out.is_full():
        n += 1
        out.put('lib:book-%d a t:Book ;\n    t:shelf lib:shelf-%d , lib:shelf-%d ;\n    t:pages %d ;\n    t:weight %d.5 ;\n'
                '    t:author [\n        t:name "A%d"@en\n    ] ;\n    t:parts ( lib:p%d lib:q%d ) .\n\n'
                % (n, n % 97, n % 89, n % 900, n % 7, n, n, n), 12)


CATALOGUE_PREFIXES = '''@base <http://example.org/catalogue> .
@prefix : <http://example.org/catalogue#> .
@prefix lib: <http://example.org/library/> .
@prefix t: <http://example.org/terms/> .
@prefix rdfs: <http://www.w3.org/2000/01/rdf-schema#> .
@prefix xsd: <http://www.w3.org/2001/XMLSchema#> .

'''
CATALOGUED = '''lib:book-%(n)d
    a t:Book , :Item ;
    rdfs:label "The Sea Around Us"@en , "Море вокруг нас"@ru , "われらをめぐる海"@ja ;
    t:printed "19%(year)02d-07-%(day)02d"^^xsd:date ;
    t:shelf lib:shelf-%(shelf)d , :wing ;
    t:isLent %(lent)s ;
    t:pages %(pages)d ;
    t:weight 0.%(pages)d ;
    t:shift -%(day)d ;
    t:scan lib:scan-%(n)d.jpg ;
    t:note "a \'first\' edition, \\"signed\\"" ;
    t:author [
        a t:Person ;
        t:name "Rachel Carson" ;
        t:born "1907"^^xsd:gYear
    ] ;
    rdfs:seeAlso <http://example.net/works/%(n)d> , <#work-%(n)d> .

'''


def catalogue(out):
    """Books as catalogues have them: dates, booleans, signed and decimal numbers, several scripts, names with dots, indented lines."""
    out.put(CATALOGUE_PREFIXES)
    put_numbered(out, 20, lambda n: CATALOGUED % {
        'n': n, 'year': n % 89 + 10, 'day': n % 27 + 1, 'shelf': n % 97, 'lent': 'true' if n % 3 else 'false', 'pages': n % 900})


VOCABULARY_PREFIXES = '''@prefix t: <http://example.org/terms#> .
@prefix owl: <http://www.w3.org/2002/07/owl#> .
@prefix rdfs: <http://www.w3.org/2000/01/rdf-schema#> .
@prefix xsd: <http://www.w3.org/2001/XMLSchema#> .

'''
DEFINED = '''t:term-%(n)d
    a owl:ObjectProperty , owl:FunctionalProperty ;
    rdfs:label "term %(n)d"@en , "Begriff %(n)d"@de ;
    rdfs:comment """Relates a work to the "first" place where a copy of it was kept.

A place may be a shelf, a hall or a whole house; see term %(m)d for what
is said of loans. Where more than one place is known, the oldest is meant.
"""@en ;
    rdfs:domain t:Work ;
    rdfs:range [
        a owl:Class ;
        owl:unionOf ( t:Shelf t:Hall t:House )
    ] ;
    rdfs:subPropertyOf t:term-%(m)d ;
    owl:versionInfo "%(m)d" ;
    rdfs:isDefinedBy <http://example.org/terms> .

'''


def vocabulary(out):
    """Terms as vocabularies define them, with comments of several lines."""
    out.put(VOCABULARY_PREFIXES)
    put_numbered(out, 18, lambda n: DEFINED % {'n': n, 'm': n * 7 % 89})


def trig(out):
    """The same as `turtle`, four statements a graph block."""
    out.put(PREFIXES)
    n = 0
    while not out.is_full():
        out.put('lib:hall-%d {\n' % (n % 31))
        for _ in range(4):
            n += 1
            put_book(out, n)
        out.put('}\n')


def nested(out):
    """Statements of a thousand brackets, one in the other."""
    out.put(PREFIXES)
    n = 0
    while not out.is_full():
        n += 1
        out.put('lib:part-%d t:part %s%d%s .\n' % (n, '[ t:part ' * 1000, n, ' ]' * 1000), 1001)


def deep(out):
    """One statement of brackets with some text, one in the other, as many as may be open in a document of 200 MB."""
    level = '[ t:note "%s"@en ; t:part ' % ('a part of a part, ' * 9)
    out.put(PREFIXES + 'lib:whole t:part ')
    depth = 0
    while not out.is_full() and depth < MOST_DEPTH:
        depth += 1
        out.put(level, 2)
    out.put('1' + ' ]' * depth + ' .\n', 1)


def literal(out):
    """One literal."""
    out.put('<http://example.org/library/book-1> <http://example.org/terms/text> "')
    while not out.is_full():
        out.put(''.join(TITLES).replace('"', '\\"') * 100)
    out.put('" .\n', 1)


def literals(out):
    """Four literals, each a quarter of the document."""
    text = ''.join(TITLES).replace('"', '\\"')
    for n in range(4):
        out.put('<http://example.org/library/book-%d> <http://example.org/terms/text> "' % n)
        out.put(text * (out.size // (4 * len(text.encode()))))
        out.put('" .\n', 1)


def prefixes(out):
    """As many prefixes as may be bound, or as fill a third of the document, and names that have each in turn."""
    count = min(MOST_BINDINGS, out.size // 150)
    for n in range(count):
        out.put('@prefix p%d: <http://example.org/libraries/%d/> .\n' % (n, n))
    n = 0
    while not out.is_full():
        n += 1
        out.put('p%d:s p%d:p p%d:o , p%d:o-%d .\n' % (n % count, n * 7 % count, n * 49 % count, n * 343 % count, n), 2)


def comments(out):
    """Four comments, each a quarter of the document."""
    for n in range(4):
        out.put('# %s\n' % ('a note on a note, ' * (out.size // 72)))
        out.put('<http://example.org/library/book-%d> <http://example.org/terms/part> %d .\n' % (n, n), 1)


Document = collections.namedtuple('Document', ['name', 'format', 'options', 'write'])

DOCUMENTS = {
    'catalogue': Document('Catalogue', 'ttl', [], catalogue),
    'vocabulary': Document('Vocabulary', 'ttl', [], vocabulary),
    'nt': Document('N-Triples', 'nt', [], ntriples),
    'nq': Document('N-Quads', 'nq', [], nquads),
    'ttl': Document('Turtle with prefixes', 'ttl', [], turtle),
    'indented': Document('Turtle, a line for each verb', 'ttl', [], indented),
    'trig': Document('TriG with prefixes', 'trig', [], trig),
    'prefixes': Document('Many prefixes', 'ttl', [], prefixes),
    'comments': Document('Four comments', 'ttl', [], comments),
    'nested': Document('Brackets, 1,000 deep', 'ttl', [], nested),
    'deep': Document('One nest of brackets', 'ttl', ['--depth', str(MOST_DEPTH)], deep),
    'literal': Document('One literal', 'nt', ['--token', str(MOST_TOKEN)], literal),
    'literals': Document('Four literals', 'nt', ['--token', str(MOST_TOKEN)], literals),
    'plain': Document('Lines of IRIs', 'nt', [], plain),
    'escaped': Document('Lines of escapes', 'nt', [], escaped),
    'tabs': Document('Lines with tabs', 'nt', [], tabs),
    'wide': Document('Lines with spaces before the dot', 'nq', [], wide_ends),
    'crlf': Document('Lines with CR and LF', 'nt', [], carriage_returns),
    'short': Document('Short lines', 'nt', [], short_lines),
    'long': Document('Literals of 100 kB', 'nt', [], long_lines),
    'names': Document('Names alone', 'ttl', [], names),
    'objects': Document('Long object lists', 'ttl', [], objects),
    'collection': Document('One collection', 'ttl', [], collection),
    'labels': Document('Labels', 'ttl', [], labels),
    'small': Document('Tokens of one byte', 'ttl', [], small_tokens),
    'blanks': Document('White space', 'ttl', [], blanks),
    'references': Document('Dot segments', 'ttl', [], references),
}


def write(kind, megabytes, path):
    """Writes a document, and answers how many quads it has."""
    with open(path, 'wb') as f:
        out = Writer(f, int(megabytes * 1000000))
        DOCUMENTS[kind].write(out)
    return out.quads


def main():
    kind, megabytes, path = sys.argv[1:]
    print('%d quads' % write(kind, int(megabytes), path))


if __name__ == '__main__':
    if '--help' in sys.argv[1:]:
        print(__doc__.strip())
        sys.exit()
    main()
