"""Random documents of each format, and mutants of them; the same seed makes the same document.

    from documents import make
    make(7, 'ttl')      # the bytes of a document, and its base or None

Half of the documents are meant to be derived by the grammar, with names that may be unbound; a quarter have words dropped, put in, moved
or repeated, and a quarter bytes. Words stand with much white space between them, with comments, or with none at all.
"""
import random

# First and last characters of the ranges in PN_CHARS_BASE and PN_CHARS (Turtle 6.5 [163s], [166s]), written down apart from the reader.
BASE_ENDS = 'AZazÀÖØö\u00F8\u02FF\u0370\u037D\u037F\u1FFF\u200C\u200D\u2070\u218F\u2C00\u2FEF\u3001\uD7FF\uF900\uFDCF\uFDF0\uFFFD' \
    '\U00010000\U000EFFFF'
OTHER_ENDS = '-09\u00B7\u0300\u036F\u203F\u2040'
# Those beside them, and others that readers may take for white space, or for the end of a line or of the text.
STRANGE = ''.join(chr(ord(c) + step) for c in BASE_ENDS + OTHER_ENDS for step in (-1, 1) if not 0xD800 <= ord(c) + step <= 0xDFFF) \
    + '\x00\x01\x08\x0B\x0C\x1F\x7F\x80\x85\xA0\u2028\uFEFF\uFFFE\uFFFF\U0010FFFF'

MARKS = [*'. ; , [ ] ( ) { } ^^ a true false @prefix @base PREFIX BASE GRAPH graph @en 1 1. .5 1e'.split(), '"x"', "'''x'''", '""', '"""',
         *'<a:b> <x> _:b : :a x:y [] () {}'.split(), '\n', *'# = => | << @ ! ?x * ^'.split()]
REFERENCES = ['', *'''x # #x ? ?q . .. ./ ../ ../.. ../../x / // //h //h/p/../q /./x /../x /. /.. x/.. x/./y ./x:y ;a ../../../.. .a ..a ... x?../y
    x#../y /.//c ///x ..//x a//../b %2e%2e/x 1a:b _:a -a:b é //h?x //#'''.split()]
IRIS = '''http://a/s http://a/p http://example.org/x#y urn:x:y a:b x: tag:é,2 http://a/../b/./c http://a?q http://a# file:///x/y a+b-c.d:x
    A1:/b'''.split()
PREFIXES = ['', *'a p ex true false e E5 PREFIX base graph a.b a- x· é true.x a..b'.split()]
LOCALS = ['', *r'1 01 _ : :: 0- a.b e %20 %4f.x \~ \- a\. 1.5 1e5 a:b :.: a..b a\,b \@a \#'.split()]
LABELS = 'a b1 0 _ a.b a..b 1- x·y é b0 n1 _0 漢.1'.split()
TAGS = '@en @EN-us @x-a-b-c-1 @zh-Hant-TW @prefixed @base-x @Prefix @BASE @prefix-1 @i-0 @prefix @base'.split()
NUMBERS = [*'1 +1 -0 00 .5 -.5 1.5 -.5e-3 .5E+3 1.e5 1.5e0 1e5 +1e+1 -1.E1 00.00'.split(), '9' * 30]
SPACES = [' ', '\n', '\r\n', '\r', '\t', '  ', '#c\n', ' # <a> "x\n', '#\r', '# é\r\n', '\n#\n']


class Words:
    """Makes words at random."""

    def __init__(self, seed):
        self.random = random.Random(seed)
        self.one_of = self.random.choice

    def chance(self, part):
        return self.random.random() < part

    def many(self, make, least, most):
        return ''.join(make() for _ in range(self.random.randint(least, most)))

    def hexes(self, count):
        return self.many(lambda: self.one_of('0123456789abcdefABCDEF'), count, count)

    def escape_of(self, number):
        text = self.one_of(['%x', '%X']) % number
        return '\\U' + text.rjust(8, '0') if number > 0xFFFF or self.chance(.4) else '\\u' + text.rjust(4, '0')

    def letter(self):
        return self.one_of(BASE_ENDS) if self.chance(.3) else self.one_of('abcetzfAE')

    def dotted(self, make, most):
        """Parts with dots between them, and none at the end."""
        return self.many(lambda: '.' if self.chance(.25) else make(), 0, most) + make()

    def name_part(self, others='_'):
        return self.one_of([self.letter(), self.letter(), self.one_of(OTHER_ENDS), self.one_of(others)])

    def prefix(self):
        return self.one_of(PREFIXES) if self.chance(.7) else self.letter() + self.dotted(self.name_part, 4)

    def local(self):
        if self.chance(.5):
            return self.one_of(LOCALS)
        escapes = ['%' + self.hexes(2), '\\' + self.one_of("_~.-!$&'()*+,;=/?#@%")]
        return self.one_of([self.letter(), self.one_of('0189_:')] + escapes) + self.dotted(lambda: self.name_part(['_', ':'] + escapes), 6)

    def label(self, others='_'):
        if self.chance(.6):
            return '_:' + self.one_of(LABELS)
        return '_:' + self.one_of([self.letter(), self.one_of('019'), self.one_of(others)]) + self.dotted(lambda: self.name_part(others), 4)

    def iri_part(self):
        if self.chance(.06):
            return self.escape_of(self.one_of([0x41, 0xE9, 0x1F600, 0x25, 0x2F, 0x23, 0x3F, 0x3A, 0x2E, 0x7F, 0x80, 0x10FFFF] * 5 + [0x20, 0x3E,
            0xD800]))
        return self.one_of([*"ab0/:.?#%-_~!$&'()*+,;=@[]é漢\U0001F600\xA0\x7F\uFEFF\u2028", '/', '/', '..', '../', './', '//'])

    def iri(self, relative):
        """An IRIREF, more or less often without a scheme."""
        if self.chance(relative):
            return '<%s>' % (self.one_of(REFERENCES) if self.chance(.5) else self.many(self.iri_part, 0, 6))
        if self.chance(.5):
            return '<%s>' % self.one_of(IRIS)
        return '<%s>' % (self.one_of(['http://a/', 'http://a', 'urn:', 'a:/', 'a:', 'http://h:80/b/c?d#', 'z+.-9:']) + self.many(self.iri_part, 0,
        6))

    def text_part(self, quote):
        if self.chance(.1):
            return '\\' + self.one_of('tbnrf"\'\\')
        if self.chance(.1):
            return self.escape_of(self.one_of([0x41, 0xE9, 0x1F600, 0x10FFFF, 0, 0x22, 0x27, 0x5C, 10, 13, 0xFFFE, 0xD7FF, 0xE000]))
        if self.chance(.005):
            return self.escape_of(self.one_of([0xD800, 0xDFFF, 0x110000]))
        return self.one_of('abcxyz 012<>#.;,[](){}@^%&é漢\U0001F600\uFEFF\t' + '\'"'.replace(quote, '')) if self.chance(.9) else self.one_of(STRANGE)

    def string(self, quotes='"\'', long=.35):
        quote = self.one_of(quotes)
        if not self.chance(long):
            return quote + self.many(lambda: self.text_part(quote).replace('\n', ' ').replace('\r', ' '), 0, 6) + quote

        def part():
            before = self.one_of(['', '', '', quote, quote * 2])
            return before + (self.text_part(quote) if self.chance(.8) else self.one_of(['\n', '\r', '\r\n']))
        return quote * 3 + self.many(part, 0, 5) + quote * 3

    def any_case(self, word):
        return ''.join(self.one_of([c.lower(), c.upper()]) for c in word)


class LineDocument(Words):
    """Documents of N-Triples and N-Quads."""

    spaces = [' ', '\t', '  ', '']
    words_between = [' ', '\t', '#x\n', '\n', '\r\n \n']

    def node(self):
        return self.label('_:') if self.chance(.4) else self.iri(.02)

    def value(self):
        if self.chance(.5):
            return [self.node()]
        return [self.string('"', 0)] + self.one_of([[], [self.one_of(TAGS)], ['^^', self.iri(.02)]])

    def words(self, form):
        found = []
        for _ in range(self.random.randint(0, 4)):
            found += [self.node(), self.iri(.02), *self.value()]
            if form == 'nq' and self.chance(.5):
                found.append(self.node())
            found += ['.', self.one_of(['', '', '# c', '#', '# <a> .', '#é"']) + self.one_of(['\n', '\n', '\r', '\r\n', '\n\n'])]
        return found[:-1] if self.chance(.3) else found


class TurtleDocument(Words):
    """Documents of Turtle and TriG."""

    spaces = SPACES
    words_between = ['#x\n', ' ', '\n', '\r\n#y\r\n']

    def name(self):
        return self.one_of(self.bound) + ':' + self.local() if self.bound and self.chance(.55) else self.iri(.4)

    def node(self):
        return [self.label()] if self.chance(.6) else ['[', ']']

    def literal(self):
        if self.chance(.4):
            return [self.one_of(NUMBERS + ['true', 'false'])]
        return [self.string()] + self.one_of([[], [], [self.one_of(TAGS)], ['^^', self.name()]])

    def value(self, depth):
        kinds = [lambda: [self.name()], lambda: [self.name()], self.node, self.literal, self.literal]
        if depth < 4:
            kinds += [lambda: self.collection(depth + 1), lambda: ['[', *self.predicates(depth + 1), ']']]
        return self.one_of(kinds)()

    def collection(self, depth):
        return ['(', *sum((self.value(depth) for _ in range(self.one_of([0, 1, 1, 2, 3]))), []), ')']

    def predicates(self, depth):
        found = ['a' if self.chance(.25) else self.name(), *self.value(depth)]
        while self.chance(.2):
            found += [',', *self.value(depth)]
        while self.chance(.25):
            found.append(';')
            if self.chance(.7) and depth < 6:
                found += self.predicates(depth + 1)
        return found

    def triples(self):
        if self.chance(.2):
            return ['[', *self.predicates(1), ']', *(self.predicates(0) if self.chance(.6) else [])]
        return self.one_of([lambda: [self.name()], lambda: [self.name()], self.node, lambda: self.collection(0)])() + self.predicates(0)

    def directive(self):
        if self.chance(.4):
            return self.one_of([['@base', self.iri(.4), '.'], [self.any_case('base'), self.iri(.4)]])
        self.bound.append(self.prefix())
        words = [self.bound[-1] + ':', self.iri(.4)]
        return self.one_of([['@prefix', *words, '.'], [self.any_case('prefix'), *words]])

    def graph(self):
        label = self.node() if self.chance(.4) else [self.name()]
        found = self.one_of([[], label, [self.any_case('graph'), *label]]) + ['{']
        for _ in range(self.one_of([0, 1, 1, 2, 3])):
            found += self.triples() + ['.']
        return (found[:-1] if found[-1] == '.' and self.chance(.4) else found) + ['}']

    def words(self, form):
        self.bound = []
        found = sum((self.directive() for _ in range(self.one_of([0, 1, 2, 2, 3]))), [])
        for _ in range(self.one_of([1, 1, 2, 3])):
            if self.chance(.15):
                found += self.directive()
            elif form == 'trig' and self.chance(.5):
                found += self.graph()
            else:
                found += self.triples() + ['.']
        return found


def mutated_words(maker, words):
    words = words or ['.']
    for _ in range(maker.one_of([1, 1, 2])):
        at, other = maker.random.randrange(len(words)), maker.random.randrange(len(words))
        words = maker.one_of([words[:at] + words[at + 1:] or ['.'], words[:at] + [maker.one_of(MARKS)] + words[at:], words[:at] + words[other:],
                              words[:at] + [words[other]] + words[at:], words[:at] + [maker.one_of(MARKS)] + words[at + 1:]])
    return words or ['.']


def mutated_bytes(maker, text):
    text = text or b' '
    for _ in range(maker.one_of([1, 1, 1, 2, 3])):
        at, size = maker.random.randrange(len(text)), maker.random.randint(1, 5)
        put = maker.one_of([maker.one_of('.:;,<>"\'\\@^_-+#%[](){}a1eE \n\r\t0/?~tfux' + STRANGE).encode(), bytes([maker.random.randrange(256)])])
        text = maker.one_of([text[:at] + text[at + size:], text[:at] + put + text[at:], text[:at] + put + text[at + 1:],
                             text[:at + size] + text[at:]]) or b' '
    return text


def joined(maker, words):
    """The words as text. How much white space stands between them is chosen for the document."""
    tight = maker.one_of([0, 0, 0, .1, .5, 1])
    text = '\uFEFF' if maker.chance(.05) else ''
    text += maker.one_of(maker.words_between) if maker.chance(.1) else ''
    for word in words:
        text += word
        if not word.endswith(('\n', '\r')):
            text += '' if maker.chance(tight) else ' ' if maker.chance(.8) else maker.one_of(maker.spaces)
    return text + (maker.one_of(['#', '# x', ' ']) if maker.chance(.1) else '')


def make(seed, form):
    """The bytes of a document, and its base or None."""
    maker = (LineDocument if form in ('nt', 'nq') else TurtleDocument)('%s %s' % (seed, form))
    words = maker.words(form)
    kind = maker.one_of(['derived', 'derived', 'words', 'bytes'])
    text = joined(maker, mutated_words(maker, words) if kind == 'words' else words).encode()
    return mutated_bytes(maker, text) if kind == 'bytes' else text, maker.one_of(['http://example.org/d/e', 'http://a/b/c/d;p?q',
    'http://h/a/../b/c?q', 'x:', None])
