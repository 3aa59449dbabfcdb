"""A second reader of N-Triples, N-Quads, Turtle and TriG, written from the Recommendations of 25 February 2014 and RFC 3986.

    from reader import read
    read(b'<s> <p> 1 .', 'ttl', base='http://a/').lines     # the lines of N-Quads, and .refusal, which is None here

It says what `rdfconv convert` has to answer: the lines, and of a refusal the reason, the byte and the line. It was not made from the
code of rdfconv or from its definitions, and shares nothing with them but the documents: the Recommendations, the RFC, and where these
leave a choice, or say nothing ("a choice" below), README.md, docs/DECISIONS.md and docs/REFUSALS.md. So a mistake has to be made twice,
in two languages and in two ways, to go unseen. It is made to be read beside the Recommendations, not to be fast: a document is decoded
whole, and read by recursive descent.

Not covered: the limits (--token, --depth, --iri, --bindings), and --prefixes, --ascii and --node-prefix.
"""
import itertools
import re
from collections import namedtuple

RDF = 'http://www.w3.org/1999/02/22-rdf-syntax-ns#'
XSD = 'http://www.w3.org/2001/XMLSchema#'


# Tokens, terms, quads, refusals

Token = namedtuple('Token', 'kind text byte number')        # kind: the terminal's name or the fixed text; number: how many tokens come before
Iri = namedtuple('Iri', 'text')
Node = namedtuple('Node', 'label')                          # a blank node, by its label in the output
Literal = namedtuple('Literal', 'value datatype tag', defaults=(XSD + 'string', None))
Quad = namedtuple('Quad', 'subject predicate object graph head')    # head: the number of the last token that the quad needs
Refusal = namedtuple('Refusal', 'reason byte line')
Outcome = namedtuple('Outcome', 'lines refusal')            # the refusal is None where the document is accepted

NIL, FIRST, REST, TYPE = (Iri(RDF + name) for name in ('nil', 'first', 'rest', 'type'))


class Refused(Exception):
    """The document is refused at the token of this number, which need not have been read."""

    def __init__(self, reason, byte, number):
        super().__init__(reason)
        self.reason, self.byte, self.number = reason, byte, number


# Terminals

# Turtle 6.5, from [18] on. A name in braces stands for the expression of that terminal. ANON [162s] is no token: '[' and ']' are (a choice).
TURTLE = {
    'IRIREF': r'<([^\x00-\x20<>"{}|^`\\]|{UCHAR})*>',                                   # [18]
    'PNAME_NS': r'{PN_PREFIX}?:',                                                       # [139s]
    'PNAME_LN': r'{PNAME_NS}{PN_LOCAL}',                                                # [140s]
    'BLANK_NODE_LABEL': r'_:({PN_CHARS_U}|[0-9])(({PN_CHARS}|\.)*{PN_CHARS})?',         # [141s]
    'LANGTAG': r'@[a-zA-Z]+(-[a-zA-Z0-9]+)*',                                           # [144s]
    'INTEGER': r'[+-]?[0-9]+',                                                          # [19]
    'DECIMAL': r'[+-]?[0-9]*\.[0-9]+',                                                  # [20]
    'DOUBLE': r'[+-]?([0-9]+\.[0-9]*{EXPONENT}|\.[0-9]+{EXPONENT}|[0-9]+{EXPONENT})',   # [21]
    'EXPONENT': r'[eE][+-]?[0-9]+',                                                     # [154s]
    'STRING_LITERAL_QUOTE': r'"([^"\\\n\r]|{ECHAR}|{UCHAR})*"',                         # [22]
    'STRING_LITERAL_SINGLE_QUOTE': r"'([^'\\\n\r]|{ECHAR}|{UCHAR})*'",                  # [23]
    'STRING_LITERAL_LONG_SINGLE_QUOTE': r"'''(('|'')?([^'\\]|{ECHAR}|{UCHAR}))*'''",    # [24]
    'STRING_LITERAL_LONG_QUOTE': r'"""(("|"")?([^"\\]|{ECHAR}|{UCHAR}))*"""',           # [25]
    'UCHAR': r'\\u{HEX}{4}|\\U{HEX}{8}',                                                # [26]
    'ECHAR': r'''\\[tbnrf"'\\]''',                                                      # [159s]
    'WS': r'[ \t\r\n]',                                                                 # [161s]
    'PN_CHARS_BASE': r'[A-Za-z\u00C0-\u00D6\u00D8-\u00F6\u00F8-\u02FF\u0370-\u037D\u037F-\u1FFF\u200C-\u200D\u2070-\u218F'
                     r'\u2C00-\u2FEF\u3001-\uD7FF\uF900-\uFDCF\uFDF0-\uFFFD\U00010000-\U000EFFFF]',     # [163s]
    'PN_CHARS_U': r'{PN_CHARS_BASE}|_',                                                 # [164s]
    'PN_CHARS': r'{PN_CHARS_U}|[-0-9\u00B7\u0300-\u036F\u203F-\u2040]',                 # [166s]
    'PN_PREFIX': r'{PN_CHARS_BASE}(({PN_CHARS}|\.)*{PN_CHARS})?',                       # [167s]
    'PN_LOCAL': r'({PN_CHARS_U}|[:0-9]|{PLX})(({PN_CHARS}|[.:]|{PLX})*({PN_CHARS}|:|{PLX}))?',  # [168s]
    'PLX': r'{PERCENT}|{PN_LOCAL_ESC}',                                                 # [169s]
    'PERCENT': r'%{HEX}{HEX}',                                                          # [170s]
    'HEX': r'[0-9A-Fa-f]',                                                              # [171s]
    'PN_LOCAL_ESC': r"\\[_~.\-!$&'()*+,;=/?#@%]",                                       # [172s]
}

# N-Triples 7, from [144s] and [7] on, which N-Quads 4 has too. Those with the name of a terminal of Turtle are the same but for PN_CHARS_U.
LINES = dict(
    TURTLE,
    EOL=r'[\r\n]',                          # [7] has one or more; here each CR and each LF is a line's end (a choice)
    WS=r'[ \t]',                            # N-Triples 7, before the grammar
    PN_CHARS_U=r'{PN_CHARS_BASE}|_|:',      # [158s]
)

STRINGS = ['STRING_LITERAL_QUOTE', 'STRING_LITERAL_SINGLE_QUOTE', 'STRING_LITERAL_LONG_SINGLE_QUOTE', 'STRING_LITERAL_LONG_QUOTE']
NUMBERS = ['INTEGER', 'DECIMAL', 'DOUBLE']
IRIS = ['IRIREF', 'PNAME_LN', 'PNAME_NS']

# The fixed texts of the productions, and the terminals that are tokens. Of two of one length the first counts: where '@prefix' is also a
# LANGTAG it is the keyword (a choice). Keywords in double quotes are taken in any case (Turtle 6.5). Turtle and TriG have the same tokens
# (a choice), so '{' in a document of Turtle is a token that may not stand there.
TURTLE_TOKENS = ['@prefix', '@base', 'PREFIX', 'BASE', 'GRAPH', 'a', 'true', 'false', '^^', '.', ';', ',', '[', ']', '(', ')', '{', '}',
                 *IRIS, 'BLANK_NODE_LABEL', 'LANGTAG', *NUMBERS, *STRINGS]
LINE_TOKENS = ['^^', '.', 'EOL', 'IRIREF', 'BLANK_NODE_LABEL', 'LANGTAG', 'STRING_LITERAL_QUOTE']


def endings_of_text(end, escaped):
    """What ends a text that stands in brackets or quotes, wherever it was cut: also after a backslash, and within an escape's digits."""
    return [end, escaped + end] + ['0' * digits + end for digits in range(1, 9)]


# For each terminal texts of which one completes it, wherever it was cut, so that the whole is longer.
ENDINGS = {
    'IRIREF': endings_of_text('>', 'u0000'),
    'PNAME_NS': [':', 'a:'],
    'PNAME_LN': ['a', ':a', 'a:a', '0', '00', '_'],
    'BLANK_NODE_LABEL': [':a', 'a'],
    'LANGTAG': ['a'],
    'INTEGER': ['1'],
    'DECIMAL': ['1', '.1'],
    'DOUBLE': ['1', 'e1', '1e1', '.1e1'],
    'STRING_LITERAL_QUOTE': endings_of_text('"', 'n'),
    'STRING_LITERAL_SINGLE_QUOTE': endings_of_text("'", 'n'),
    'STRING_LITERAL_LONG_SINGLE_QUOTE': ["''n'''", "'n'''"] + endings_of_text("'''", 'n'),
    'STRING_LITERAL_LONG_QUOTE': ['""n"""', '"n"""'] + endings_of_text('"""', 'n'),
    'EOL': [],
}


def expression(grammar, name):
    """The regular expression of a terminal, with those that it refers to put in."""
    return '(?:%s)' % re.sub(r'\{([A-Z_]+)\}', lambda found: expression(grammar, found[1]), grammar[name])


class Terminal:
    """What tokens of a kind look like."""

    def __init__(self, grammar, kind):
        self.kind = kind
        if kind in grammar:
            self.pattern = re.compile(expression(grammar, kind))
        else:
            # ASCII, since U+017F is an S in another case
            self.pattern = re.compile(re.escape(kind), re.IGNORECASE | re.ASCII if kind in ('PREFIX', 'BASE', 'GRAPH') else 0)
        self.endings = ENDINGS[kind] if kind in grammar else [kind[cut:] for cut in range(1, len(kind))]

    def could_go_on(self, text):
        """Whether a longer text that begins with this one is a token of the kind."""
        return any(self.pattern.fullmatch(text + ending) for ending in self.endings)


class Dialect:
    """The tokens of two formats, and what may stand between tokens."""

    def __init__(self, grammar, kinds):
        self.terminals = [Terminal(grammar, kind) for kind in kinds]
        self.long_strings = [it for it in self.terminals if 'LONG' in it.kind]
        # Comments go to the end of the line (Turtle 6.2, N-Triples 7), which is no part of them.
        self.blank = re.compile(r'(?:%s|#[^\r\n]*)*' % grammar['WS'])


IN_TURTLE = Dialect(TURTLE, TURTLE_TOKENS)
IN_LINES = Dialect(LINES, LINE_TOKENS)


# Escapes

ESCAPE = re.compile(r'\\(?:u([0-9A-Fa-f]{4})|U([0-9A-Fa-f]{8})|(.))')
LETTERS = {'t': '\t', 'b': '\b', 'n': '\n', 'r': '\r', 'f': '\f', '"': '"', "'": "'", '\\': '\\'}
IN_NO_IRI = re.compile(r'[\x00-\x20<>"{}|^`\\]')


def unescaped(text):
    """Turtle 6.4: numeric escapes and string escapes are replaced. The text has no others."""
    return ESCAPE.sub(lambda found: LETTERS[found[3]] if found[3] else chr(int(found[1] or found[2], 16)), text)


def has_bad_escape(kind, text):
    """Whether an escape's number is no Unicode scalar value, or that of a character that IRIREF excludes (a choice)."""
    for four, eight, _ in ESCAPE.findall(text):
        number = int(four or eight or '0', 16)
        if number > 0x10FFFF or 0xD800 <= number <= 0xDFFF:
            return True
        if kind == 'IRIREF' and IN_NO_IRI.match(chr(number)):
            return True
    return False


# From bytes to tokens

class Scanner:
    """The tokens of a document, from left to right: always the longest text that is a token (Turtle 6.5)."""

    def __init__(self, document, dialect):
        self.dialect = dialect
        try:
            self.text, self.has_bad_bytes = document.decode('utf-8'), False
        except UnicodeDecodeError as error:
            self.text, self.has_bad_bytes = document[:error.start].decode('utf-8'), True
        self.offsets = list(itertools.accumulate((len(c.encode('utf-8')) for c in self.text), initial=0))
        self.at = 1 if self.text.startswith('\ufeff') else 0    # one U+FEFF is dropped (a choice)
        self.ahead = []
        self.count = 0

    def peek(self, further=0):
        """The next token, or one further on; it is not taken."""
        while len(self.ahead) <= further:
            self.ahead.append(self.scan())
            self.count += 1
        return self.ahead[further]

    def next(self):
        self.peek()
        return self.ahead.pop(0)

    def scan(self):
        self.at = self.dialect.blank.match(self.text, self.at).end()
        byte = self.offsets[self.at]
        if self.at == len(self.text):
            if self.has_bad_bytes:
                raise Refused('bad UTF-8', byte, self.count)
            return Token('end', '', byte, self.count)
        terminals = self.dialect.terminals
        if self.dialect.long_strings and self.text.startswith(('"""', "'''"), self.at):
            terminals = self.dialect.long_strings   # three quotes begin a long string, or there is no token (a choice)
        # Bad bytes are reported where the token before them is not decided (a choice).
        if self.has_bad_bytes and any(it.could_go_on(self.text[self.at:]) for it in terminals):
            raise Refused('bad UTF-8', self.offsets[-1], self.count)
        kind, end = None, self.at
        for terminal in terminals:
            found = terminal.pattern.match(self.text, self.at)
            if found and found.end() > end:
                kind, end = terminal.kind, found.end()
        if kind is None:
            raise Refused('no token', byte, self.count)
        text = self.text[self.at:end]
        if kind in ['IRIREF', *STRINGS] and has_bad_escape(kind, text):
            raise Refused('bad escape', byte, self.count)
        self.at = end
        return Token(kind, text, byte, self.count)


# References (RFC 3986)

SCHEME = r'[A-Za-z][A-Za-z0-9+.-]*'     # 3.1
# Appendix B, with the characters of 3.1 for the scheme (a choice).
PARTS = re.compile(r'(?:(%s):)?(?://([^/?#]*))?([^?#]*)(?:\?([^#]*))?(?:#(.*))?' % SCHEME, re.DOTALL)


def has_scheme(text):
    return re.match(SCHEME + ':', text) is not None


def remove_dot_segments(path):
    """RFC 3986, 5.2.4: the steps A to E, on the input and the output buffer."""
    output = ''
    while path:
        if path.startswith('../'):                                  # A
            path = path[3:]
        elif path.startswith('./'):
            path = path[2:]
        elif path.startswith('/./') or path == '/.':                # B
            path = '/' + path[3:]
        elif path.startswith('/../') or path == '/..':              # C
            path = '/' + path[4:]
            output = output[:max(output.rfind('/'), 0)]
        elif path in ('.', '..'):                                   # D
            path = ''
        else:                                                       # E
            segment = re.match('/?[^/]*', path)[0]
            output += segment
            path = path[len(segment):]
    return output


def merge(authority, base_path, path):
    """RFC 3986, 5.2.3."""
    if authority is not None and not base_path:
        return '/' + path
    return base_path[:base_path.rfind('/') + 1] + path


def recompose(scheme, authority, path, query, fragment):
    """RFC 3986, 5.3."""
    result = scheme + ':'
    if authority is not None:
        result += '//' + authority
    result += path
    if query is not None:
        result += '?' + query
    if fragment is not None:
        result += '#' + fragment
    return result


def resolve(base, reference):
    """RFC 3986, 5.2.2. A reference with a scheme is kept as it is written, dot segments too (a choice)."""
    if has_scheme(reference):
        return reference
    scheme, base_authority, base_path, base_query, _ = PARTS.fullmatch(base).groups()
    _, authority, path, query, fragment = PARTS.fullmatch(reference).groups()
    if authority is not None:
        path = remove_dot_segments(path)
    else:
        authority = base_authority
        if not path:
            path = base_path
            query = base_query if query is None else query
        elif path.startswith('/'):
            path = remove_dot_segments(path)
        else:
            path = remove_dot_segments(merge(base_authority, base_path, path))
    return recompose(scheme, authority, path, query, fragment)


# From tokens to quads

class Reader:
    """What the readers have in common."""

    def __init__(self, document, dialect):
        self.scanner = Scanner(document, dialect)
        self.quads = []
        self.taken = None

    def sees(self, *kinds):
        return self.scanner.peek().kind in kinds

    def take(self, *kinds):
        """The next token, which has to be of one of these kinds."""
        token = self.scanner.next()
        if token.kind not in kinds:
            raise Refused('unexpected token', token.byte, token.number)
        self.taken = token
        return token


class LineReader(Reader):
    """N-Triples 7 and N-Quads 4, which have the same productions but for the graph label."""

    has_graphs = False

    def __init__(self, document, base):
        """The base has no use here: each IRI is absolute (N-Triples 2.2)."""
        super().__init__(document, IN_LINES)

    def document(self):
        """[1] ntriplesDoc ::= triple? (EOL triple)* EOL?

        A line is empty or one statement, the first too (a choice).
        """
        while not self.sees('end'):
            if not self.sees('EOL'):
                self.statement()
            if not self.sees('end'):
                self.take('EOL')

    def statement(self):
        """[2] triple ::= subject predicate object '.'; N-Quads [2] statement ::= subject predicate object graphLabel? '.'"""
        subject = self.subject()
        predicate = self.iri()
        value = self.object()
        head = self.taken.number
        graph = None
        if self.has_graphs and self.sees('IRIREF', 'BLANK_NODE_LABEL'):
            graph = self.subject()
            head = self.taken.number
        self.take('.')
        self.quads.append(Quad(subject, predicate, value, graph, head))

    def subject(self):
        """[3] subject ::= IRIREF | BLANK_NODE_LABEL; N-Quads [6] graphLabel is the same"""
        if self.sees('BLANK_NODE_LABEL'):
            return Node(self.take('BLANK_NODE_LABEL').text[2:])
        return self.iri()

    def iri(self):
        """[4] predicate ::= IRIREF"""
        token = self.take('IRIREF')
        text = unescaped(token.text[1:-1])
        if not has_scheme(text):
            raise Refused('relative IRI', token.byte, token.number)
        return Iri(text)

    def object(self):
        """[5] object ::= IRIREF | BLANK_NODE_LABEL | literal"""
        return self.subject() if self.sees('IRIREF', 'BLANK_NODE_LABEL') else self.literal()

    def literal(self):
        """[6], N-Quads [7] literal ::= STRING_LITERAL_QUOTE ('^^' IRIREF | LANGTAG)?"""
        value = unescaped(self.take('STRING_LITERAL_QUOTE').text[1:-1])
        if self.sees('^^'):
            self.take('^^')
            return Literal(value, self.iri().text)
        if self.sees('LANGTAG'):
            return Literal(value, tag=self.take('LANGTAG').text[1:])
        return Literal(value)


class QuadLineReader(LineReader):
    has_graphs = True


class TurtleReader(Reader):
    """Turtle 6.5, with a method for each production, and Turtle 7 for what it states.

    Blank nodes get the names of rdfconv (a choice): `n` before a label, `a` and the byte of '[', `c` and the byte of a collection's item.
    """

    def __init__(self, document, base):
        super().__init__(document, IN_TURTLE)
        self.base = base
        self.namespaces = {}
        self.graph = None

    def document(self):
        """[1] turtleDoc ::= statement*"""
        while not self.sees('end'):
            self.statement()

    def statement(self):
        """[2] statement ::= directive | triples '.'"""
        if self.sees('@prefix', '@base', 'PREFIX', 'BASE'):
            self.directive()
        else:
            self.triples()
            self.take('.')

    def directive(self):
        """[3] directive ::= prefixID | base | sparqlPrefix | sparqlBase

        [4] prefixID ::= '@prefix' PNAME_NS IRIREF '.'      [6s] sparqlPrefix ::= "PREFIX" PNAME_NS IRIREF
        [5] base ::= '@base' IRIREF '.'                     [5s] sparqlBase ::= "BASE" IRIREF
        """
        word = self.take('@prefix', '@base', 'PREFIX', 'BASE').kind
        if word in ('@prefix', 'PREFIX'):
            prefix = self.take('PNAME_NS').text[:-1]
            self.namespaces[prefix] = self.reference()
        else:
            self.base = self.reference()
        if word.startswith('@'):
            self.take('.')

    def triples(self):
        """[6] triples ::= subject predicateObjectList | blankNodePropertyList predicateObjectList?"""
        if self.sees_property_list():
            subject = self.blank_node_property_list()
            if self.sees('a', *IRIS):
                self.predicate_object_list(subject)
        else:
            self.predicate_object_list(self.subject())

    def predicate_object_list(self, subject):
        """[7] predicateObjectList ::= verb objectList (';' (verb objectList)?)*"""
        self.object_list(subject, self.verb())
        while self.sees(';'):
            self.take(';')
            if self.sees('a', *IRIS):
                self.object_list(subject, self.verb())

    def object_list(self, subject, verb):
        """[8] objectList ::= object (',' object)*"""
        self.object(subject, verb)
        while self.sees(','):
            self.take(',')
            self.object(subject, verb)

    def verb(self):
        """[9] verb ::= predicate | 'a'; [11] predicate ::= iri"""
        if self.sees('a'):
            self.take('a')
            return TYPE
        return self.iri()

    def subject(self):
        """[10] subject ::= iri | BlankNode | collection"""
        if self.sees('('):
            return self.collection()
        return self.blank_node() if self.sees('BLANK_NODE_LABEL', '[') else self.iri()

    def object(self, subject, verb):
        """[12] object ::= iri | BlankNode | collection | blankNodePropertyList | literal

        The object's own quad comes before those inside of it (a choice).
        """
        if self.sees('[', '('):
            self.state(subject, verb, self.bracket_node(), self.scanner.peek().number)
            if self.sees_property_list():
                self.blank_node_property_list()
            else:
                self.subject()
            return
        if self.sees('BLANK_NODE_LABEL'):
            value = self.blank_node()
        else:
            value = self.iri() if self.sees(*IRIS) else self.literal()
        self.state(subject, verb, value, self.taken.number)

    def literal(self):
        """[13] literal ::= RDFLiteral | NumericLiteral | BooleanLiteral

        [16] NumericLiteral ::= INTEGER | DECIMAL | DOUBLE; [133s] BooleanLiteral ::= 'true' | 'false'. Both are kept as spelled (a choice).
        """
        if self.sees(*STRINGS):
            return self.rdf_literal()
        token = self.take('true', 'false', *NUMBERS)
        return Literal(token.text, XSD + (token.kind.lower() if token.kind in NUMBERS else 'boolean'))

    def blank_node_property_list(self):
        """[14] blankNodePropertyList ::= '[' predicateObjectList ']'"""
        node = self.bracket_node()
        self.take('[')
        self.predicate_object_list(node)
        self.take(']')
        return node

    def collection(self):
        """[15] collection ::= '(' object* ')'"""
        whole = cell = self.bracket_node()
        self.take('(')
        while cell != NIL:
            self.object(cell, FIRST)
            token = self.scanner.peek()
            rest = NIL if token.kind == ')' else Node('c%d' % token.byte)
            self.state(cell, REST, rest, token.number)
            cell = rest
        self.take(')')
        return whole

    def rdf_literal(self):
        """[128s] RDFLiteral ::= String (LANGTAG | '^^' iri)?; [17] String is one of the four kinds

        What is spelled as '@prefix' or '@base' is a language tag here (a choice).
        """
        token = self.take(*STRINGS)
        quotes = 3 if 'LONG' in token.kind else 1
        value = unescaped(token.text[quotes:-quotes])
        if self.sees('LANGTAG', '@prefix', '@base'):
            return Literal(value, tag=self.take('LANGTAG', '@prefix', '@base').text[1:])
        if self.sees('^^'):
            self.take('^^')
            return Literal(value, self.iri().text)
        return Literal(value)

    def iri(self):
        """[135s] iri ::= IRIREF | PrefixedName; [136s] PrefixedName ::= PNAME_LN | PNAME_NS

        Turtle 6.3: a name is the IRI of its prefix followed by its local part, of which the escapes are replaced (6.4).
        """
        if self.sees('IRIREF'):
            return Iri(self.reference())
        token = self.take('PNAME_LN', 'PNAME_NS')
        prefix, local = token.text.split(':', 1)
        if prefix not in self.namespaces:
            raise Refused('unbound prefix', token.byte, token.number)
        return Iri(self.namespaces[prefix] + re.sub(r'\\(.)', r'\1', local))

    def blank_node(self):
        """[137s] BlankNode ::= BLANK_NODE_LABEL | ANON; [162s] ANON ::= '[' WS* ']'"""
        token = self.take('BLANK_NODE_LABEL', '[')
        if token.kind == 'BLANK_NODE_LABEL':
            return Node('n' + token.text[2:])
        self.take(']')
        return Node('a%d' % token.byte)

    def reference(self):
        """The IRI of an IRIREF, resolved against the base (Turtle 6.3)."""
        token = self.take('IRIREF')
        reference = unescaped(token.text[1:-1])
        if self.base is None and not has_scheme(reference):
            raise Refused('no base', token.byte, token.number)
        return resolve(self.base, reference)

    def sees_property_list(self):
        return self.sees('[') and self.scanner.peek(1).kind != ']'

    def bracket_node(self):
        """The node of the bracket that comes next. A collection is its first cell, or rdf:nil (Turtle 2.8)."""
        bracket, inside = self.scanner.peek(), self.scanner.peek(1)
        if bracket.kind == '[':
            return Node('a%d' % bracket.byte)
        return NIL if inside.kind == ')' else Node('c%d' % inside.byte)

    def state(self, subject, predicate, value, head):
        self.quads.append(Quad(subject, predicate, value, self.graph, head))


class TrigReader(TurtleReader):
    """TriG 4.5, whose other productions are those of Turtle, and TriG 5. Blank nodes have one scope in the whole document (a choice)."""

    def document(self):
        """[1g] trigDoc ::= (directive | block)*"""
        while not self.sees('end'):
            if self.sees('@prefix', '@base', 'PREFIX', 'BASE'):
                self.directive()
            else:
                self.block()

    def block(self):
        """[2g] block ::= triplesOrGraph | wrappedGraph | triples2 | "GRAPH" labelOrSubject wrappedGraph"""
        if self.sees('GRAPH'):
            self.take('GRAPH')
            self.wrapped_graph(self.label_or_subject())
        elif self.sees('{'):
            self.wrapped_graph(None)
        elif self.sees('(') or self.sees_property_list():
            self.triples2()
        else:
            self.triples_or_graph()

    def triples_or_graph(self):
        """[3g] triplesOrGraph ::= labelOrSubject (wrappedGraph | predicateObjectList '.')"""
        label = self.label_or_subject()
        if self.sees('{'):
            self.wrapped_graph(label)
        else:
            self.predicate_object_list(label)
            self.take('.')

    def triples2(self):
        """[4g] triples2 ::= blankNodePropertyList predicateObjectList? '.' | collection predicateObjectList '.'"""
        self.triples()
        self.take('.')

    def wrapped_graph(self, label):
        """[5g] wrappedGraph ::= '{' triplesBlock? '}'; [6g] triplesBlock ::= triples ('.' triplesBlock?)?"""
        self.graph = label
        self.take('{')
        while not self.sees('}'):
            self.triples()
            if not self.sees('.'):
                break
            self.take('.')
        self.take('}')
        self.graph = None

    def label_or_subject(self):
        """[7g] labelOrSubject ::= iri | BlankNode"""
        return self.blank_node() if self.sees('BLANK_NODE_LABEL', '[') else self.iri()


# What is written

def written(term):
    """A term in N-Quads. Of a string only four characters are escaped, and xsd:string is left out (choices)."""
    if isinstance(term, Iri):
        return '<%s>' % term.text
    if isinstance(term, Node):
        return '_:' + term.label
    value = '"%s"' % re.sub(r'["\\\n\r]', lambda found: {'\n': '\\n', '\r': '\\r'}.get(found[0], '\\' + found[0]), term.value)
    if term.tag is not None:
        return value + '@' + term.tag
    return value if term.datatype == XSD + 'string' else '%s^^<%s>' % (value, term.datatype)


def line(quad):
    return ' '.join(written(term) for term in quad[:4] if term is not None) + ' .\n'


READERS = {'nt': LineReader, 'nq': QuadLineReader, 'ttl': TurtleReader, 'trig': TrigReader}


def read(document, form, base=None):
    """What comes of the bytes of a document in one of the formats `nt`, `nq`, `ttl` and `trig`.

    Before a refusal those quads are written of which one token after the head was accepted (a choice). Lines end at LF (a choice).
    """
    reader, refusal = READERS[form](document, base), None
    quads = reader.quads
    try:
        reader.document()
    except Refused as stop:
        refusal = Refusal(stop.reason, stop.byte, 1 + document[:stop.byte].count(b'\n'))
        quads = [quad for quad in quads if quad.head + 1 < stop.number]
    return Outcome(''.join(map(line, quads)).encode('utf-8'), refusal)
