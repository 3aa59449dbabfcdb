"""Whole documents: what the definitions make of them, and what the independent reader does.

The relations of documents (`documents`, `Refused`, `Due`) say that there is a tree; here it is found, by the definitions' own clauses,
and where the tokens are no document, after a completion of those that begin one. Which begin one an Earley recogniser over the
Recommendations' productions says.
"""
import functools
import random
from collections import namedtuple

import cases
import documents
import reader
from earley import TEXTS, Chart, Recogniser, first_refused
from kit import Con, NONE, Record, some, string_of, text_of, value_in
from productions import LineGrammar, TreeGrammar, TreeParser
from scanning import NO_LIMIT, REASONS, put_fast_words, scan_by_definitions, scan_by_reader, with_lines
from values import form as written_form

Format = namedtuple('Format', 'dialect grammar style')
FORMATS = {'nt': Format('Lines', 'N-Triples', 'Kept'), 'nq': Format('Lines', 'N-Quads', 'Kept'), 'ttl': Format('Turtle', 'Turtle', 'Tagged'),
           'trig': Format('Turtle', 'TriG', 'Tagged')}
LIMITS = Record({'token': NO_LIMIT, 'depth': NO_LIMIT, 'bindings': NO_LIMIT, 'iri': NO_LIMIT})
FAR = 10**9     # the offset of tokens that complete a document

# What is made of a document: a refusal as the reader says it, or None; the quads with their marks; how many tokens were accepted, and a
# tree of a document that begins with them, or that is it
Outcome = namedtuple('Outcome', 'refusal quads accepted tree')


class Wrong(Exception):
    """The definitions do not fit each other."""


class Definitions:
    """The definitions that a reading of documents needs."""

    def __init__(self, specs):
        put_fast_words(specs)
        self.specs = specs
        names = {
            'rdf_tokens.Good': ['tokens_of'], 'rdf_tokens.Leaves': ['iri_of'], 'rdf_terms.Terms': ['has_scheme'],
            'rdf_tokens.Grammars': ['items_below', 'unmarked'], 'rdf_lines.NodePrefixes': ['text_in', 'named'],
            'rdf_trig.Events': ['document_events', 'event_quads'], 'rdf_trig.Documents': ['opens', 'open_in'],
            'rdf_trig.Owed': ['document_held'], 'rdf_iri.Texts': ['byte_len']}
        for module, some_names in names.items():
            for name in some_names:
                setattr(self, name, specs.function(*module.split('.'), name))
        self.line_tokens, self.line_quads = (specs.function('rdf_lines', 'Lines', it) for it in ('document_tokens', 'document_quads'))
        self.tree_tokens = specs.function('rdf_trig', 'TreeTokens', 'document_tokens')
        self.tree_quads = specs.function('rdf_trig', 'TreeQuads', 'document_quads')
        self.event_tokens = specs.function('rdf_trig', 'Events', 'tokens')
        self.grammars = {it.grammar: LineGrammar(specs, 'rdf_lines', 'Lines', it.grammar) if it.dialect == 'Lines' else
                         TreeGrammar(specs, 'rdf_trig', 'TreeTokens', it.grammar) for it in FORMATS.values()}

    def read(self, document, name, base=None, limits=LIMITS):
        """The outcome of a document of a format."""
        form = FORMATS[name]
        reading = self.tokens_of(Con(form.dialect), NO_LIMIT, tuple(document), True)
        tokens = list(reading['tokens'])
        number, chart = first_refused(recogniser(form.grammar), [it['kind'].name for it in tokens])
        accepted = tokens[:number]
        tree = self.tree_of(accepted + completion(chart), form)
        start = scope(base, limits)
        blamed = self.blamed_in_lines(accepted, limits) if form.dialect == 'Lines' else self.blamed(accepted, tree, start)
        quads = self.marked_quads(tree, form, start)
        if blamed is None and number is not None:
            blamed = number, 'unexpected token'
        if blamed is not None:
            at = tokens[blamed[0]]['at']
            return Outcome((blamed[1], at['offset'], at['line']), quads, blamed[0], tree)
        if reading['outcome'].name != 'complete':
            return Outcome((REASONS[reading['outcome'].name], reading['at']['offset'], reading['at']['line']), quads, len(tokens), tree)
        return Outcome(None, quads, len(tokens), tree)

    def tree_of(self, tokens, form):
        """The tree that derives the tokens; that it does is what the definition of its tokens says."""
        self.specs.implicit['form'] = Con(form.grammar)
        tree = TreeParser(self.grammars[form.grammar], tokens).tree()
        tokens_of_tree = self.line_tokens if form.dialect == 'Lines' else self.tree_tokens
        if tree is None or list(tokens_of_tree(tree)) != tokens:
            raise Wrong('no tree derives %s' % [it['kind'] for it in tokens])
        return tree

    def marked_quads(self, tree, form, start):
        if form.dialect == 'Lines':
            return self.line_quads(0, tree)
        events = self.document_events(start, tree)
        quads = self.event_quads(0, events)
        if self.event_tokens(events) != self.tree_tokens(tree) or self.tree_quads(start, 0, tree) != quads:
            raise Wrong('the tokens or the quads of a tree are not those of its events')
        return quads

    def blamed_in_lines(self, tokens, limits):
        """The number of the first token that spells an IRI without a scheme, or a long one, with the reason (`Blamed` of rdf_lines)."""
        for number, token in enumerate(tokens):
            if token['kind'].name == 'IriRef':
                iri = self.iri_of(token)
                if not self.has_scheme(iri):
                    return number, 'relative IRI'
                if self.byte_len(iri) > limits['iri']:
                    return number, 'IRI too long'
        return None

    def blamed(self, tokens, tree, start):
        """The number of the first token that stands for no IRI or passes a limit, with the reason (`RefusedFor` of rdf_trig)."""
        uses = [event.args for event in self.document_events(start, tree) if event.name == 'Took'][:len(tokens)]
        for number, (token, use) in enumerate(uses):
            reason = self.reason(token, use, start['limits'], tuple(tokens[:number + 1]))
            if reason:
                return number, reason
        return None

    def reason(self, token, use, limits, ahead):
        """Why the token is refused that stands for this, the last of some tokens (`Blamed`, `IsDeep`, `IsLong`, `IsOneMore`)."""
        if use.args and use.args[-1] == NONE:
            return 'no base' if token['kind'].name == 'IriRef' else 'unbound prefix'
        if self.opens(token['kind']) == 1 and limits['depth'] < self.open_in(ahead):
            return 'too deep'
        if use.args and self.byte_len(value_in(use.args[-1])) > limits['iri']:
            return 'IRI too long'
        return 'too many bindings' if use.name == 'binds' and use.args[0] else None

    def lines(self, quads, form):
        """The bytes that are written for some quads."""
        return string_of(self.text_in(form, tuple(quads))).encode()


@functools.cache
def recogniser(grammar):
    return Recogniser(grammar)


def completion(chart):
    return [Record({'kind': Con(kind), 'text': text_of(TEXTS[kind]), 'at': Record({'offset': FAR + number, 'line': 1})})
            for number, kind in enumerate(chart.completion())]


def scope(base, limits=LIMITS):
    return Record({'base': some(text_of(base)) if base else NONE, 'bindings': (), 'limits': limits})


def made_documents(seed, form, many, longest=700):
    """Documents of a format with their bases, as the independent reader's folder makes them."""
    number = found = 0
    while found < many:
        document, base = documents.make('definitions %s %d' % (seed, number), form)
        number += 1
        if len(document) <= longest:
            found += 1
            yield document, base if FORMATS[form].dialect == 'Turtle' else None


def compare_viable(specs, seed, many):
    """The first token with which no tree begins: those before it have a tree, after a completion, and with it none is found."""
    definitions = Definitions(specs)
    chosen = random.Random('viable %s' % seed)
    for form in FORMATS.values():
        kinds = sorted({it for steps in recogniser(form.grammar).steps.values() for step in steps for it, _ in step
                        if it not in recogniser(form.grammar).steps} - {'End'})
        for _ in range(many):
            chart, taken = Chart(recogniser(form.grammar)), []
            for _ in range(chosen.randint(1, 14)):
                kind = chosen.choice(kinds if chosen.random() < .1 else sorted(chart.next_kinds() - {'End'}) or kinds)
                if not chart.take(kind):
                    yield viable_difference(definitions, form, taken + [kind])
                    break
                taken.append(kind)
            tokens = [Record({'kind': Con(it), 'text': text_of(TEXTS.get(it, '')), 'at': Record({'offset': at, 'line': 1})}) for at, it in
                      enumerate(taken)]
            try:
                definitions.tree_of(tokens + completion(chart), form)
                yield None
            except Wrong as error:
                yield '%s: %s' % (form.grammar, error)


def viable_difference(definitions, form, kinds):
    """A tree that begins with kinds of which the recogniser refuses the last, or None: some completions are tried."""
    chart = Chart(recogniser(form.grammar))
    for it in kinds[:-1]:
        chart.take(it)
    ends = [kinds[:-1] + [kinds[-1], *rest] for rest in ([], ['End'], *([it, 'End'] for it in sorted(chart.next_kinds())), ['Dot', 'End'])]
    for it in ends:
        tokens = [Record({'kind': Con(kind), 'text': (), 'at': Record({'offset': at, 'line': 1})}) for at, kind in enumerate(it)]
        if TreeParser(definitions.grammars[form.grammar], tokens).tree() is not None:
            return '%s: a tree derives %s' % (form.grammar, it)
    return None


def compare_documents(specs, seed, form, many):
    """Tokens, quads with their marks, and refusals with the lines before them, of the definitions and of the reader."""
    definitions = Definitions(specs)
    for document, base in made_documents(seed, form, many):
        found = scan_by_definitions(definitions.tokens_of, document, FORMATS[form].dialect)
        yield difference('tokens', document, form, base, found, with_lines(document, scan_by_reader(document, FORMATS[form].dialect)))
        try:
            yield reading_difference(definitions, document, form, base)
        except Wrong as error:
            yield '%s of %r: %s' % (form, document, error)


def difference(what, document, form, base, found, wanted):
    return None if found == wanted else '%s of %r, %s, base %s: %s, not %s' % (what, document, form, base, found, wanted)


def reading_difference(definitions, document, form, base):
    found = definitions.read(document, form, base)
    wanted = reader.read(document, form, base)
    style = written_form(FORMATS[form].style)
    if found.refusal:
        due = definitions.items_below(found.accepted, found.quads)
        wanted = wanted.lines, wanted.refusal and tuple(wanted.refusal)
        return difference('refusal', document, form, base, (definitions.lines(due, style), found.refusal), wanted)
    by_reader = reader.READERS[form](document, base)
    try:
        by_reader.document()
    except reader.Refused as stop:
        return difference('outcome', document, form, base, 'accepted', stop.reason)
    lines = [(definitions.lines([it['item']], style), it['mark']) for it in found.quads]
    return difference('quads', document, form, base, lines, [(reader.line(it).encode(), it.head + 1) for it in by_reader.quads])


def compare_cases(specs):
    """The documents written by hand of the independent reader's folder, with what has to come of each."""
    definitions = Definitions(specs)
    for case in cases.cases():
        found = definitions.read(case.document, case.form)
        lines = definitions.lines(definitions.unmarked(found.quads), written_form(FORMATS[case.form].style))
        said = (None, found.refusal[:2]) if found.refusal else (lines, None)
        yield difference('case', case.document, case.form, None, said, (case.lines, case.refusal))


def compare_read_back(specs, seed, form, many):
    """The lines that are written for a document, in each form, are a document of N-Quads with its quads, renamed."""
    definitions = Definitions(specs)
    for document, base in made_documents('back %s' % seed, form, many):
        outcome = definitions.read(document, form, base)
        if outcome.refusal:
            continue
        quads = definitions.unmarked(outcome.quads)
        for style in (written_form(FORMATS[form].style, escapes, prefix) for escapes in ('Plain', 'Ascii') for prefix in ('', 'a1')):
            written = definitions.lines(quads, style)
            back = definitions.read(written, 'nq')
            is_right = back.refusal is None and definitions.unmarked(back.quads) == tuple(definitions.named(style, it) for it in quads)
            is_ascii = style['escapes'].name == 'Plain' or written.isascii() or not all(label.isascii() for label in labels_in(quads))
            yield None if is_right and is_ascii else 'lines of %r, %s, as %s: %r are read as %s' % (document, form, style, written, back)


def labels_in(value):
    """The labels of blank nodes in quads."""
    if isinstance(value, Con) and value.name == 'Label':
        yield string_of(value.args[0])
    elif isinstance(value, (Con, dict, tuple)):
        for part in value.args if isinstance(value, Con) else value.values() if isinstance(value, dict) else value:
            yield from labels_in(part)


# What is owed

class Nil(reader.Iri):
    """rdf:nil as a collection without items means it: no token spells it."""


class EitherReader(reader.TrigReader):
    """The independent reader of Turtle or of TriG."""

    def __init__(self, document, form, base):
        super().__init__(document, base)
        self.form = form

    def block(self):
        if self.form == 'ttl':
            self.triples()
            self.take('.')
        else:
            super().block()


class OwingReader(EitherReader):
    """Notes which tokens a subject and a verb are owed after: from the verb up to the end of the predicate list, or of the objects.

    A token's number is counted from 1.
    """

    def __init__(self, document, form, base):
        super().__init__(document, form, base)
        self.owed = []

    def collection(self):
        found = super().collection()
        return Nil(found.text) if found == reader.NIL else found

    def verb(self):
        self.verb_is_word = self.sees('a')
        return super().verb()

    def predicate_object_list(self, subject):
        first = self.scanner.peek().number + 1
        super().predicate_object_list(subject)
        self.owed.append((first, self.taken.number + 1, size_of(subject)))

    def object_list(self, subject, verb):
        first, size = self.taken.number + 1, 0 if self.verb_is_word else size_of(verb)
        super().object_list(subject, verb)
        self.owed.append((first, self.taken.number + 1, size))


def size_of(term):
    """The bytes of the text that a token spells for the term: an IRI, or the label of a node."""
    if isinstance(term, Nil):
        return 0
    text = term.text if isinstance(term, reader.Iri) else term.label[1:] if term.label.startswith('n') else ''
    return len(text.encode())


def owed_by_reader(document, form, base, count):
    """The bytes that are owed after each token, or None where the document is refused."""
    by_reader = OwingReader(document, form, base)
    try:
        by_reader.document()
    except reader.Refused:
        return None
    return tuple(sum(size for first, last, size in by_reader.owed if first <= number <= last) for number in range(1, count + 1))


def compare_owed(specs, seed, form, many):
    """`document_held` after each token of documents, nothing counted of the scope, with what the reader notes of its predicate lists."""
    definitions = Definitions(specs)
    for document, base in made_documents('owed %s' % seed, form, many):
        outcome = definitions.read(document, form, base)
        if outcome.refusal is None:
            found = definitions.document_held(lambda scope: 0, scope(base), outcome.tree)
            yield difference('what is owed', document, form, base, found, owed_by_reader(document, form, base, outcome.accepted))


# Limits

class LimitedReader(EitherReader):
    """The independent reader with limits on open brackets, bytes of IRIs, and bound prefixes.

    A bracket over the limit is refused before what stands in it is looked at.
    """

    def __init__(self, document, form, base, limits):
        super().__init__(document, form, base)
        self.limits, self.depth, self.prefix = limits, 0, None

    def is_too_deep(self):
        return self.sees('[', '(') and self.depth == self.limits['depth']

    def sees_property_list(self):
        return not self.is_too_deep() and super().sees_property_list()

    def bracket_node(self):
        if self.is_too_deep():
            self.take('[', '(')
        return super().bracket_node()

    def take(self, *kinds):
        token = super().take(*kinds)
        self.depth += (token.kind in ('[', '(')) - (token.kind in (']', ')'))
        if self.depth > self.limits['depth']:
            raise reader.Refused('too deep', token.byte, token.number)
        return token

    def iri(self):
        return self.short(super().iri())

    def reference(self):
        found = super().reference()
        self.short(reader.Iri(found))
        if self.prefix is not None and self.prefix not in self.namespaces and len(self.namespaces) >= self.limits['bindings']:
            raise reader.Refused('too many bindings', self.taken.byte, self.taken.number)
        self.prefix = None
        return found

    def short(self, iri):
        if len(iri.text.encode()) > self.limits['iri']:
            raise reader.Refused('IRI too long', self.taken.byte, self.taken.number)
        return iri

    def directive(self):
        if self.sees('@prefix', 'PREFIX') and self.scanner.peek(1).kind == 'PNAME_NS':
            self.prefix = self.scanner.peek(1).text[:-1]
        super().directive()


class LimitedLines(reader.QuadLineReader):
    """The same of N-Quads and N-Triples, which have a limit on IRIs alone."""
    short = LimitedReader.short

    def __init__(self, document, limits, has_graphs):
        super().__init__(document, None)
        self.limits, self.has_graphs = limits, has_graphs

    def iri(self):
        return self.short(super().iri())


def read_within(document, form, base, limits):
    """The lines and the refusal, as the reader's `read` says them."""
    if FORMATS[form].dialect == 'Lines':
        by_reader = LimitedLines(document, limits, form == 'nq')
    else:
        by_reader = LimitedReader(document, form, base, limits)
    refusal, quads = None, by_reader.quads
    try:
        by_reader.document()
    except reader.Refused as stop:
        refusal = stop.reason, stop.byte, 1 + document[:stop.byte].count(b'\n')
        quads = [it for it in quads if it.head + 1 < stop.number]
    return ''.join(map(reader.line, quads)).encode(), refusal


def compare_limits(specs, seed, form, many):
    """Refusals with small limits, and the lines before them."""
    definitions = Definitions(specs)
    chosen = random.Random('limits %s' % seed)
    for document, base in made_documents('limits %s' % seed, form, many):
        limits = Record({'token': NO_LIMIT, 'depth': chosen.choice([0, 1, 1, 2, NO_LIMIT]), 'bindings': chosen.choice([0, 1, 1, 2, NO_LIMIT]),
                         'iri': chosen.choice([8, 16, 24, 40, NO_LIMIT])})
        base = None if base and len(base) > limits['iri'] else base
        outcome = definitions.read(document, form, base, limits)
        quads = definitions.items_below(outcome.accepted, outcome.quads) if outcome.refusal else definitions.unmarked(outcome.quads)
        found = definitions.lines(quads, written_form(FORMATS[form].style)), outcome.refusal
        yield difference('limits %s' % dict(limits), document, form, base, found, read_within(document, form, base, limits))
