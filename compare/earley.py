"""A recogniser of the Recommendations' productions by Earley's method: how far some tokens begin a document, and what may come next."""
from automata import Automaton
from ebnf import letters_in
from productions import whole_grammar


# Of the kinds that may come next the one that is taken to come to the end of a document soon.
CLOSERS = ['End', 'Dot', 'CloseBrace', 'CloseBracket', 'CloseParen', 'IriRef', 'OpenBrace', 'PnameNs', 'A']
TEXTS = {'IriRef': '<a:>', 'PnameNs': ':', 'A': 'a', 'End': '', 'Dot': '.', 'CloseBrace': '}', 'OpenBrace': '{', 'CloseBracket': ']',
         'CloseParen': ')'}


class Recogniser:
    """The productions of a grammar, each as an automaton over kinds and names of productions."""

    def __init__(self, grammar):
        rules = whole_grammar(grammar)
        self.steps, self.accepts = {}, {}
        for name, right in rules.items():
            letters = sorted(letters_in(right))
            automaton = Automaton(right, len(letters), lambda it: 1 << letters.index(it))
            self.accepts[name] = automaton.accepts
            self.steps[name] = [[(letter, after) for letter, after in zip(letters, row) if automaton.accepts[after] or automaton.goes_on[after]]
                                for row in automaton.rows]
        self.empty = {name for name, accepts in self.accepts.items() if accepts[0]}


class Chart:
    """What is known after some tokens that begin a document: items of a production, its state, and where it began."""

    def __init__(self, recogniser):
        self.of = recogniser
        self.sets = [self.closed([('document', 0, 0)], 0)]

    def closed(self, items, here):
        found, waiting = set(items), list(items)

        def add(item):
            if item not in found:
                found.add(item)
                waiting.append(item)
        while waiting:
            name, state, began = waiting.pop()
            for letter, after in self.of.steps[name][state]:
                if letter in self.of.steps:
                    add((letter, 0, here))
                    if letter in self.of.empty:
                        add((name, after, began))
            if self.of.accepts[name][state] and began < here:
                for outer, at, start in self.sets[began]:
                    for letter, after in self.of.steps[outer][at]:
                        if letter == name:
                            add((outer, after, start))
        return found

    def take(self, kind):
        """Whether the tokens begin a document with this one after them; if so it is taken."""
        moved = [(name, after, began) for name, state, began in self.sets[-1] for letter, after in self.of.steps[name][state] if letter == kind]
        if moved:
            self.sets.append(self.closed(moved, len(self.sets)))
        return bool(moved)

    def next_kinds(self):
        return {letter for name, state, _ in self.sets[-1] for letter, _ in self.of.steps[name][state] if letter not in self.of.steps}

    def ends(self):
        return any(name == 'document' and began == 0 and self.of.accepts[name][state] for name, state, began in self.sets[-1])

    def completion(self):
        """Kinds with which the tokens are a document; they are taken."""
        found = []
        while not self.ends():
            kinds = self.next_kinds()
            found.append(next(it for it in CLOSERS if it in kinds))
            self.take(found[-1])
        return found


def first_refused(recogniser, kinds):
    """The number of the first token with which no document begins, or None; and the chart of those before it."""
    chart = Chart(recogniser)
    for number, kind in enumerate(kinds):
        if not chart.take(kind):
            return number, chart
    return None, chart
