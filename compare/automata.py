"""Finite automata, made from expressions: whether two languages are equal, and if not, a shortest word that is in one alone.

The letters of an alphabet are numbers from 0; a label is the set of the letters that it stands for, as the bits of a number.
"""
import functools
from collections import deque


class Automaton:
    """The deterministic automaton of an expression. `rows[state][letter]` is the next state; state 0 is the first.

    `helpers` are expressions by name, of which each use is the last thing in an expression: such a name may stand as a label, and
    stands for its expression, also within itself.
    """

    def __init__(self, expression, size, mask, helpers=()):
        self.size, self.mask, self.helpers = size, mask, dict(helpers)
        self.silent, self.moves, self.entered = [], [], {}
        first, self.last = self.state(), self.state()
        self.add(expression, first, self.last)
        self.determine(self.closure([first]))

    def state(self):
        self.silent.append([])
        self.moves.append([])
        return len(self.silent) - 1

    def add(self, expression, start, end):
        """Adds ways from the start to the end for the words of the expression."""
        sort, parts = expression[0], expression[1:]
        if sort == 'empty':
            self.silent[start].append(end)
        elif sort == 'letter' and parts[0] in self.helpers:
            self.silent[start].append(self.entry(parts[0], end))
        elif sort == 'letter':
            self.moves[start].append((self.mask(parts[0]), end))
        elif sort == 'sequence':
            middle = end if parts[1] == ('empty',) else self.state()
            self.add(parts[0], start, middle)
            if middle != end:
                self.add(parts[1], middle, end)
        elif sort == 'choice':
            self.add(parts[0], start, end)
            self.add(parts[1], start, end)
        elif sort == 'many':
            middle = self.state()
            self.silent[start].append(middle)
            self.silent[middle].append(end)
            self.add(parts[0], middle, middle)

    def entry(self, name, end):
        """The state from which a helper leads to the end."""
        if (name, end) not in self.entered:
            self.entered[name, end] = self.state()
            self.add(self.helpers[name], self.entered[name, end], end)
        return self.entered[name, end]

    def closure(self, states):
        found, waiting = set(states), list(states)
        while waiting:
            for it in self.silent[waiting.pop()]:
                if it not in found:
                    found.add(it)
                    waiting.append(it)
        return frozenset(found)

    def determine(self, first):
        numbers, order = {first: 0}, [first]
        self.rows, self.accepts = [], []
        for states in order:
            self.accepts.append(self.last in states)
            moves = [it for state in states for it in self.moves[state]]
            row, known = [], {}
            for letter in range(self.size):
                taken = frozenset(end for mask, end in moves if mask >> letter & 1)
                if taken not in known:
                    after = self.closure(taken)
                    if after not in numbers:
                        numbers[after] = len(order)
                        order.append(after)
                    known[taken] = numbers[after]
                row.append(known[taken])
            self.rows.append(row)

    @functools.cached_property
    def goes_on(self):
        """For each state whether a word that is not empty leads from it to one that accepts."""
        into = [set() for _ in self.rows]
        for state, row in enumerate(self.rows):
            for after in set(row):
                into[after].add(state)
        found, waiting = set(), [it for it, accepts in enumerate(self.accepts) if accepts]
        while waiting:
            for it in into[waiting.pop()]:
                if it not in found:
                    found.add(it)
                    waiting.append(it)
        return [it in found for it in range(len(self.rows))]


def first_states(one, other, is_wanted):
    """The states of both automata, and the letters of a shortest word that leads to them, where they are first as wanted; or None."""
    came, waiting = {(0, 0): None}, deque([(0, 0)])
    while waiting:
        states = waiting.popleft()
        if is_wanted(one.accepts[states[0]], other.accepts[states[1]]):
            return states, way_to(came, states)
        for letter, after in enumerate(zip(one.rows[states[0]], other.rows[states[1]])):
            if after not in came:
                came[after] = states, letter
                waiting.append(after)
    return None


def way_to(came, states):
    word = []
    while came[states] is not None:
        states, letter = came[states]
        word.append(letter)
    return word[::-1]


def difference(one, other):
    """The letters of a shortest word that one of the two accepts and the other does not, and whether it is the first that accepts it.

    None where their languages are equal.
    """
    found = first_states(one, other, lambda a, b: a != b)
    return found and (found[1], one.accepts[found[0][0]])


def common_word(one, other):
    """The letters of a shortest word that both accept, or None."""
    found = first_states(one, other, lambda a, b: a and b)
    return found and found[1]


def told(found, what, text):
    """None where nothing differs, or what differs, and who alone has which text."""
    return None if found is None else '%s: %s alone has %s' % (what, 'the definition' if found[1] else 'the grammar', text(found[0]))
