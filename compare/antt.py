"""An interpreter of the computing part of antt, enough to run the definitions in crates/*/specs.

    specs = Specs()
    resolved = specs.function('rdf_iri', 'Resolve', 'resolved')     # a Python function of as many arguments
    resolved(NONE, text_of('a:b'))

A definition is parsed when it is first needed, with what it refers to, and becomes a Python function: its clauses are tried from the top,
and the first that fits gives the result. Relations (types) are not run. What comes from the kit (`take`, `option_map` ..) is the table of
kit.py, but for the modules of the kit that are asked for by path.
"""
import functools
import re
import sys

from kit import BUILTINS, CONSTANTS, CONSTRUCTORS, IN_PYTHON, OPERATORS, Con, Pair, Record
from notation import NoComputation, Parser, clause_parts, logical_lines
from paths import specs_file

sys.setrecursionlimit(1_000_000)


# Modules

class Definition:
    """A definition: the texts of its clauses, and these parsed when they are needed."""

    def __init__(self, module, name):
        self.module, self.name, self.texts = module, name, []
        self.python_name = 'd_%s_%s_%s' % (re.sub(r'\W', '_', module.crate), re.sub(r'\W', '_', module.name), name.replace("'", '_q'))

    @functools.cached_property
    def clauses(self):
        """Pairs of the patterns on the left and the expression on the right."""
        return [self.clause(*parts) for parts in self.texts]

    def clause(self, left, right):
        try:
            patterns = Parser(left, self.module.operators).patterns()
            return patterns, Parser(right, self.module.operators).whole_expression()
        except NoComputation as error:
            raise NoComputation('%s.%s.%s: %s' % (self.module.crate, self.module.name, self.name, error)) from None

    @functools.cached_property
    def arity(self):
        return sum(1 for it in self.clauses[0][0] if it[0] != 'implicit')


class Variants:
    """The variants of a type of the code, which a definition takes as constructors."""

    def lookup(self, name):
        return ('constructor', name)


class Kit:
    """What is taken from the kit by name alone."""

    def lookup(self, name):
        if name in CONSTANTS:
            return ('constant', CONSTANTS[name])
        if name in CONSTRUCTORS:
            return ('constructor', name)
        if name in BUILTINS:
            return ('builtin', name)
        raise NoComputation('the kit\'s `%s` is not known here' % name)


class Module:
    """The definitions of one file, and what it takes from others."""

    def __init__(self, specs, crate, name, text):
        self.specs, self.crate, self.name = specs, crate, name
        self.definitions, self.constructors, self.imports, self.aliases = {}, set(), {}, {}
        self.operators = dict(OPERATORS)
        for lines in logical_lines(text):
            self.read_statement(lines)

    def read_statement(self, lines):
        head = lines[0]
        if re.match(r'(unfoldable )?(pub )?use ', head):
            self.read_import(head)
        elif head.startswith('infix'):
            side, strength, *names = head.split()
            self.operators.update((it.strip('◌'), (int(strength), side[-1])) for it in names)
        elif re.match(r'(pub )?data ', head):
            self.constructors.update(it.split()[0].strip('◌') for it in lines[1:])
        elif not re.match(r'(pub )?(record|mod) ', head):
            parts = clause_parts(head)
            if parts:
                name, left, right = parts
                self.definitions.setdefault(name, Definition(self, name)).texts.append((left, right))

    def read_import(self, line):
        found = re.match(r'(?:unfoldable )?(?:pub )?use (\S+?)(?:\.\{(.*)\}| as (\w+))$', line)
        if not found:
            return
        source = self.specs.source(found[1])
        if found[3]:
            self.aliases[found[3]] = source
            return
        for it in found[2].split(','):
            name, _, other = it.strip().partition(' as ')
            name = name.strip('◌')
            self.imports[other.strip('◌') or name] = (source, name)
            self.operators.update((it, of) for it, of in self.operators_of(source).items() if it == name)

    def operators_of(self, source):
        module = source() if callable(source) else source
        return module.operators if isinstance(module, Module) else {}

    def lookup(self, name):
        """What a name means: ('definition', d), ('constructor', name), ('builtin', name) or ('constant', text)."""
        if name in self.definitions:
            return ('definition', self.definitions[name])
        if name in self.constructors:
            return ('constructor', name)
        if name in self.imports:
            source, other = self.imports[name]
            return (source() if callable(source) else source).lookup(other)
        raise NoComputation('`%s` is not defined in %s.%s' % (name, self.crate, self.name))

    def lookup_in(self, alias, name):
        source = self.aliases[alias]
        return (source() if callable(source) else source).lookup(name)

    def is_constructor(self, name):
        if name in CONSTANTS or name == 'suc':
            return False
        try:
            return self.lookup(name)[0] == 'constructor'
        except NoComputation:
            return False


# From definitions to Python

def curried(count, function):
    """The function of so many arguments as one of one argument, which gives one of one argument .."""
    if count <= 1:
        return function
    return lambda value: curried(count - 1, functools.partial(function, value))


class Translation:
    """A definition as the text of a Python function."""

    def __init__(self, specs, definition):
        self.specs, self.module, self.definition = specs, definition.module, definition

    def text(self):
        arity = self.definition.arity
        lines = ['def %s(%s):' % (self.definition.python_name, ', '.join('a%d' % it for it in range(arity)))]
        for patterns, body in self.definition.clauses:
            tests, names, at = [], {}, 0
            for pattern in patterns:
                if pattern[0] == 'implicit':
                    names[pattern[1]] = 'implicit[%r]' % pattern[1]
                else:
                    self.match(pattern, 'a%d' % at, tests, names)
                    at += 1
            lines.append(' if %s:' % (' and '.join(tests) or 'True'))
            lines += ['  %s = %s' % (local(name), path) for name, path in names.items()]
            lines.append('  return ' + self.python(body, frozenset(names)))
        lines.append(' raise NoClause(%r)' % self.definition.name)
        return '\n'.join(lines)

    def match(self, pattern, path, tests, names):
        """The tests that a value at this place fits the pattern, and where the variables of the pattern are found."""
        sort = pattern[0]
        if sort == 'number':
            tests.append('%s == %d' % (path, pattern[1]))
        elif sort == 'nil':
            tests.append('not ' + path)
        elif sort == 'cons':
            tests.append(path)
            self.match(pattern[1], path + '[0]', tests, names)
            self.match(pattern[2], path + '[1:]', tests, names)
        elif sort == 'constructor' and pattern[1] == 'suc':
            tests.append(path + ' > 0')
            self.match(pattern[2][0], '(%s - 1)' % path, tests, names)
        elif sort == 'constructor':
            tests.append('%s.name == %r' % (path, pattern[1]))
            for at, it in enumerate(pattern[2]):
                self.match(it, '%s.args[%d]' % (path, at), tests, names)
        elif pattern[1] in ('true', 'false'):
            tests.append(path if pattern[1] == 'true' else 'not ' + path)
        elif pattern[1] == 'zero':
            tests.append(path + ' == 0')
        elif self.module.is_constructor(pattern[1]):
            tests.append('%s.name == %r' % (path, pattern[1]))
        elif pattern[1] != '_':
            names[pattern[1]] = path

    def python(self, tree, scope):
        """The text of a Python expression."""
        return getattr(self, 'python_' + tree[0])(scope, *tree[1:])

    def python_number(self, _, number):
        return str(number)

    def python_string(self, _, text):
        return repr(text)

    def python_nil(self, _):
        return '()'

    def python_lambda(self, scope, name, body):
        return '(lambda %s: %s)' % (local(name), self.python(body, scope | {name}))

    def python_if(self, scope, test, one, other):
        return '(%s if %s else %s)' % (self.python(one, scope), self.python(test, scope), self.python(other, scope))

    def python_pair(self, scope, left, right):
        return 'Pair((%s, %s))' % (self.python(left, scope), self.python(right, scope))

    def python_record(self, scope, base, fields):
        parts = ['**' + self.python(base, scope)] if base else []
        return 'Record({%s})' % ', '.join(parts + ['%r: %s' % (name, self.python(it, scope)) for name, it in fields])

    def python_operator(self, scope, operator, left, right):
        texts = self.python(left, scope), self.python(right, scope)
        if operator in IN_PYTHON:
            return IN_PYTHON[operator].format(*texts)
        return 'Con(%r, (%s, %s))' % (operator, *texts)

    def python_field(self, scope, value, name):
        if value[0] == 'name' and value[1] not in scope and value[1] in self.module.aliases:
            return self.meaning(self.module.lookup_in(value[1], name), [])
        return '%s[%s]' % (self.python(value, scope), name if name.isdigit() else repr(name))

    def python_name(self, scope, name):
        return self.applied(scope, ('name', name), [])

    def python_apply(self, scope, function, argument):
        arguments = [argument]
        while function[0] == 'apply':
            arguments.insert(0, function[2])
            function = function[1]
        return self.applied(scope, function, [self.python(it, scope) for it in arguments])

    def applied(self, scope, function, arguments):
        if function[0] == 'name' and function[1] in scope:
            return local(function[1]) + called(arguments)
        if function[0] == 'name':
            return self.meaning(self.module.lookup(function[1]), arguments)
        if function[0] == 'field' and function[1][0] == 'name' and function[1][1] not in scope and function[1][1] in self.module.aliases:
            return self.meaning(self.module.lookup_in(function[1][1], function[2]), arguments)
        return self.python(function, scope) + called(arguments)

    def meaning(self, found, arguments):
        """What stands for a name that is defined, with its arguments."""
        sort, what = found
        if sort == 'constant':
            return what + called(arguments)
        if sort == 'constructor':
            return 'Con(%r, (%s))' % (what, ''.join(it + ', ' for it in arguments)) if arguments else 'Con(%r)' % what
        if sort == 'builtin':
            count, name = BUILTINS[what][0], 'b_' + what
        else:
            self.specs.need(what)
            count, name = what.arity, what.python_name
        if len(arguments) < count:
            return 'curried(%d, %s)%s' % (count, name, called(arguments))
        return '%s(%s)%s' % (name, ', '.join(arguments[:count]), called(arguments[count:]))


def local(name):
    """The Python name of a variable."""
    return 'v_' + name.replace("'", '_q')


def called(arguments):
    return ''.join('(%s)' % it for it in arguments)


class NoClause(Exception):
    """No clause of a definition fits its arguments."""


class BadEdit(Exception):
    """An edit does not apply."""


class Specs:
    """The definitions of all crates, as they stand or with edits.

    An edit is ((crate, module), old, new): the old text, which stands there exactly once, is replaced before the file is read. A path
    of the kit's modules in `kit` is read from its file, instead of the table of builtins.
    """

    def __init__(self, edits=(), kit=None):
        self.edits, self.kit = edits, kit or {}
        self.modules, self.waiting, self.known = {}, [], set()
        self.implicit = {}      # the implicit arguments, by name: the form of a document
        self.python = {'Con': Con, 'Pair': Pair, 'Record': Record, 'NoClause': NoClause, 'curried': curried, 'implicit': self.implicit}
        self.python.update(('b_' + name, function) for name, (_, function) in BUILTINS.items())

    def read(self, crate, module, path):
        with open(path, encoding='utf-8') as file:
            text = file.read()
        for place, old, new in self.edits:
            if place == (crate, module):
                if text.count(old) != 1:
                    raise BadEdit('%r stands %d times in %s %s' % (old, text.count(old), crate, module))
                text = text.replace(old, new)
        return text

    def module(self, crate, name):
        if (crate, name) not in self.modules:
            path = self.kit[crate + '.' + name] if crate + '.' + name in self.kit else specs_file(crate, name)
            self.modules[crate, name] = Module(self, crate, name, self.read(crate, name, path))
        return self.modules[crate, name]

    def source(self, path):
        """Where the names of an import are looked up: a module, by a call, or what stands for the kit."""
        if path in self.kit:
            return lambda: self.module(*path.rsplit('.', 1))
        parts = path.split('.')
        if parts[0] != 'Rattle' or not parts[1].startswith('rdf_'):
            return Variants() if 'TheVariants' in parts else Kit()
        if parts[3] == 'declared':
            return Variants()
        return lambda: self.module(parts[1], parts[3])

    def definition(self, crate, module, name):
        """A definition that stands in the module, or that it takes from another."""
        sort, found = self.module(crate, module).lookup(name)
        if sort != 'definition':
            raise NoComputation('`%s` of %s.%s is no definition' % (name, crate, module))
        return found

    def need(self, definition):
        """Notes that a definition has to be translated."""
        if definition.python_name not in self.known:
            self.known.add(definition.python_name)
            self.waiting.append(definition)

    def function(self, crate, module, name):
        """The definition as a Python function of as many arguments as its clauses have; one without arguments is its value."""
        definition = self.definition(crate, module, name)
        self.need(definition)
        while self.waiting:
            it = self.waiting.pop()
            if it.python_name not in self.python:
                exec(Translation(self, it).text(), self.python)     # nothing but the text of the definitions, as translated above
                if it.arity == 0:
                    self.python[it.python_name] = functools.cache(self.python[it.python_name])
        found = self.python[definition.python_name]
        return found if definition.arity else found()

    def remember(self, crate, module, name):
        """Has each answer of a definition computed once."""
        function = self.function(crate, module, name)
        self.python[self.definition(crate, module, name).python_name] = functools.cache(function)

    def replace(self, crate, module, name, function):
        """Puts a Python function in place of a definition, for speed."""
        definition = self.definition(crate, module, name)
        self.known.add(definition.python_name)
        self.python[definition.python_name] = function
