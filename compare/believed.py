#!/usr/bin/env python3
"""Counts what has to be believed, by definition: whatever the contracts of public calls cite, and what these definitions cite in turn.

    compare/believed.py              the lines for `convert`, and for all public calls, by crate
    compare/believed.py --list       each definition with its lines, those of `convert` first
    compare/believed.py --groups     what a public contract cites and specs/Lib.antt does not list as to be believed, and the reverse

A line is one of code: comments, imports and lines with nothing are not counted. A definition is counted once, with its type and all its
clauses; what cites a constructor cites its type. A name that a file hands on (`pub use`) is that of the file which defines it. What
stands in std's libraries, and the types of the code (`declared`), are not counted. The two groups are those of specs/Lib.antt: the
second has functions that compute what a relation of the first determines, and is counted apart.
"""
import collections
import glob
import os
import re
import sys

TOP = os.path.join(os.path.dirname(os.path.abspath(__file__)), os.pardir)
WORD = re.compile(r"[^\s(){}\[\];,.λ:→×≡≤<+]+(?:\.[^\s(){}\[\];,.λ:→×≡≤<+]+)*")
BEGINS = re.compile(r'(?:(?:abbrev|opaque|unfoldable|private|irreducible|pub|record|data|type|mutual|axiom|structure|inductive) +)*([^\s:({]+)')
IMPORTS = ('use ', 'pub use ', 'unfoldable pub use ')
KEYWORDS = IMPORTS + ('module ', 'mod ', 'pub mod ', 'mutual', '}', ')', '--', '#')
MEMBER = re.compile(r'(?:pub )?([^\s:({]+) :')


def read(path):
    with open(path, encoding='utf-8') as f:
        return f.read()


def code(path):
    """The lines of code of a file, without comments."""
    for line in read(path).split('\n'):
        line = re.sub(r'(^|\s)--( .*)?$', '', line).rstrip()
        if line.strip():
            yield line


class File:
    """The definitions of a file of specs: how many lines each has, and the words in it; of which type each constructor and field is; and
    what the file brings from others."""

    def __init__(self, path):
        self.lines, self.words, self.names, self.modules = collections.Counter(), collections.defaultdict(set), {}, {}
        self.owners = {}
        name, depth, is_head, is_type = None, 0, False, False
        for line in code(path):
            text = line.strip()
            indent = len(line) - len(line.lstrip())
            if text.startswith(IMPORTS):
                self.bring(text)
                continue
            if text.startswith('infix'):
                continue
            if text.startswith('module ') or is_head:
                name, depth, is_head = None, 2, not text.endswith('where')
                continue
            if text.startswith(('mutual', 'abbrev mutual')):
                name, depth = None, indent + 2
                continue
            if indent < depth:
                depth = 0
            if indent == depth and not text.startswith(KEYWORDS):
                name = BEGINS.match(text)[1]
                is_type = re.match(r'(?:pub )?(?:data|record) ', text)
            elif is_type and MEMBER.match(text):
                self.owners[MEMBER.match(text)[1]] = name
            if not name:
                sys.exit('%s: no definition is known that this line belongs to: %s' % (path, text))
            self.lines[name] += 1
            self.words[name].update(WORD.findall(text))

    def bring(self, text):
        found = re.match(r'(?:unfoldable )?(?:pub )?use (?:Rattle\.)?([\w.]+?)(?:\.\{(.*)\}| as (\w+))?$', text)
        if not found:
            return
        module, names, known_as = found.groups()
        if known_as:
            self.modules[known_as] = module
        for name in re.split(r', *', names or ''):
            own, _, other = name.partition(' as ')
            self.names[other or own] = (module, own)


FILES = {}
for path in glob.glob(os.path.join(TOP, 'crates', '*', 'specs', '*.antt')):
    crate, name = path.split(os.sep)[-3], os.path.basename(path)[:-5]
    if name != 'Lib':
        FILES['%s.specs.%s' % (crate, name)] = File(path)


def meant(scope, word):
    """The definition that a word of a file means, as module and name, or None."""
    parts = word.split('.')
    if parts[0] in scope.modules and len(parts) > 1:
        module, name = scope.modules[parts[0]], parts[1]
    elif parts[0] in scope.names:
        module, name = scope.names[parts[0]]
    else:
        return None
    return defined(module, name)


def defined(module, name):
    """The definition that a module has under a name, its own or one that it hands on, or None."""
    if module not in FILES:
        module, _, name = module.rpartition('.')
        if module not in FILES:
            return None
    file = FILES[module]
    if name in file.lines:
        return module, name
    if name in file.owners:
        return module, file.owners[name]
    return defined(*file.names[name]) if name in file.names else None


def closure(begun):
    """These definitions, and all that they cite."""
    found, left = set(), list(begun)
    while left:
        it = left.pop()
        if it in found:
            continue
        found.add(it)
        file = FILES[it[0]]
        for word in file.words[it[1]]:
            first = word.split('.')[0]
            if first in file.lines:
                left.append((it[0], first))
            elif first in file.owners:
                left.append((it[0], file.owners[first]))
            other = meant(file, word)
            if other:
                left.append(other)
    return found


class Scope:
    """What a file of code brings for its clauses."""

    def __init__(self, text):
        self.names, self.modules = {}, {}
        for it in re.findall(r'^\s*ghost (use .*);', text, re.M):
            File.bring(self, it)


def exported(crate):
    """The names that a crate's root brings for other crates, and its public modules."""
    root = read(os.path.join(TOP, 'crates', crate, 'src', 'lib.rt')) if crate != 'rdf_tool' else ''
    names = set(re.findall(r'\w+', ' '.join(re.findall(r'^pub use (?!\w+::\w+::)?[\w:]*::(\{[^}]*\}|\w+);', root, re.M))))
    return names, set(re.findall(r'^pub mod (\w+);', root, re.M))


def contracts(path):
    """Of each function and trait of a file of code: its name, whether other crates can call it, and the definitions that its clauses cite."""
    text = read(path)
    scope = Scope(text)
    crate = path.split(os.sep + 'crates' + os.sep)[1].split(os.sep)[0]
    names, modules = exported(crate)
    is_open = os.path.basename(path)[:-3] in modules or os.path.basename(path) == 'lib.rt'
    owner, is_trait = None, False
    for block in re.split(r'\n(?=\s*(?:#\[[^\n]*\]\s*)*(?:pub(?:\([a-z]+\))? )?(?:const )?(?:fn|trait|impl|struct|enum)\b)', text):
        head = re.search(r'(pub(?:\([a-z]+\))? )?(?:const )?(fn|trait|impl|struct|enum)\b(?:<[^>]*>)? *(\w*)', block)
        if not head:
            continue
        if head[2] != 'fn':
            owner = (re.search(r'impl\b(?:<[^{]*?>)? (?:[\w<>\' ,:+]*? for )?(\w+)', block) or head)[1 if head[2] == 'impl' else 3]
            is_trait = head[2] == 'trait'
            if head[2] == 'impl':
                is_trait = False
        is_public = (is_trait and owner in names) or (head[2] == 'fn' and head[1] == 'pub ' and (
            is_open or head[3] in names or (block[:1].isspace() and owner in names)))
        is_public = is_public or (head[2] == 'impl' and bool(re.search(r'\bDefault for \w', block)) and owner in names)
        clauses = ' '.join(re.findall(r'(?:requires|ensures|ghost)\b[^{]*\{(.*?)\}(?=\s*(?:\n|;|$|requires|ensures))', block, re.S))
        cited = {meant(scope, it) for it in WORD.findall(clauses)} - {None}
        yield head[3], is_public, cited


def cited_by(wanted=None):
    """What the public contracts cite: those of all crates that users call, or of the calls of this name in rdf_stream."""
    found = set()
    for path in glob.glob(os.path.join(TOP, 'crates', 'rdf_*', 'src', '**', '*.rt'), recursive=True):
        crate = path.split(os.sep + 'crates' + os.sep)[1].split(os.sep)[0]
        if crate.endswith('_tests') or (wanted and crate != 'rdf_stream'):
            continue
        for name, is_public, cited in contracts(path):
            if is_public and wanted in (None, name):
                found |= cited
    return found


def size(definitions):
    return sum(FILES[module].lines[name] for module, name in definitions)


def split(definitions):
    """Those of the first group, and those of the second."""
    believed = listed()
    first = {it for it in definitions if it[0] in believed}
    return first, definitions - first


def by_crate(definitions):
    found = collections.Counter()
    for module, name in definitions:
        found[module.split('.')[0]] += FILES[module].lines[name]
    return found


def listed():
    """The files that have to be believed, as specs/Lib.antt of each crate lists them."""
    found = set()
    for path in glob.glob(os.path.join(TOP, 'crates', '*', 'specs', 'Lib.antt')):
        groups = 0
        for line in read(path).split('\n'):
            groups += line.startswith('--')
            name = re.match(r'pub mod (\w+)', line)
            if name and groups < 2:
                found.add('%s.specs.%s' % (path.split(os.sep)[-3], name[1]))
    return found


def cited():
    """What `convert` cites, with all that its definitions cite, and what all public calls cite."""
    return closure(cited_by('convert')), closure(cited_by())


def main():
    headline, everything = cited()
    if '--list' in sys.argv:
        for it in sorted(headline) + sorted(everything - headline):
            print('%-9s %4d  %s %s' % ('convert' if it in headline else '', size([it]), *it))
    elif '--groups' in sys.argv:
        believed = listed()
        for it in sorted(cited_by()):
            if it[0] not in believed:
                print('cited, and not listed: %s.%s, %d lines%s' % (*it, size([it]), ', by convert' if it in headline else ''))
        for module in sorted(believed):
            for name in FILES[module].lines:
                if (module, name) not in everything:
                    print('listed, and not cited: %s.%s, %d lines' % (module, name, size([(module, name)])))
    else:
        print('| Crate | `convert` | All public calls |\n|---|---|---|')
        columns = [[by_crate(group) for group in split(found)] for found in (headline, everything)]
        for crate in sorted(set().union(*columns[1])):
            print('| %s | %s |' % (crate, ' | '.join('%d and %d' % tuple(group[crate] for group in groups) for groups in columns)))
        print('| in all | %s |' % ' | '.join('%d and %d' % tuple(size(group) for group in split(found)) for found in (headline, everything)))


if __name__ == '__main__':
    if '--help' in sys.argv[1:]:
        print(__doc__.strip())
        sys.exit()
    main()
