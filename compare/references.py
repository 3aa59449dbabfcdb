"""References: the definitions of rdf_iri, and RFC 3986, sections 5.2 to 5.4, written anew, with the independent reader as a third."""
import itertools
import random
import re

import reader
from cases import REFERENCE_BASE
from kit import NONE, some, string_of, text_of, value_in


# Section 5.4.1 and 5.4.2, against http://a/b/c/d;p?q. The last is what a strict parser answers.
NORMAL = {
    'g:h': 'g:h', 'g': 'http://a/b/c/g', './g': 'http://a/b/c/g', 'g/': 'http://a/b/c/g/', '/g': 'http://a/g', '//g': 'http://g',
    '?y': 'http://a/b/c/d;p?y', 'g?y': 'http://a/b/c/g?y', '#s': 'http://a/b/c/d;p?q#s', 'g#s': 'http://a/b/c/g#s',
    'g?y#s': 'http://a/b/c/g?y#s', ';x': 'http://a/b/c/;x', 'g;x': 'http://a/b/c/g;x', 'g;x?y#s': 'http://a/b/c/g;x?y#s',
    '': 'http://a/b/c/d;p?q', '.': 'http://a/b/c/', './': 'http://a/b/c/', '..': 'http://a/b/', '../': 'http://a/b/',
    '../g': 'http://a/b/g', '../..': 'http://a/', '../../': 'http://a/', '../../g': 'http://a/g'}
ABNORMAL = {
    '../../../g': 'http://a/g', '../../../../g': 'http://a/g', '/./g': 'http://a/g', '/../g': 'http://a/g', 'g.': 'http://a/b/c/g.',
    '.g': 'http://a/b/c/.g', 'g..': 'http://a/b/c/g..', '..g': 'http://a/b/c/..g', './../g': 'http://a/b/g', './g/.': 'http://a/b/c/g/',
    'g/./h': 'http://a/b/c/g/h', 'g/../h': 'http://a/b/c/h', 'g;x=1/./y': 'http://a/b/c/g;x=1/y', 'g;x=1/../y': 'http://a/b/c/y',
    'g?y/./x': 'http://a/b/c/g?y/./x', 'g?y/../x': 'http://a/b/c/g?y/../x', 'g#s/./x': 'http://a/b/c/g#s/./x',
    'g#s/../x': 'http://a/b/c/g#s/../x', 'http:g': 'http:g'}
BASES = '''a: a:b a:b/c a:/ a:/b a:/b/ a:// a:/// a://h a://h/ a://h?q a://h#f a://h/b?q/r#f a:.. a:./b a:/..//b a:b:c/d a:?q a:#f
    a:/b/../c a://h//'''.split()

SCHEME = re.compile(r'[A-Za-z][A-Za-z0-9+.-]*:')    # section 3.1


def split(text):
    """The five parts (section 3): the scheme by 3.1, then the fragment, the query and the authority by their first delimiters."""
    found = SCHEME.match(text)
    scheme, rest = (text[:found.end() - 1], text[found.end():]) if found else (None, text)
    rest, fragment = cut(rest, '#')
    rest, query = cut(rest, '?')
    if not rest.startswith('//'):
        return scheme, None, rest, query, fragment
    authority, slash, path = rest[2:].partition('/')
    return scheme, authority, slash + path, query, fragment


def cut(text, mark):
    before, found, after = text.partition(mark)
    return before, after if found else None


def remove_dots(path):
    """Section 5.2.4 with a list of segments as the output buffer, each with its '/'."""
    output = []
    while path:
        if path.startswith('../') or path.startswith('./'):                                 # A
            path = path[path.index('/') + 1:]
        elif path.startswith('/./') or path == '/.':                                        # B
            path = '/' + path[3:]
        elif path.startswith('/../') or path == '/..':                                      # C
            path = '/' + path[4:]
            del output[-1:]
        elif path in ('.', '..'):                                                           # D
            path = ''
        else:                                                                               # E
            end = path.find('/', 1)
            end = len(path) if end < 0 else end
            output.append(path[:end])
            path = path[end:]
    return ''.join(output)


def resolve(base, reference):
    """Section 5.2.2, but that a reference with a scheme is kept as it is (docs/DECISIONS.md)."""
    if SCHEME.match(reference):
        return reference
    scheme, authority, path, query, _ = split(base)
    _, new_authority, new_path, new_query, fragment = split(reference)
    if new_authority is not None:
        authority, path, query = new_authority, remove_dots(new_path), new_query
    elif new_path == '':
        query = query if new_query is None else new_query
    else:
        if not new_path.startswith('/'):        # merge, 5.2.3
            new_path = '/' + new_path if authority is not None and path == '' else path[:path.rfind('/') + 1] + new_path
        path, query = remove_dots(new_path), new_query
    return recompose(scheme, authority, path, query, fragment)


def recompose(scheme, authority, path, query, fragment):
    """Section 5.3."""
    marked = [(scheme, '%s:'), (authority, '//%s'), (path, '%s'), (query, '?%s'), (fragment, '#%s')]
    return ''.join(form % part for part, form in marked if part is not None)


def texts(letters, longest):
    return (''.join(it) for length in range(longest + 1) for it in itertools.product(letters, repeat=length))


def compare_parts(specs, longest):
    """`parts_of` and `recompose` over all short texts."""
    parts_of, whole = specs.function('rdf_iri', 'Parts', 'parts_of'), specs.function('rdf_iri', 'Reference', 'recompose')
    for text in texts('a1:/?#.', longest):
        parts = parts_of(text_of(text))
        found = [parts[it] if it == 'path' else value_in(parts[it]) for it in ('scheme', 'authority', 'path', 'query', 'fragment')]
        found = tuple(None if it is None else string_of(it) for it in found)
        is_right = found == split(text) and string_of(whole(parts)) == text == recompose(*found)
        yield None if is_right else 'the parts of %r: %s' % (text, found)


def compare_dots(specs, longest):
    """`remove_dots` over all short paths."""
    function = specs.function('rdf_iri', 'Dots', 'remove_dots')
    for path in texts('./a', longest):
        found = string_of(function(text_of(path)))
        is_right = found == remove_dots(path) == reader.remove_dot_segments(path)
        yield None if is_right else 'the dots of %r: %r' % (path, found)


def resolved_by(specs):
    function = specs.function('rdf_iri', 'Resolve', 'resolved')

    def resolved(base, reference):
        found = value_in(function(NONE if base is None else some(text_of(base)), text_of(reference)))
        return None if found is None else string_of(found)
    return resolved


def compare_examples(specs):
    """The examples of 5.4, and that a reference without a scheme needs a base."""
    resolved = resolved_by(specs)
    for reference, wanted in {**NORMAL, **ABNORMAL}.items():
        found = resolved(REFERENCE_BASE, reference)
        is_right = found == wanted == resolve(REFERENCE_BASE, reference) and resolved(None, reference) == (reference if found == reference else None)
        yield None if is_right else 'RFC 3986, 5.4: %r gives %r' % (reference, found)


def compare_resolved(specs, seed, longest, many):
    """`resolved` for each base with all short references, and with longer ones at random."""
    resolved = resolved_by(specs)
    chosen = random.Random('references %s' % seed)
    for base in BASES:
        longer = (''.join(chosen.choice('../../aé:?#;') for _ in range(chosen.randint(longest + 1, 16))) for _ in range(many))
        for reference in itertools.chain(texts('./a?#:', longest), longer):
            found = resolved(base, reference)
            is_right = found == resolve(base, reference) == reader.resolve(base, reference)
            yield None if is_right else '%r against %r: %r, not %r' % (reference, base, found, resolve(base, reference))
