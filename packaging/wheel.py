#!/usr/bin/env python3
"""wheel.py WORK TO: the Python wheel, from the parts that ./release has made in WORK, without a network and the same bytes each time.

It holds the package of packaging/wheel/rdfconv, the modules of examples that it is made over, the shared object and the static program.
Its tag names the lowest GNU C library that has the symbols of the shared object (the static program needs none), and no lower one than
2.17, which is the oldest that pip's tag of two names has."""
import base64
import hashlib
import os
import subprocess
import sys
import time
import zipfile

TOP = os.path.dirname(os.path.dirname(os.path.abspath(__file__)))
VERSION = os.environ['RDFCONV_VERSION']
TIME = time.gmtime(int(os.environ['SOURCE_DATE_EPOCH']))[:6]

METADATA = '''Metadata-Version: 2.1
Name: rdfconv
Version: {version}
Summary: Reads N-Triples, N-Quads, Turtle and TriG, and writes N-Quads, by a proved reader
Requires-Python: >=3.8
Description-Content-Type: text/markdown
Keywords: RDF,Turtle,TriG,N-Triples,N-Quads

{description}'''

WHEEL = '''Wheel-Version: 1.0
Generator: packaging/wheel.py
Root-Is-Purelib: false
{tags}
'''

ENTRY_POINTS = '''[console_scripts]
rdfconv = rdfconv.program:main

[rdf.plugins.parser]
rdfconv-ntriples = rdfconv.rdflib_parser:NTriples
rdfconv-nquads = rdfconv.rdflib_parser:NQuads
rdfconv-turtle = rdfconv.rdflib_parser:Turtle
rdfconv-trig = rdfconv.rdflib_parser:TriG
'''


def platforms(library):
    """The platform's tags, with the version of the GNU C library that the symbols ask for."""
    asked = subprocess.run([os.path.join(TOP, 'packaging', 'glibc.sh'), library], capture_output=True, text=True, check=True).stdout.strip()
    version = max((2, 17), tuple(int(it) for it in asked.split('.')[:2]) if asked else (2, 17))
    names = ['manylinux_%d_%d_x86_64' % version]
    return names + (['manylinux2014_x86_64'] if version == (2, 17) else [])


def contents(work, tags):
    """The name in the wheel, the bytes and the mode of each file."""
    def read(*path):
        with open(os.path.join(*path), 'rb') as file:
            return file.read()

    tree, parts = os.path.join(work, 'tree'), os.path.join(work, 'programs')
    source = os.path.join(tree, 'packaging', 'wheel', 'rdfconv')
    for name in sorted(os.listdir(source)):
        yield 'rdfconv/' + name, read(source, name), 0o644
    yield 'rdfconv/FACTS', read(work, 'FACTS'), 0o644
    yield 'rdfconv/bin/rdfconv', read(parts, 'rdfconv-static'), 0o755
    yield 'rdfconv/library.py', read(tree, 'examples/library/rdfconv.py'), 0o644
    yield 'rdfconv/librdfconv.so', read(parts, 'librdfconv.so'), 0o644
    yield 'rdfconv/rdflib_parser.py', read(tree, 'examples/rdflib/rdfconv_rdflib.py'), 0o644
    yield 'rdfconv/stream.py', read(tree, 'examples/stream.py'), 0o644
    about = 'rdfconv-%s.dist-info/' % VERSION
    description = read(tree, 'packaging/wheel/README.md').decode()
    yield about + 'METADATA', METADATA.format(version=VERSION, description=description).encode(), 0o644
    yield about + 'WHEEL', WHEEL.format(tags='\n'.join('Tag: py3-none-' + it for it in tags)).encode(), 0o644
    yield about + 'entry_points.txt', ENTRY_POINTS.encode(), 0o644


def row(name, data):
    digest = base64.urlsafe_b64encode(hashlib.sha256(data).digest()).rstrip(b'=').decode()
    return '%s,sha256=%s,%d\n' % (name, digest, len(data))


def main(work, to):
    tags = platforms(os.path.join(work, 'programs', 'librdfconv.so'))
    files = list(contents(work, tags))
    record = 'rdfconv-%s.dist-info/RECORD' % VERSION
    rows = ''.join(row(name, data) for name, data, _ in files) + record + ',,\n'
    path = os.path.join(to, 'rdfconv-%s-py3-none-%s.whl' % (VERSION, '.'.join(tags)))
    with zipfile.ZipFile(path, 'w') as wheel:
        for name, data, mode in files + [(record, rows.encode(), 0o644)]:
            member = zipfile.ZipInfo(name, TIME)
            member.create_system, member.external_attr = 3, (0o100000 | mode) << 16
            wheel.writestr(member, data, zipfile.ZIP_DEFLATED, 9)
    os.chmod(path, 0o644)


if __name__ == '__main__':
    main(*sys.argv[1:])
