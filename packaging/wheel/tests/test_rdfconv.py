"""The installed wheel: rdfconv's calls in memory, its lines of files, its command, and its types."""
import ast
import inspect
import io
import os
import pickle
import subprocess
import sys

import pytest

import rdfconv

DOCUMENT = '@prefix ex: <http://e/> . ex:a ex:b "é", [] .'
LINES = '<http://e/a> <http://e/b> "é" .\n<http://e/a> <http://e/b> _:a42 .\n'.encode()
BROKEN = b'<a:s> <a:p> <a:o> .\n<s> <a:p> <a:o> .\n'


@pytest.fixture
def path(tmp_path):
    (tmp_path / 'document.ttl').write_bytes(DOCUMENT.encode())
    (tmp_path / 'broken.nt').write_bytes(BROKEN)
    return lambda name: str(tmp_path / name)


@pytest.mark.parametrize('kind', [str, str.encode, lambda it: bytearray(it.encode()), lambda it: memoryview(it.encode())])
def test_each_kind_of_text_is_read(kind):
    assert rdfconv.convert(kind(DOCUMENT), 'ttl') == LINES
    assert rdfconv.check(kind(DOCUMENT), 'ttl') == (2, 11, len(DOCUMENT.encode()))


def test_a_file_gives_the_same_lines(path):
    assert b''.join(rdfconv.lines(path('document.ttl'), 'ttl')) == LINES
    with open(path('document.ttl'), 'rb') as file:
        assert list(rdfconv.lines(file)) == LINES.splitlines(True)
    assert list(rdfconv.lines(io.BytesIO(DOCUMENT.encode()))) == LINES.splitlines(True)


def test_options_are_those_of_the_calls_in_memory(path, tmp_path):
    (tmp_path / 'open.ttl').write_text('<é> p:a _:b .', encoding='utf-8')
    asks = dict(base='http://e/x', prefixes={'p': 'http://p/'}, word='w1', ascii=True, depth=0)
    wanted = b'<http://e/\\u00E9> <http://p/a> _:w1nb .\n'
    assert rdfconv.convert('<é> p:a _:b .', 'ttl', **asks) == wanted
    assert b''.join(rdfconv.lines(path('open.ttl'), 'ttl', **asks)) == wanted


def test_a_refusal_has_its_place(path):
    with pytest.raises(rdfconv.Refused) as refused:
        rdfconv.convert(BROKEN, 'nt')
    assert (refused.value.reason, refused.value.offset, refused.value.line) == ('relative IRI', 20, 2)
    assert refused.value.lines == b'<a:s> <a:p> <a:o> .\n'
    assert str(pickle.loads(pickle.dumps(refused.value))) == 'relative IRI at byte 20, line 2'
    got = []
    with pytest.raises(rdfconv.Refused, match='relative IRI at byte 20, line 2'):
        got.extend(rdfconv.lines(path('broken.nt'), 'nt'))
    for line in rdfconv.lines(path('broken.nt'), 'nt'):
        assert line == b'<a:s> <a:p> <a:o> .\n'
        break


@pytest.mark.parametrize('asks, fault', [
    (dict(format='turtle'), ValueError), (dict(base='no iri'), ValueError), (dict(token=0), ValueError), (dict(ascii=2), ValueError),
    (dict(base=3), TypeError), (dict(prefixes='p <a:b>\n'), rdfconv.BadPrefixes), (dict(prefixes={'p': 'no iri'}), rdfconv.BadPrefixes)])
def test_bad_arguments_are_told_at_once(path, asks, fault):
    with pytest.raises(fault):
        rdfconv.check('', **{'format': 'ttl', **asks})
    with pytest.raises(fault):
        rdfconv.lines(path('document.ttl'), **{'format': 'ttl', **asks})


def test_a_file_that_is_not_there():
    with pytest.raises(FileNotFoundError):
        list(rdfconv.lines('/no/such/document.nt', 'nt'))


def test_a_read_that_fails_is_raised_as_it_is():
    class Broken(io.RawIOBase):
        def readable(self):
            return True

        def readinto(self, buffer):
            raise OSError('the disk is gone')

    with pytest.raises(OSError, match='the disk is gone'):
        list(rdfconv.lines(Broken(), 'nt'))


def test_lines_take_little_memory(tmp_path):
    """200 MB are read by a process that may have 120 MB of address space beside what it has at its start, and by a program of its own."""
    with open(tmp_path / 'long.nt', 'wb') as file:
        piece = b''.join(b'<http://example.org/s%d> <http://example.org/p> "%s" .\n' % (i, b'x' * 50) for i in range(10000))
        for _ in range(200_000_000 // len(piece)):
            file.write(piece)
    code = ('import resource, rdfconv, sys\n'
            'begin = int(open("/proc/self/statm").read().split()[0]) * resource.getpagesize()\n'
            'resource.setrlimit(resource.RLIMIT_AS, (begin + 120_000_000,) * 2)\n'
            'print(sum(1 for _ in rdfconv.lines(sys.argv[1], "nt")))\n'
            'print(resource.getrusage(resource.RUSAGE_CHILDREN).ru_maxrss)')
    run = subprocess.run([sys.executable, '-c', code, str(tmp_path / 'long.nt')], stdout=subprocess.PIPE, check=True)
    count, most = map(int, run.stdout.split())
    assert count == 200_000_000 // len(piece) * 10000
    assert most < 40_000  # KB of the program


def test_the_command_is_the_program(path):
    command = os.path.join(os.path.dirname(sys.executable), 'rdfconv')
    for words in [command], [sys.executable, '-m', 'rdfconv'], [rdfconv.PROGRAM]:
        run = subprocess.run([*words, 'check', '--format', 'nt', path('broken.nt')], stdout=subprocess.PIPE, stderr=subprocess.PIPE)
        assert (run.returncode, run.stdout, run.stderr) == (1, b'', b'rdfconv: relative IRI at byte 20, line 2\n')


def test_types_name_the_arguments():
    folder = os.path.dirname(rdfconv.__file__)
    assert os.path.exists(os.path.join(folder, 'py.typed'))
    with open(os.path.join(folder, '__init__.pyi'), encoding='utf-8') as file:
        functions = {it.name: it.args for it in ast.parse(file.read()).body if isinstance(it, ast.FunctionDef)}
    assert sorted(functions) == ['check', 'convert', 'lines']
    for name, typed in functions.items():
        written = inspect.signature(getattr(rdfconv, name)).parameters.values()
        assert [it.name for it in written] == [it.arg for it in typed.args + typed.kwonlyargs]
        assert [it.name for it in written if it.kind == it.KEYWORD_ONLY] == [it.arg for it in typed.kwonlyargs]


def test_a_processor_that_lacks_instructions_is_told(tmp_path):
    from rdfconv import processor
    (tmp_path / 'cpuinfo').write_text('processor : 0\nflags\t\t: fpu sse sse2 cx16 lahf_lm\n')
    assert processor.lacking(str(tmp_path / 'cpuinfo')) == {'popcnt', 'sse4_1', 'sse4_2', 'ssse3'}
    assert not processor.lacking(str(tmp_path / 'none'))
