#!/usr/bin/env python3
"""Tries the program over standard streams that fail, and with memory refused, and compares what it answers with the table in
docs/DECISIONS.md. It needs `cc`; the full file system needs root. The last line counts.

    compare/devices.py

`rt ci` or `rt run` in crates/rdf_tool builds the program; RDFCONV names another.
"""
import os
import re
import resource
import subprocess
import sys
import tempfile

TOP = os.path.dirname(os.path.dirname(os.path.abspath(__file__)))
PROGRAM = os.environ.get('RDFCONV', os.path.join(TOP, 'crates', 'rdf_tool', 'out', 'rdf_tool'))

# A library that is loaded before the C library. FAIL_CALLS names calls, of which the one of number FAIL_AT is refused; with ONE_BYTE each
# read and write is of one byte. A file that FAIL_SEEN names is made once a call was refused.
SHIM = r'''
#define _GNU_SOURCE
#include <dlfcn.h>
#include <errno.h>
#include <fcntl.h>
#include <stdlib.h>
#include <string.h>
#include <sys/types.h>
#include <unistd.h>

extern void *__libc_malloc(size_t);
extern void *__libc_realloc(void *, size_t);
static long calls;

static int refuses(const char *name) {
    const char *names = getenv("FAIL_CALLS"), *at = getenv("FAIL_AT");
    if (!names || !at || !strstr(names, name) || ++calls != atol(at)) return 0;
    const char *seen = getenv("FAIL_SEEN");
    if (seen) close(open(seen, O_CREAT | O_WRONLY, 0600));
    return 1;
}

void *malloc(size_t n) {
    if (refuses("malloc")) return errno = ENOMEM, (void *)0;
    return __libc_malloc(n);
}

void *realloc(void *p, size_t n) {
    if (refuses("malloc")) return errno = ENOMEM, (void *)0;
    return __libc_realloc(p, n);
}

ssize_t read(int fd, void *to, size_t n) {
    ssize_t (*real)(int, void *, size_t) = dlsym(RTLD_NEXT, "read");
    if (refuses("read")) return errno = EINTR, -1;
    return real(fd, to, getenv("ONE_BYTE") && n ? 1 : n);
}

ssize_t write(int fd, const void *from, size_t n) {
    ssize_t (*real)(int, const void *, size_t) = dlsym(RTLD_NEXT, "write");
    if (refuses("write")) return errno = EINTR, -1;
    return real(fd, from, getenv("ONE_BYTE") && n ? 1 : n);
}
'''

LINE = '<http://a/s> <http://a/p> "%s" .\n'
SMALL = (LINE % 'a') * 3
# of both readers: bindings, a base, brackets, a long text, and every kind of literal
LARGE = '@prefix p: <http://a/> . @base <http://b/c/> .\n' + ''.join(
    'p:s%d p:p [ p:q <../x>, "%s"@en, 1.5, true ] ; a p:C .\n_:n p:p ( "\\u00e9" 2e0 ) .\n' % (n, 'long ' * n) for n in range(200))


class Tries:
    """What is tried, and how often it differed."""

    def __init__(self, room):
        self.room = room
        self.count = self.wrong = 0
        self.shim = os.path.join(room, 'shim.so')
        source = os.path.join(room, 'shim.c')
        with open(source, 'w') as file:
            file.write(SHIM)
        subprocess.run(['cc', '-O1', '-shared', '-fPIC', '-o', self.shim, source, '-ldl'], check=True)

    def expect(self, what, is_so, found=''):
        self.count += 1
        if not is_so:
            self.wrong += 1
            print('DIFFERS %s: %s' % (what, found))

    def file(self, name, text):
        path = os.path.join(self.room, name)
        with open(path, 'w') as file:
            file.write(text)
        return path

    def run(self, words, stdin=subprocess.DEVNULL, limit=None, by_shell=None, **env):
        """What a run wrote, said, and ended with; `by_shell` has redirections."""
        words = [PROGRAM, *words]
        if by_shell:
            words = ['sh', '-c', 'exec "$@" ' + by_shell, '', *words]
        done = subprocess.run(words, stdin=stdin, stdout=subprocess.PIPE, stderr=subprocess.PIPE, env={**os.environ, **env}, timeout=60,
                              preexec_fn=limit and (lambda: resource.setrlimit(*limit)))
        return done.stdout, done.stderr.decode(), done.returncode

    def answers(self, what, words, said, status, **how):
        found = self.run(words, **how)
        self.expect(what, found[1] == said and found[2] == status, found[1:])


def streams(tries):
    small, large = tries.file('small.nt', SMALL), tries.file('large.ttl', LARGE)
    none = tries.file('none.nt', '')
    failed = 'rdfconv: write failed\n'
    for where in '>&-', '>/dev/full', '1</dev/null':
        for name in small, large:
            tries.answers('output ' + where, ['convert', name], failed, 3, by_shell=where)
        tries.answers('nothing to write, ' + where, ['convert', none], '', 0, by_shell=where if where != '1</dev/null' else '>/dev/full')
        tries.answers('help, ' + where, ['--help'], '', 0, by_shell=where)
    for where in '<&-', '</', '0>/dev/null':
        tries.answers('input ' + where, ['convert'], 'rdfconv: read failed\n', 3, by_shell=where)
    tries.answers('a directory', ['convert', tries.room], 'rdfconv: read failed\n', 3)
    for name in os.path.join(tries.room, 'missing'), '':
        tries.answers('the file %r' % name, ['convert', name], 'rdfconv: cannot open file\n', 3)
    for where in '2>&-', '2>/dev/full':
        tries.answers('error output ' + where, ['convert', tries.file('bad.nt', 'x')], '', 1, by_shell=where)
    pipe = os.path.join(tries.room, 'pipe')
    os.mkfifo(pipe)
    writer = subprocess.Popen(['sh', '-c', 'cat "$0" >"$1"', large, pipe])
    tries.expect('a named pipe', tries.run(['convert', pipe]) == tries.run(['convert', large]))
    writer.wait()
    reader = subprocess.run(['sh', '-c', '{ "$0" convert "$1"; echo $? >&2; } | head -n 1', PROGRAM, tries.file('many.nt', SMALL * 50000)],
                            stdout=subprocess.PIPE, stderr=subprocess.PIPE)
    tries.expect('a reader that goes away', reader.stderr.decode() == failed + '3\n' and reader.stdout.count(b'\n') == 1, reader.stderr)


def full_file_system(tries):
    """A file system of 16 KiB fills up."""
    at = os.path.join(tries.room, 'full')
    os.mkdir(at)
    if subprocess.run(['mount', '-t', 'tmpfs', '-o', 'size=16k', 'tmpfs', at], stderr=subprocess.DEVNULL).returncode:
        print('left out: a full file system, which needs root')
        return
    try:
        whole = tries.run(['convert', os.path.join(tries.room, 'large.ttl')])[0]
        found = tries.run(['convert', os.path.join(tries.room, 'large.ttl')], by_shell='>"%s/out"' % at)
        with open(at + '/out', 'rb') as file:
            written = file.read()
        tries.expect('a full file system', found[1:] == ('rdfconv: write failed\n', 3) and len(written) < len(whole) and whole.startswith(written),
                     found[1:])
    finally:
        subprocess.run(['umount', at], check=True)


def limits(tries):
    """Address space and sizes of files that are bounded."""
    large = os.path.join(tries.room, 'large.ttl')
    whole = tries.run(['convert', large])[0]
    refused = 0
    for kilobytes in range(1000, 8000, 50):
        out, said, status = tries.run(['convert', large], limit=(resource.RLIMIT_AS, (1024 * kilobytes,) * 2))
        is_loaded = status not in (127, -9, -11)
        refused += status == 4
        good = (out, said, status) == (whole, '', 0) or status == 4 and said == 'rdfconv: out of memory\n' and is_front(out, whole)
        tries.expect('address space of %d kB' % kilobytes, good or not is_loaded, (said, status))
    tries.expect('some address space is too small for the run alone', refused > 0, refused)
    path = os.path.join(tries.room, 'short')
    found = tries.run(['convert', large], limit=(resource.RLIMIT_FSIZE, (4096, 4096)), by_shell='>"%s"' % path)
    with open(path, 'rb') as file:
        tries.expect('a limit on the size of files', found[2] == -25 and whole.startswith(file.read()), found[1:])


def is_front(out, whole):
    """Whole lines that the output begins with."""
    return whole.startswith(out) and (not out or out.endswith(b'\n'))


def calls(tries):
    """Each growth refused, and each read and write interrupted, in turn."""
    runs = [(['convert', '--format', 'nt'], SMALL), (['convert'], LARGE), (['check'], LARGE), (['show'], SMALL), (['convert'], SMALL + 'x'),
            (['convert', '--base', 'http://a/', '--node-prefix', 'w', '--ascii'], '<a> <b> [] .'),
            (['check', '--explain'], '<a:s> <a:p> [ <a:q> 1 .')]
    for words, text in runs:
        path = tries.file('of_calls', text)
        whole = tries.run([*words, path])
        for names, said, wanted in ('malloc', 'rdfconv: out of memory\n', 4), ('read', 'rdfconv: read failed\n', 3), \
                ('write', 'rdfconv: write failed\n', 3):
            for one_byte in ({}, {'ONE_BYTE': '1'}) if names != 'malloc' and len(text) < 1000 else ({},):
                fail_in_turn(tries, words, path, whole, (names, said, wanted), one_byte)
        found = tries.run([*words, path], LD_PRELOAD=tries.shim, ONE_BYTE='1')
        tries.expect('reads and writes of one byte: ' + ' '.join(words), found == whole, found[1:])


def without_bracket(said):
    """What is said of a refusal where there was no memory for the brackets that are open."""
    return re.sub(r'; "[\[({]" is open since line \d+(?:, column \d+)?', '', said, count=1)


def without_place(said):
    """What is said of a refusal where there was no memory for its place: no column and no bracket, and neither the line nor a note."""
    lines = without_bracket(said).splitlines(True)[:2]
    return ''.join(lines[:1] + [re.sub(r'(:\d+):\d+: ', r'\1: ', line, count=1) for line in lines[1:]])


def fail_in_turn(tries, words, path, whole, refusal, one_byte):
    """Each answer is the refusal, behind what the run begins with, or the run's own: where only its message could not be said, without
    it or without its place or the bracket that is open, and where the C library goes on without the memory, whole. An explanation has the system's reason."""
    names, said, wanted = refusal
    if '--explain' in words and names != 'malloc':
        said += '%s: Interrupted system call (os error 4)\n' % path
    seen = os.path.join(tries.room, 'seen')
    for number in range(1, 100000):
        found = tries.run([*words, path], LD_PRELOAD=tries.shim, FAIL_CALLS=names, FAIL_AT=str(number), FAIL_SEEN=seen, **one_byte)
        what = '%s number %d refused: %s' % (names, number, ' '.join(words))
        if not os.path.exists(seen):
            tries.expect(what + ' (none was)', found == whole, found[1:])
            return
        os.remove(seen)
        begins = is_front(found[0], whole[0]) if names == 'malloc' else whole[0].startswith(found[0])
        is_refusal = begins and found[2] == wanted and found[1] in (said, '')
        lacks_words = whole[1].startswith(found[1]) or found[1] in (without_bracket(whole[1]), without_place(whole[1]))
        lacks_text = found[0] == whole[0] and found[2] == whole[2] != 0 and lacks_words
        tries.expect(what, found == whole or is_refusal or lacks_text, found[1:])
    sys.exit('more than 100000 calls')


def main():
    with tempfile.TemporaryDirectory() as room:
        tries = Tries(room)
        for part in streams, full_file_system, limits, calls:
            part(tries)
    print('%d runs: %d differ' % (tries.count, tries.wrong))
    return tries.wrong != 0


if __name__ == '__main__':
    if '--help' in sys.argv[1:]:
        print(__doc__.strip())
        sys.exit()
    sys.exit(main())
