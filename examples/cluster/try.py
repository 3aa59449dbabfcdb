#!/usr/bin/python3
"""Tries cluster.py with a scheduler and two workers on this machine, one of them ended in the middle.

    examples/cluster/try.py [MEGABYTES]     (20)

Each output and each message is compared with one run of the program, of documents also with the options that cluster.py hands on;
then what can't be done is asked for. Ends in one line of counts, with status 0 where nothing differs. Debian: python3-distributed.
"""
import os
import re
import shutil
import signal
import subprocess
import sys
import tempfile
import threading
import time
import urllib.parse

HERE = os.path.dirname(os.path.abspath(__file__))
TOP = os.path.dirname(os.path.dirname(HERE))
PROGRAM = os.environ.get('RDFCONV', os.path.join(TOP, 'rdfconv'))
ADDRESS = '127.0.0.1'
TOLD = r'rdfconv: |refused$'  # what the program and cluster.py say; the engine has lines of its own
sys.path.insert(0, os.path.join(TOP, 'bench'))
import documents


class Cluster:
    """A scheduler and workers, each a process of its own."""

    def __init__(self, folder):
        self.folder, self.info = folder, os.path.join(folder, 'scheduler.json')
        self.log = open(os.path.join(folder, 'log'), 'ab')
        self.workers, self.ended = [], 0
        self.scheduler = self.start('dask_scheduler', '--port', '0')
        while not os.path.exists(self.info):
            if self.scheduler.poll() is not None:
                sys.exit('try.py: no scheduler starts: Debian has it in python3-distributed')
            time.sleep(0.1)
        with open(self.info) as info:
            self.address = re.search(r'"address": "([^"]*)"', info.read())[1]

    def start(self, what, *words):
        line = [sys.executable, '-m', 'distributed.cli.' + what, '--host', ADDRESS, '--no-dashboard',
                '--dashboard-address', ADDRESS + ':0', '--scheduler-file', self.info, *words]
        return subprocess.Popen(line, stdout=self.log, stderr=self.log)

    def fill(self):
        """Has two workers run."""
        while len(self.workers) < 2:
            self.workers.append(self.start('dask_worker', '--nthreads', '1', '--no-nanny', '--local-directory', self.folder))
        from distributed import Client
        with Client(self.address, timeout=60) as client:
            client.wait_for_workers(2)

    def end_one(self):
        worker = self.workers.pop(0)
        worker.send_signal(signal.SIGKILL)
        worker.wait()
        self.ended += 1

    def stop(self):
        for process in self.workers + [self.scheduler]:
            process.terminate()
            process.wait()


def one_run(path, out, *options):
    """Status and message of one run."""
    form = re.search(r'\.(\w+)$', path)[1]
    with open(path, 'rb') as document, open(out, 'wb') as lines:
        p = subprocess.run([PROGRAM, 'convert', '--format', form, *options], stdin=document, stdout=lines, stderr=subprocess.PIPE)
    return p.returncode, p.stderr.decode()


def on_cluster(cluster, *words, watched=None, wanted=0):
    """Status and messages of a run on the cluster. A worker is ended as soon as so many files stand in the folder that is
    watched, and in the middle of a task."""
    line = [sys.executable, os.path.join(HERE, 'cluster.py'), '--scheduler', cluster.address, '--program', PROGRAM, *words]
    cluster.fill()
    with subprocess.Popen(line, stderr=subprocess.PIPE) as p:
        said = []
        reader = threading.Thread(target=lambda: said.append(p.stderr.read().decode()))
        reader.start()
        while watched and p.poll() is None:
            done = [name for _, _, names in os.walk(watched) for name in names if re.search(r'(^\d{8}|\.nq)$', name)]
            if len(done) >= wanted:
                cluster.end_one()
                watched = None
            time.sleep(0.005)
        reader.join()
        status, lines = p.wait(), [line for line in said[0].splitlines(True) if re.search(TOLD, line)]
    if not lines or not re.match(r'\d+ documents?, .* refused$', lines[-1]):
        sys.exit('no report: ' + ''.join(lines))
    return status, lines


def files_below(folder):
    """The paths of all files below the folder, from it on, sorted."""
    return sorted(os.path.relpath(os.path.join(at, name), folder) for at, _, names in os.walk(folder) for name in names)


def nodes_in(path):
    """The names of nodes in the lines; none of the documents has a string with such a name."""
    with open(path, 'rb') as lines:
        return set(re.findall(rb'_:[^ ]+', lines.read()))


def same(one, other):
    return subprocess.run(['cmp', '-s', one, other]).returncode == 0


class Tries:
    def __init__(self, folder):
        self.folder, self.runs, self.blocks, self.documents, self.quads, self.refused, self.differ = folder, 0, 0, 0, 0, 0, 0

    def path(self, name):
        return os.path.join(self.folder, name)

    def expect(self, name, holds, said):
        print('%s: %s' % (name, 'as one run' if holds else 'DIFFERS FROM ONE RUN: ' + said), flush=True)
        self.runs += 1
        self.differ += not holds

    def dump(self, cluster, name, path, megabytes, ends):
        """A dump by blocks beside one run."""
        status, message = one_run(path, self.path('one.nq'))
        wanted = max(1, int(os.path.getsize(path) / megabytes / 3000000))
        out = self.path('whole.nq')
        got, lines = on_cluster(cluster, '--megabytes', str(megabytes), 'dump', path, out,
                                watched=out + '.parts' if ends else None, wanted=wanted)
        counts = re.match(r'1 document, (\d+) blocks, (\d+) quads, (\d) refused$', lines[-1])
        self.blocks += int(counts[1])
        self.quads += int(counts[2])
        holds = (got, ''.join(lines[:-1])) == (status, message) and same(self.path('one.nq'), out)
        self.expect(name, holds, 'status %d, %s' % (got, ''.join(lines)))

    def folder_of(self, cluster, tried, folder, options, ends):
        """A folder of documents beside a run for each. What stands for a document in the options is spelled out for its run."""
        out = self.path('out')
        os.makedirs(out)
        got, lines = on_cluster(cluster, *options, 'documents', folder, out, watched=out if ends else None, wanted=5)
        names = files_below(folder)
        holds, told, worst, nodes = files_below(out) == sorted(name + '.nq' for name in names), [], 0, []
        for n, name in enumerate(names):
            path = self.unpacked(os.path.join(folder, name))
            status, message = one_run(path, self.path('one.nq'), *spelled(options, name, n))
            told += ['%s: %s' % (name, message)] if message else []
            worst = max(worst, status)
            holds = holds and same(self.path('one.nq'), os.path.join(out, name + '.nq'))
            nodes.append(nodes_in(self.path('one.nq')))
        if '--node-prefix' in options:
            holds = holds and sum(map(len, nodes)) == len(set().union(*nodes)) > 0
        counts = re.match(r'(\d+) documents, (\d+) quads, (\d+) refused$', lines[-1])
        self.documents += int(counts[1])
        self.quads += int(counts[2])
        holds = holds and (got, lines[:-1]) == (worst, told)
        shutil.rmtree(out)
        self.expect(tried, holds, 'status %d, %s' % (got, ''.join(lines)))

    def unpacked(self, path):
        """The path of the document without its packing."""
        if not path.endswith('.gz'):
            return path
        plain = self.path('plain.' + path.split('.')[-2])
        with open(plain, 'wb') as document:
            subprocess.run(['gzip', '-dc', path], stdout=document, check=True)
        return plain

    def fails(self, address, expected, said, *words):
        """A run that has to end at once with this status, and a last line in which this is said."""
        line = [sys.executable, os.path.join(HERE, 'cluster.py'), '--scheduler', address, '--program', PROGRAM, *words]
        began = time.monotonic()
        p = subprocess.run(line, stdin=subprocess.DEVNULL, stdout=subprocess.PIPE, stderr=subprocess.PIPE)
        took, lines = time.monotonic() - began, p.stderr.decode().splitlines() or ['']
        holds = p.returncode == expected and said in lines[-1] and lines[-1].startswith('cluster: ') and took < 20
        self.refused += 1
        self.differ += not holds
        if not holds:
            print('%s: status %d after %.1f s, %s' % (' '.join(words), p.returncode, took, p.stderr.decode()), flush=True)


def spelled(options, name, n):
    """The options of one document, the one of this name and number."""
    found = [word.replace('{}', urllib.parse.quote(name)) for word in options]
    if '--node-prefix' in found:
        found[found.index('--node-prefix') + 1] += '%08d' % n
    return found


def with_bad_line(path, bad):
    """A copy of the dump with a line in its middle that is no statement."""
    with open(path, 'rb') as dump, open(bad, 'wb') as copy:
        lines = dump.readlines()
        lines.insert(len(lines) // 2, b'<http://example.org/a b> <http://example.org/p> "x" .\n')
        copy.writelines(lines)


def make_documents(folder, megabytes):
    """Small documents of each format, more than a worker takes at a time, packed and not, two of them refused."""
    os.makedirs(folder)
    for name in sorted(os.listdir(os.path.join(TOP, 'examples'))):
        if re.search(r'\.(nt|nq|ttl|trig)$', name):
            shutil.copy(os.path.join(TOP, 'examples', name), folder)
    for kind in ('nt', 'nq', 'ttl', 'trig'):
        for n in range(4):
            documents.write(kind, megabytes / 20, os.path.join(folder, 'made%d.%s' % (n, kind)))
    subprocess.run(['gzip', os.path.join(folder, 'made0.ttl')], check=True)
    with open(os.path.join(folder, 'refused.ttl'), 'w') as refused:
        refused.write('@prefix ex: <http://example.org/> .\nex:s ex:p ex:o .\nno:s ex:p ex:o .\n')


def make_fragments(folder):
    """Documents that are documents by what is handed in: a base, prefixes; with names that no IRI has, and characters that are no ASCII."""
    os.makedirs(os.path.join(folder, 'a b'))
    shutil.copy(os.path.join(TOP, 'examples', 'fragment.ttl'), folder)
    for name, text in (('one.ttl', '[] <é> (1 "é") .\n'), ('a b/{é}#?.trig', '<> { <#a> <p> _:x }\n'), ('a b/c%.nt', '_:x <a:p> _:y .\n')):
        with open(os.path.join(folder, name), 'w', encoding='utf-8') as document:
            document.write(text)
    subprocess.run(['gzip', os.path.join(folder, 'one.ttl')], check=True)


def try_failures(tries, address):
    """What can't be done, and how that is told."""
    folder, good = tries.path('fragments'), tries.path('good.nt')
    with open(tries.path('bad_prefixes'), 'w') as prefixes:
        prefixes.write('no prefix\n')
    for at, expected, said, words in (
            ('tcp://%s:1' % ADDRESS, 3, 'no scheduler answers at tcp://%s:1' % ADDRESS, ('documents', folder, tries.path('out'))),
            (address, 3, 'No such file or directory', ('documents', tries.path('none'), tries.path('out'))),
            (address, 3, 'Not a directory', ('documents', folder, os.path.join(good, 'out'))),
            (address, 2, 'lies in', ('documents', folder, os.path.join(folder, 'out'))),
            (address, 2, 'bad base', ('--base', '{}', 'documents', folder, tries.path('out'))),
            (address, 2, 'bad node prefix', ('--node-prefix', '-', 'documents', folder, tries.path('out'))),
            (address, 2, 'bad prefixes at line 1', ('--prefixes', tries.path('bad_prefixes'), 'documents', folder, tries.path('out'))),
            (address, 3, 'cannot open file', ('--prefixes', tries.path('none'), 'documents', folder, tries.path('out'))),
            (address, 3, 'No such file or directory', ('dump', tries.path('none.nt'), tries.path('whole.nq'))),
            (address, 3, 'Not a directory', ('dump', good, os.path.join(good, 'whole.nq'))),
            (address, 2, 'is the dump itself', ('dump', good, good)),
            (address, 2, 'can be cut into blocks', ('dump', os.path.join(folder, 'fragment.ttl'), tries.path('whole.nq'))),
            (address, 2, 'are for documents', ('--ascii', 'dump', good, tries.path('whole.nq')))):
        tries.fails(at, expected, said, *words)


def main():
    megabytes = float(sys.argv[1]) if len(sys.argv) > 1 else 20
    with tempfile.TemporaryDirectory() as folder:
        tries = Tries(folder)
        cluster = Cluster(folder)
        try:
            good, bad, marked = (tries.path(name) for name in ('good.nt', 'bad.nt', 'marked.nt'))
            documents.write('nt', megabytes, good)
            with_bad_line(good, bad)
            with open(marked, 'wb') as f:
                f.write(b'\xef\xbb\xbf<a:s> <a:p> <a:o> .\n<a:s> <a:p> <a:o> .\n\xef\xbb\xbf<a:s> <a:p> <a:o> .\n<a:s> <a:p> <a:o> .\n')
            tries.dump(cluster, 'a dump', good, megabytes / 40, False)
            tries.dump(cluster, 'a dump, a worker ended', good, megabytes / 40, True)
            tries.dump(cluster, 'a dump with a bad line, a worker ended', bad, megabytes / 40, True)
            tries.dump(cluster, 'a block that begins with U+FEFF', marked, 0.000001, False)
            make_documents(tries.path('in'), megabytes)
            make_fragments(tries.path('fragments'))
            tries.folder_of(cluster, 'a folder of documents, a worker ended', tries.path('in'), [], True)
            tries.folder_of(cluster, 'a folder with options', tries.path('fragments'),
                            ['--base', 'http://example.org/x/{}', '--node-prefix', 'd', '--ascii',
                             '--prefixes', os.path.join(TOP, 'examples', 'prefixes.txt')], False)
            tries.folder_of(cluster, 'a folder without them', tries.path('fragments'), [], False)
            try_failures(tries, cluster.address)
        finally:
            cluster.stop()
    print('%d runs on two workers, %d blocks, %d documents, %d quads, %d workers ended, %d runs that have to fail, %d differ'
          % (tries.runs, tries.blocks, tries.documents, tries.quads, cluster.ended, tries.refused, tries.differ))
    return 1 if tries.differ else 0


if __name__ == '__main__':
    sys.exit(main())
