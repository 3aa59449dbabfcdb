#!/usr/bin/env python3
"""Holds the pages to the program.

    compare/check.py             the numbers and words of help, manual and README, and each line of the pages as it stands
    compare/check.py REFUSALS    the lines of this page alone
    compare/check.py scripts     the scripts of examples/ alone, where something is missing, full or closed

The options' ranges and defaults, the formats and the reasons are read from the sources and compared with what help (where
the program is built), docs/rdfconv.1, README.md and docs/REFUSALS.md say. The counts of docs/DEFINITIONS.md
are compared with the files, and the completions with the help. Each indented line of a page that begins with `$` is
run in a scratch folder with a copy of examples/, and what comes is compared with the lines below it. Where a program of the pages is
not installed, its lines are left out, and those that need a file of such a line; the first line says so. Ends in one line of counts,
with status 1 where something differs.
"""
import fnmatch
import glob
import gzip
import os
import re
import shutil
import subprocess
import sys
import tempfile

sys.dont_write_bytecode = True

import believed as by_definition      # noqa: E402

TOP = os.path.dirname(os.path.dirname(os.path.abspath(__file__)))
PROGRAM = os.environ.get('RDFCONV', os.path.join(TOP, 'rdfconv'))
PAGES = ['README.md', 'docs/REFUSALS.md', 'docs/GUIDE.md']
# Programs that a line may use and a machine may lack.
OTHERS = ['parallel', 'pv', 'rapper', 'sqlite3', 'perl', 'iconv', 'git']


def read(path):
    with open(os.path.join(TOP, path), encoding='utf-8') as page:
        return page.read()


def is_stale():
    """Whether the program is missing or older than a source, so that it is proved and built when it is first started."""
    built = os.path.join(TOP, 'crates', 'rdf_tool', 'out', 'rdf_tool')
    sources = (path for part in ('src', 'specs', 'proofs') for path in glob.iglob(os.path.join(TOP, 'crates', '*', part, '**'), recursive=True))
    return not os.path.exists(built) or any(os.path.getmtime(path) > os.path.getmtime(built) for path in sources if os.path.isfile(path))


class Counts:
    def __init__(self):
        self.facts = self.lines = self.skipped = self.differ = 0

    def expect(self, what, holds):
        self.facts += 1
        if not holds:
            self.differ += 1
            print('differs: ' + what)


# Numbers and words

def limits():
    """Name, least, most and default of each option that has a number, as the code hands them to clap."""
    found = re.findall(r'name: "(\w+)",\s*least: (\d+),\s*most: (\d+),\s*default: "(\d+)"', read('crates/rdf_options/src/options.rt'))
    return [(name, int(least), int(most), int(default)) for name, least, most, default in found]


def reasons():
    """The reasons of a refusal, as messages name them; want of memory and a failed sink are told in other ways."""
    found = re.findall(r'Reason::(\w+) => "([^"]*)"', read('crates/rdf_stream/src/messages.rt'))
    return [text for name, text in found if name not in ('Memory', 'Ended', 'Sink')]


def formats():
    return re.search(r'FORMATS: [^=]*= \[(.*)\]', read('crates/rdf_command/src/names.rt'))[1].replace('"', '').split(', ')


def plain(manual):
    """The words of the manual, without its requests and fonts."""
    text = re.sub(r'\\f.|\\&', '', manual).replace('\\-', '-').replace('\\(aq', "'").replace('\\ ', ' ')
    return re.sub(r'\s+', ' ', re.sub(r'^\.\w+ ?|^\.\\".*$', '', text, flags=re.M).replace('"', ''))


def believed(crate):
    """How many lines of code each file has that has to be believed: those of the first group of the crate's specs/Lib.antt."""
    found, groups = {}, 0
    for line in read('crates/%s/specs/Lib.antt' % crate).split('\n'):
        groups += line.startswith('--')
        name = re.match(r'pub mod (\w+)', line)
        if name and groups < 2:
            code = read('crates/%s/specs/%s.antt' % (crate, name[1])).split('\n')
            found[name[1]] = sum(1 for it in code if it.strip() and not it.strip().startswith(('--', 'use ')))
    return found


def compare_counts(counts):
    """The table of what has to be believed."""
    page, total = read('docs/DEFINITIONS.md'), 0
    for crate, lines, files in re.findall(r'^\| (rdf_\w+) \| (\d+) \| ([^|]*) \|$', page, re.M):
        found = believed(crate)
        total += sum(found.values())
        counts.expect('docs/DEFINITIONS.md counts the lines of ' + crate, int(lines) == sum(found.values()))
        counts.expect('docs/DEFINITIONS.md lists the files of ' + crate, files == ', '.join('%s %d' % it for it in found.items()))
    counts.expect('docs/DEFINITIONS.md adds them up', 'That is {:,} lines in all.'.format(total) in page)
    headline, everything = ([by_definition.size(group) for group in by_definition.split(it)] for it in by_definition.cited())
    counts.expect('docs/DEFINITIONS.md counts them by definition',
                  '`convert` cites {:,} lines of the first group'.format(headline[0]) in page
                  and 'and {:,} of the second'.format(headline[1]) in page
                  and 'All public calls cite {:,} lines of the first group'.format(everything[0]) in page)


def compare(counts):
    manual, readme, refusals = plain(read('docs/rdfconv.1')), read('README.md'), read('docs/REFUSALS.md')
    source = read('crates/rdf_options/src/options.rt')
    counts.expect('four options with a number in crates/rdf_options/src/options.rt', len(limits()) == 4)
    version, kit = re.search(r'VERSION: &str = "([\d.]+), proved with (.*)";', source).groups()
    counts.expect('--version is the first of CHANGELOG.md', re.search(r'^## (\d.*)$', read('CHANGELOG.md'), re.M)[1] == version)
    counts.expect('the kit of --version is that of README', '`%s`' % kit in readme)
    for name, least, most, default in limits():
        said = '%d to %d' % (least, most)
        row = re.search(r'--%s N +.*' % name, source)[0]
        counts.expect('help of --%s' % name, row.endswith('%s [default: %d]' % (said, default)))
        counts.expect('help of --%s of a command' % name, source.count(', ' + said) >= 2)
        counts.expect('manual of --%s' % name, re.search(r'--%s N [^[]*%s; default %d\b' % (name, said, default), manual))
        counts.expect('README of --%s' % name, not re.search(r'`--%s`[^.|]*default (?!%d)\d' % (name, default), readme))
    for name in formats():
        counts.expect('manual of the format %s' % name, re.search(r'\b%s\b' % name, manual))
    counts.expect('default format', 'default_value("trig")' in source and 'default trig' in manual)
    counts.expect('twelve reasons in crates/rdf_stream/src/messages.rt', len(reasons()) == 12)
    for reason in reasons():
        counts.expect('manual has the reason ' + reason, reason in manual)
        counts.expect('docs/REFUSALS.md has a section on ' + reason, '\n### %s\n' % reason in refusals)
    header = read('examples/library/rdfconv.h')
    for name, least, most, default in limits():
        counts.expect('rdfconv.h of ' + name, re.search(r'uint64_t %s; .*%d to %d ' % (name, least, most), header))
    defaults = ', '.join(str(dict((it[0], it[3]) for it in limits())[name]) for name in ('token', 'depth', 'bindings', 'iri'))
    counts.expect('rdfconv.h has the defaults', '{ (format), %s, 0 }' % defaults in header)
    compare_counts(counts)
    compare_help(counts, manual)


def compare_help(counts, manual):
    """What the program says itself."""
    told = subprocess.run([PROGRAM, '--help'], stdout=subprocess.PIPE, stderr=subprocess.PIPE)
    if told.returncode:
        print('not compared: help, since the program does not run: ' + told.stderr.decode().strip().split('\n')[0])
        return
    for command in ('check', 'show', 'convert'):
        text = subprocess.run([PROGRAM, command, '--help'], stdout=subprocess.PIPE, check=True).stdout.decode()
        for option, value in re.findall(r'^ +(?:-\w, )?--([\w-]+)(?: <(\w+)>)?', text, re.M):
            counts.expect('manual has --%s of %s' % (option, command), ('--%s %s' % (option, value)).strip() in manual)
        for name, least, most, default in limits():
            row = re.search(r'--%s <N> .*' % name, text)[0]
            counts.expect('%s --help of --%s' % (command, name), '%d to %d [default: %d]' % (least, most, default) in row)
    completions = subprocess.run([sys.executable, os.path.join(TOP, 'packaging', 'completions.py'), '--check', PROGRAM])
    counts.expect('completions are those of the help', completions.returncode == 0)
    for status, said in re.findall(r'^  (\d)  (.*)$', told.stdout.decode(), re.M):
        counts.expect('manual has status %s' % status, re.search(r'\b%s %s' % (status, re.escape(said.split('`')[0].strip())), manual))


# The lines of the pages

def examples(page):
    """The commands of a page with the lines that should come."""
    found = []
    for line in read(page).split('\n'):
        begin = re.match(r'( {4,})\$ (.*)', line)
        if begin:
            indent = begin[1]
            found.append([begin[2], []])
        elif found and found[-1] is not None and line.startswith(indent + '> '):
            found[-1][0] += '\n' + line[len(indent) + 2:]
        elif found and found[-1] is not None and line.startswith(indent):
            found[-1][1].append(line[len(indent):])
        elif found and found[-1] is not None:
            found.append(None)
    return [(command, expected) for command, expected in filter(None, found)]


def programs_of(command):
    """The programs of OTHERS that a line needs, by itself or for a script of examples/ that it runs."""
    text = command
    for script in re.findall(r'\bexamples/[\w/]+\.sh\b', command):
        if os.path.exists(os.path.join(TOP, script)):
            text += '\n' + re.sub(r'(?m)^ *#.*', '', read(script))
    return [word for word in OTHERS if re.search(r'(?<![-\w])%s\b' % word, text)]


def files_of(command):
    """The words of a line that may name files: those that it takes, and those that it makes by `>` or tee. What a loop or parallel puts
    into a name is `*`."""
    text = re.sub(r'\{=.*?=\}|\{[^{} ]*\}|\$\w+', '*', command)
    words = re.findall(r'(>|\btee )? *([^\s\'"`|&;<>()]+)', text)
    words = [(mark, word) for mark, word in words if re.fullmatch(r'[\w./*?-]*[A-Za-z][\w./*?-]*', word)]
    return {word for mark, word in words if not mark}, {word for mark, word in words if mark}


def is_among(word, names):
    return any(fnmatch.fnmatch(word, name) or fnmatch.fnmatch(name, word) for name in names)


def plan(page):
    """The commands of a page, the lines that should come, and whether they are left out: where a program is missing, or where they take
    a file of a line that is left out, and no other makes it."""
    found, there, lost = [], set(), set()
    for command, expected in examples(page):
        takes, makes = files_of(command)
        takes = {word for word in takes if not is_among(word, there | makes) and not os.path.exists(os.path.join(TOP, word))}
        left_out = not all(map(shutil.which, programs_of(command))) or any(is_among(word, lost) for word in takes)
        if left_out:
            lost |= makes | {word for word in takes if '.' in word}
        else:
            there |= takes | makes
        found.append((command, expected, left_out))
    return found


def run_page(counts, page):
    with tempfile.TemporaryDirectory() as folder:
        shutil.copytree(os.path.join(TOP, 'examples'), os.path.join(folder, 'examples'))
        os.makedirs(os.path.join(folder, 'bin'))
        for name in ('bin/rdfconv', 'rdfconv'):
            os.symlink(PROGRAM, os.path.join(folder, name))
        how = dict(os.environ, PATH='%s/bin:%s' % (folder, os.environ['PATH']), SHELL='/bin/bash', LC_ALL='C.UTF-8', HOME=folder)
        for command, expected, left_out in plan(page):
            counts.skipped += left_out
            if left_out:
                continue
            got = subprocess.run(['bash', '-c', command], cwd=folder, env=how, stdin=subprocess.DEVNULL, stdout=subprocess.PIPE,
                                 stderr=subprocess.STDOUT).stdout.decode(errors='backslashreplace')
            counts.lines += 1
            if [line.rstrip() for line in got.split('\n')[:-1]] != [line.rstrip() for line in expected]:
                counts.differ += 1
                print('%s: $ %s\n  should give: %s\n  but gives:   %s' % (page, command, '\n               '.join(expected), got.replace('\n', '\n               ')))


# The scripts of examples/, where something is missing, full or closed

SCRIPTS = [  # the command, its status, how many lines it writes, the last line on standard error
    ('examples/blocks.py none.nt', 3, 0, 'blocks: none.nt: No such file or directory'),
    ('examples/blocks.py folder.nt', 3, 0, 'blocks: folder.nt: no file that can be cut'),
    ('examples/blocks.py bad.nt 9x', 2, 0, 'blocks: error: argument BLOCK: no such size as 64M: 9x'),
    ('examples/blocks.py bad.nt 100 > /dev/full', 3, 0, 'blocks: standard output: No space left on device'),
    ('ulimit -f 1; examples/blocks.py large.nt 5k', 153, 11, 'blocks: rdfconv ended with status 153'),
    ('examples/blocks.py bad.nt 100 --program none', 127, 0, 'blocks: none: No such file or directory'),
    ('examples/where.py none "rdfconv: no token at byte 0, line 1"', 3, 1, 'where: none: No such file or directory'),
    ('examples/where.py bad.nt "rdfconv: no token at byte 9999, line 1"', 3, 1, 'where: bad.nt has no byte 9999'),
    ('examples/where.py bad.nt "rdfconv: no token at byte 0, line 1" > /dev/full', 3, 0,
     'where: standard input or output: No space left on device'),
    ('examples/where.py bad.nt "rdfconv: bad base"', 1, 1, ''),
    ('rdfconv check --format nt bad.nt 2>&1 | sed "p;p;p" | examples/where.py bad.nt', 1, 12, ''),
    ('rdfconv check examples/library.ttl 2>&1 | examples/where.py examples/library.ttl', 0, 1, ''),
    ('examples/where.py bad.nt', 2, 0, 'where: no message'),
    # A file that is written whole or not at all
    ('rdfconv convert --format nt -o out.nq large.nt && cmp large.nt out.nq && ls out.nq*', 0, 1, ''),
    ('rdfconv convert --format nt -o out.nq bad.nt; echo $?; cmp large.nt out.nq && ls out.nq*', 0, 2, 'rdfconv: no token at byte 165, line 2'),
    ('rdfconv convert --format nt -o new.nq bad.nt; ls new.nq*', 2, 0, "ls: cannot access 'new.nq*': No such file or directory"),
    ('rdfconv convert --prefixes bad.nt -o out.nq large.nt; echo $?; cmp large.nt out.nq && ls out.nq*', 0, 2, 'rdfconv: bad prefixes at line 1'),
    ('rdfconv convert --format nt -o out.nq none.nt; ls out.nq*', 0, 1, 'rdfconv: cannot open file'),
    ('rdfconv convert --format nt --output=none/out.nq large.nt', 3, 0, 'rdfconv: cannot open file'),
    ('rdfconv convert --format nt -o folder.nt large.nt; ls -d folder.nt*', 0, 1, 'rdfconv: cannot open file'),
    ('ln -s out.nq link.nq; rdfconv convert --format nt -o link.nq large.nt; ls link.nq*', 0, 1, 'rdfconv: cannot open file'),
    ('echo held > out.nq.part; rdfconv convert --format nt -o out.nq large.nt; cat out.nq.part; rm out.nq.part', 0, 1, 'rdfconv: cannot open file'),
    ('head -n 3 large.nt > own.nq; rdfconv convert --format nt -o own.nq own.nq; cmp own.nq <(head -n 3 large.nt); ls own.nq*', 0, 1, ''),
    ('head -n 3 large.nt | rdfconv convert --format nt -oout.nq; wc -l < out.nq; ls out.nq*', 0, 2, ''),
    ('(printf "<a:> <b:> <"; head -c 90000000 /dev/zero | tr "\\0" x) 2> /dev/null | (ulimit -v 40000; rdfconv convert --token 268435456 -o out.nq); '
     'wc -l < out.nq; ls out.nq*', 0, 2, 'rdfconv: out of memory'),
    ('mkfifo pipe; (cat large.nt; sleep 2) > pipe & { timeout -s KILL 1 rdfconv convert --format nt -o out.nq pipe; } 2> /dev/null; '
     'wc -l < out.nq; ls out.nq*; rm out.nq.part', 0, 3, ''),
    ('rdfconv convert --format nt -o - large.nt; ls ./-*', 2, 400, "ls: cannot access './-*': No such file or directory"),
    # Bad lines that are put aside
    ('rdfconv convert --format nt --skip aside bad.nt', 1, 20, 'rdfconv: 20 quads, 20 lines put aside'),
    ('grep -c "a space" aside; ls aside*', 0, 2, ''),
    ('rdfconv check --format name --skip aside bad.nt', 1, 0, 'rdfconv: 20 quads, 20 lines put aside'),
    ('gzip -dc bad.nt.gz | rdfconv convert --format nq --skip aside -o kept.nq -; echo $?; wc -l < kept.nq; ls kept.nq* aside*', 0, 4,
     'rdfconv: 20 quads, 20 lines put aside'),
    ('rdfconv convert --format nt --skip aside large.nt | cmp - large.nt && wc -c < aside', 0, 1, 'rdfconv: 400 quads, 0 lines put aside'),
    ('rdfconv convert --skip aside large.nt', 2, 0, 'rdfconv: --skip takes one document of nt or nq'),
    ('rdfconv check --format nt --skip aside large.nt bad.nt', 2, 0, 'rdfconv: --skip takes one document of nt or nq'),
    ('rdfconv convert --format nt --skip none/aside bad.nt', 3, 0, 'rdfconv: cannot open file'),
    ('rdfconv convert --format nt --skip /dev/full bad.nt', 3, 0, 'rdfconv: cannot open file'),
    ('echo held > aside; rdfconv convert --format nt --skip aside none.nt; cat aside*', 0, 1, 'rdfconv: cannot open file'),
    ('rdfconv convert --format nt --skip aside folder.nt; cat aside*', 0, 1, 'rdfconv: read failed'),
    ('rdfconv convert --format nt --skip aside bad.nt > /dev/full; cat aside*', 0, 1, 'rdfconv: write failed'),
    ('trap "" XFSZ; ulimit -f 1; rdfconv check --format nt --skip aside bad.nt; cat aside*', 0, 1, 'rdfconv: write failed'),
    ('rdfconv convert --format nt --skip both -o both large.nt; ls both*', 2, 0, "ls: cannot access 'both*': No such file or directory"),
]


def run_scripts(counts):
    with tempfile.TemporaryDirectory() as folder:
        shutil.copytree(os.path.join(TOP, 'examples'), os.path.join(folder, 'examples'))
        os.makedirs(os.path.join(folder, 'bin'))
        os.symlink(PROGRAM, os.path.join(folder, 'bin', 'rdfconv'))
        os.makedirs(os.path.join(folder, 'folder.nt'))
        good, bad = (b'<http://a/%s> <http://a/p> %s .\n' % (b'x' * 50, it) for it in (b'<http://a/o>', b'<http://a/a space>'))
        packed = gzip.compress((good + bad) * 20)
        for name, data in (('bad.nt', (good + bad) * 20), ('large.nt', good * 400), ('bad.nt.gz', packed), ('cut.nt.gz', packed[:-10])):
            with open(os.path.join(folder, name), 'wb') as file:
                file.write(data)
        how = dict(os.environ, PATH='%s/bin:%s' % (folder, os.environ['PATH']), LC_ALL='C.UTF-8')
        for command, *expected in SCRIPTS:
            got = subprocess.run(['bash', '-c', command], cwd=folder, env=how, stdin=subprocess.DEVNULL, stdout=subprocess.PIPE,
                                 stderr=subprocess.PIPE)
            told = got.stderr.decode(errors='backslashreplace').rstrip('\n').split('\n')[-1]
            found = [got.returncode, got.stdout.count(b'\n'), told]
            counts.expect('%s gives %s in place of %s' % (command, found, expected), found == expected)


def main():
    counts = Counts()
    asked = sys.argv[1:]
    pages = [page for page in PAGES if not asked or any(word in page for word in asked)]
    missing = [word for word in OTHERS if not shutil.which(word)]
    if missing:
        left_out = sum(it[2] for page in pages for it in plan(page))
        print('not installed: %s; %d lines are left out' % (', '.join(missing), left_out))
    if 'RDFCONV' not in os.environ and is_stale():
        print('the program is not built of these sources, so it is proved and built first, which may take half an hour', flush=True)
    if not asked:
        compare(counts)
    if not asked or 'scripts' in asked:
        run_scripts(counts)
    for page in pages:
        run_page(counts, page)
    print('%d facts, %d lines run, %d left out, %d differ' % (counts.facts, counts.lines, counts.skipped, counts.differ))
    return 1 if counts.differ else 0


if __name__ == '__main__':
    if '--help' in sys.argv[1:]:
        print(__doc__.strip())
        sys.exit()
    sys.exit(main())
