#!/usr/bin/env python3
"""Tries marks of functions in the module that the program is compiled of: what is called where it was inlined, or inlined where it was called,
and what each document takes then. So a form can be ranked in the program itself before it is proved; the repository stays as it is.

    bench/marks.py                                    # the largest functions with a mark, and those that lost theirs
    bench/marks.py rdf_trig::give::give_all=never rdf_tokens::peek::tag_len=always,rdf_driver::reading::read_seen=none
                                                      # for each word, by how many per cent the instructions of each document change

A word names functions by their path, without an instance, with always, never or none; several are joined by commas. A mark that is given here stays,
where the kit drops one from a function that is too large with what is marked in it (docs/TUNING.md, "What LLVM inlines"): so compare the sizes too.

The program is to be built (`./rdfconv --help`); Debian: valgrind. The module is made anew in a scratch folder, which takes a minute or two, and each word takes a
minute of one processor.
"""
import concurrent.futures
import os
import re
import shutil
import subprocess
import sys
import tempfile

import documents
import runs

TOP = os.path.dirname(os.path.dirname(os.path.abspath(__file__)))
MEGABYTES = 0.25
LISTED = 40
MEASURED = [(kind, 'convert') for kind in ('catalogue', 'vocabulary', 'ttl', 'indented', 'trig', 'names', 'objects', 'collection', 'labels', 'small', 'nested')]
MEASURED += [(kind, 'check') for kind in ('catalogue', 'ttl', 'names', 'labels', 'nt')]
WORDS = {'always': 'alwaysinline', 'never': 'noinline', 'none': ''}

# Takes the place of the kit's clang: keeps what it is given, and runs that.
KEEPER = '''#!/bin/sh
for word; do
    case $word in *.bc) cp "$word" %(kept)s/module.bc && printf '%%s\\n' "$@" >%(kept)s/words ;; esac
done
exec %(kit)s/toolchain/bin/clang "$@"
'''


def kit_folder():
    page = subprocess.run(['rt', 'doc'], stdout=subprocess.PIPE, check=True).stdout.decode().strip()
    return os.path.dirname(page)


def link_all(source, target, left_out):
    os.makedirs(target)
    for name in os.listdir(source):
        if name != left_out:
            os.symlink(os.path.join(source, name), os.path.join(target, name))


def link_or_copy(source, target):
    try:
        os.link(source, target)
    except OSError:
        shutil.copy2(source, target)


def copy_of_kit(kit, folder):
    """A kit by links, whose clang keeps the module. Its own programs are copies, since they look for what stands beside them."""
    link_all(kit, folder, 'toolchain')
    os.remove(os.path.join(folder, 'bin'))
    shutil.copytree(os.path.join(kit, 'bin'), os.path.join(folder, 'bin'))
    link_all(os.path.join(kit, 'toolchain'), os.path.join(folder, 'toolchain'), 'bin')
    link_all(os.path.join(kit, 'toolchain', 'bin'), os.path.join(folder, 'toolchain', 'bin'), 'clang')
    keeper = os.path.join(folder, 'toolchain', 'bin', 'clang')
    with open(keeper, 'w') as f:
        f.write(KEEPER % {'kept': os.path.dirname(folder), 'kit': kit})
    os.chmod(keeper, 0o755)


def keep_module(kit, folder):
    """Builds the program in a copy of the repository, with that kit: the module as LLVM's text, and what clang was told."""
    copy_of_kit(kit, os.path.join(folder, 'kit'))
    copy = os.path.join(folder, 'copy')
    for crate in os.listdir(os.path.join(TOP, 'crates')):
        for part in ('src', 'specs', 'proofs', 'out/rlib') + (('out/incremental',) if crate == 'rdf_tool' else ()):
            source = os.path.join(TOP, 'crates', crate, part)
            if os.path.isdir(source):
                shutil.copytree(source, os.path.join(copy, 'crates', crate, part), copy_function=link_or_copy if part == 'out/rlib' else shutil.copy2)
    shutil.copy2(os.path.join(TOP, 'crates.txt'), copy)
    subprocess.run([os.path.join(folder, 'kit', 'bin', 'rt'), 'run', '--', '--version'], cwd=os.path.join(copy, 'crates', 'rdf_tool'),
                   stdin=subprocess.DEVNULL, stdout=subprocess.PIPE, stderr=subprocess.STDOUT, check=True)
    shutil.rmtree(copy)
    text = os.path.join(folder, 'module.ll')
    subprocess.run([os.path.join(kit, 'toolchain', 'bin', 'clang'), '-x', 'ir', os.path.join(folder, 'module.bc'), '-S', '-emit-llvm', '-O0', '-Xclang',
                    '-disable-llvm-passes', '-o', text], stderr=subprocess.DEVNULL, check=True)
    with open(text) as f, open(os.path.join(folder, 'words')) as told:
        return f.read(), told.read().splitlines()


def groups(text):
    """The attributes of each group, by its name."""
    return dict(re.findall(r'^attributes (#\d+) = \{ (.*) \}$', text, re.M))


def functions(text):
    """Of each function its instructions, what it calls, and whether it is marked to be inlined."""
    attributes, found, name = groups(text), {}, None
    for line in text.splitlines():
        begins = re.match(r'define .*?@"?([^"(]+(?:"|(?=\())).*\) (#\d+) \{$', line)
        if begins:
            name = begins.group(1).rstrip('"')
            found[name] = [0, [], 'alwaysinline' in attributes[begins.group(2)]]
        elif line.startswith('}'):
            name = None
        elif name and line.startswith('  '):
            found[name][0] += 1
            found[name][1] += re.findall(r'call [^@]*@"([^"]+)"\(', line)
    return found


def sizes(found):
    """The instructions of each function, with what is marked in it."""
    known = {}

    def size(name):
        if name not in known:
            own, called, _ = found[name]
            known[name] = own
            known[name] += sum(size(other) for other in called if other in found and found[other][2])
        return known[name]

    return {name: size(name) for name in found}


def path_of(name):
    return re.sub(r'::<.*', '', name)


def marked_in_source():
    """The paths of functions that the sources mark to be inlined: the crate and the last part of the path."""
    marked = set()
    for crate in os.listdir(os.path.join(TOP, 'crates')):
        for folder, _, names in os.walk(os.path.join(TOP, 'crates', crate, 'src')):
            for name in filter(lambda n: n.endswith('.rt'), names):
                with open(os.path.join(folder, name)) as f:
                    for function in re.findall(r'#\[inline\(always\)\]\s+(?:pub(?:\(\w+\))? )?(?:const )?fn (\w+)', f.read()):
                        marked.add((crate, function))
    return marked


def list_sizes(text):
    found = functions(text)
    known, marked = sizes(found), marked_in_source()
    largest = {}
    for name, size in known.items():
        path = path_of(name)
        if found[name][2] or (path.split('::')[0], path.split('::')[-1]) in marked:
            largest[path] = max(largest.get(path, (0, False)), (size, found[name][2]))
    for path, (size, is_marked) in sorted(largest.items(), key=lambda item: -item[1][0])[:LISTED]:
        print('%6d  %s%s' % (size, path, '' if is_marked else '   (no mark)'))


def with_marks(text, word):
    """The module with a word's marks: each of its attributes becomes a group that is added."""
    plain = next(rest for rest in groups(text).values() if rest.startswith('nounwind "probe-stack"'))
    for number, part in enumerate(word.split(',')):
        path, mark = part.split('=')
        group = '#%d' % (9000 + number)
        text, count = re.subn(r'^(define [^\n]*@"%s(?:::<[^"\n]*)?"\([^\n]*\) )#\d+ \{$' % re.escape(path), lambda m: m.group(1) + group + ' {', text, flags=re.M)
        if not count:
            sys.exit('no function: ' + path)
        text += '\nattributes %s = { %s %s }\n' % (group, WORDS[mark], plain)
    return text


def build(kit, told, text, folder):
    """Compiles a module as the kit does, and links it."""
    source, made, program = (os.path.join(folder, name) for name in ('module.ll', 'module.o', 'program'))
    with open(source, 'w') as f:
        f.write(text)
    words = [{'module.bc': source, 'module.o': made, '-Werror': '-Wno-everything'}.get(os.path.basename(w), w) for w in told]
    subprocess.run([os.path.join(kit, 'toolchain', 'bin', 'clang')] + words, check=True, stderr=subprocess.DEVNULL)
    libraries = [os.path.join(kit, 'c', name) for name in ('libos_c.a', 'liblibc_c.a')]
    subprocess.run([os.path.join(kit, 'bin', 'rattle-link'), '--target', 'x86_64-unknown-linux-gnu', '--toolchain', os.path.join(kit, 'toolchain'),
                    '-o', program, made] + libraries, check=True, stdout=subprocess.DEVNULL, stderr=subprocess.DEVNULL)
    return program


def measure(program, folder):
    found = {}
    for kind, command in MEASURED:
        with open(os.path.join(folder, kind), 'rb') as f:
            status, found[kind, command] = runs.instructions([program, command, '--format', documents.DOCUMENTS[kind].format], f)
        if status:
            sys.exit('%s of %s: status %d' % (command, kind, status))
    return found


def main():
    words = sys.argv[1:]
    if words and words[0] in ('-h', '--help'):
        sys.exit(__doc__)
    kit = kit_folder()
    with tempfile.TemporaryDirectory() as folder:
        text, told = keep_module(kit, folder)
        if not words:
            return list_sizes(text)
        for kind in {kind for kind, _ in MEASURED}:
            documents.write(kind, MEGABYTES, os.path.join(folder, kind))

        def of(word):
            with tempfile.TemporaryDirectory() as scratch:
                return measure(build(kit, told, with_marks(text, word) if word else text, scratch), folder)

        with concurrent.futures.ThreadPoolExecutor(max(1, os.cpu_count() // 2)) as pool:
            before, *after = pool.map(of, [''] + words)
        print('%-14s' % '' + ' '.join('%6s' % kind[:6] for kind, _ in MEASURED))
        print('%-14s' % '' + ' '.join('%6s' % command[:6] for _, command in MEASURED))
        for word, found in zip(words, after):
            print(word)
            print('%-14s' % '' + ' '.join('%+6.2f' % (100 * (found[key] / before[key] - 1)) for key in MEASURED))


if __name__ == '__main__':
    if '--help' in sys.argv[1:]:
        print(__doc__.strip())
        sys.exit()
    main()
