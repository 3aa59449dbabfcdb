#!/usr/bin/env python3
"""completions.py [--check] [PROGRAM]: the completions of rdfconv for bash, zsh and fish, in packaging/completions.

They are made from what PROGRAM (./rdfconv where none is given) says in its help: its commands, the options of each, what these take, and
the first words of what is said of them. The commands come first, and then the options of that command alone. With --check the files are
compared with what would be written, and the status is 1 where one differs.
"""
import collections
import os
import re
import subprocess
import sys

TOP = os.path.dirname(os.path.dirname(os.path.abspath(__file__)))
FOLDER = os.path.join(TOP, 'packaging', 'completions')
FILES, COMMANDS, UNKNOWN = 'FILES', 'COMMANDS', 'UNKNOWN'
# What each word of the help stands for. A number, an IRI and a word are not known before they are typed.
VALUES = {'FILE': FILES, 'PREFIXES': FILES, 'OUTPUT': FILES, 'BADLINES': FILES, 'COMMAND': COMMANDS, 'N': UNKNOWN, 'IRI': UNKNOWN, 'WORD': UNKNOWN}

# `word` is the help's word for what is taken, None where nothing is. `values` is FILES, COMMANDS, UNKNOWN, or pairs of a value and what is
# said of it. A command with several arguments has `...` in its help.
Option = collections.namedtuple('Option', 'names text word values')
Command = collections.namedtuple('Command', 'name text options word values several')


# The help

def rows(told, section):
    """The lines of a section: what is named, and what is said of it."""
    found = re.search(r'^%s:\n((?: .*\n)+)' % section, told, re.M)
    return [re.split('  +', line.strip(), maxsplit=1) for line in found[1].splitlines()] if found else []


def values_of(word, text):
    """What this word of the help takes. What is said of a possible value stands behind it in a list: nt N-Triples, nq N-Quads."""
    possible = re.search(r' \[possible values: (.*?)\]', text)
    if possible:
        said = dict(re.findall(r'[:,] ([\w-]+) ([^,;[]*[^,;[ ])', text[:possible.start()]))
        return [(value, said.get(value, '')) for value in possible[1].split(', ')]
    if word not in VALUES:
        sys.exit('completions: the help has the word %s, and VALUES does not say what that stands for' % word)
    return VALUES[word]


def read_option(named, text):
    """An option, with the first sentence on it, or what of this stands before a semicolon or a colon."""
    names, _, word = named.rstrip('>').partition(' <')
    first = re.split(r'[.;:] ', re.sub(r' \[(default|possible values): .*', '', text))[0]
    return Option(names.split(', '), first, word or None, values_of(word, text) if word else None)


def read_command(program, name, text):
    told = subprocess.run([program, 'help', name], stdout=subprocess.PIPE, check=True).stdout.decode()
    options = [read_option(*row) for row in rows(told, 'Options')]
    [(named, said)] = rows(told, 'Arguments')
    word = named.strip('[]<>.')
    return Command(name, text, options, word, values_of(word, said), named.endswith('...'))


def read_help(program):
    """The commands, and what stands in front of one."""
    told = subprocess.run([program, '--help'], stdout=subprocess.PIPE, check=True).stdout.decode()
    commands = [read_command(program, name, text) for name, text in rows(told, 'Commands')]
    return commands, Command('', '', [read_option(*row) for row in rows(told, 'Options')], 'COMMAND', COMMANDS, False)


def pairs(values, commands):
    """Values that are known, each with what is said of it."""
    if values == COMMANDS:
        return [(it.name, it.text) for it in commands]
    return [] if values in (FILES, UNKNOWN) else values


# The three shells

BASH = r'''# Completions of rdfconv for bash. packaging/completions.py makes them from the help of the program.

_rdfconv() {
    local IFS=$' \t\n' word=${COMP_WORDS[COMP_CWORD]} before=${COMP_WORDS[COMP_CWORD - 1]} command= wanted= options= option
    [ "$COMP_CWORD" = 1 ] || command=${COMP_WORDS[1]}
    # bash has three words for --format=nt.
    [ "$word" != = ] || word=
    [ "$before" != = ] || before=${COMP_WORDS[COMP_CWORD - 2]}
    case "$command $before" in
@
    esac
    # No option comes twice, by any of its names, and none behind --.
    local given=" ${COMP_WORDS[*]:0:COMP_CWORD} "
    if [[ -n $options && $word = -* && $given != *' -- '* ]]; then
        wanted=
        for option in $options; do
            [[ $given =~ " "($option)" " ]] || wanted+=" ${option//|/ }"
        done
    fi
    COMPREPLY=()
    if [ "$wanted" = FILES ]; then
        compopt -o default
    else
        COMPREPLY=($(compgen -W "$wanted" -- "$word"))
    fi
}

complete -F _rdfconv rdfconv
'''


def bash(commands, top):
    def wanted(values):
        return FILES if values == FILES else "'%s'" % ' '.join(value for value, _ in pairs(values, commands))

    cases = []
    for command in commands + [top]:
        places = {}
        for option in command.options:
            if option.word:
                places.setdefault(wanted(option.values), []).extend("'%s %s'" % (command.name, name) for name in option.names)
        cases += ['    %s) wanted=%s ;;' % (' | '.join(names), values) for values, names in places.items()]
        options = ' '.join('|'.join(option.names) for option in command.options)
        cases.append("    '%s '*) wanted=%s options='%s' ;;" % (command.name, wanted(command.values), options))
    return BASH.replace('@', '\n'.join(cases))


ZSH = r'''#compdef rdfconv
# Completions of rdfconv for zsh. packaging/completions.py makes them from the help of the program.

local curcontext=$curcontext state state_descr line
local -A opt_args
_arguments -C @TOP '1: :->command' '*:: :->rest' && return
if [[ $state = command ]]; then
    local -a commands
    commands=(
@COMMANDS
    )
    _describe command commands
    return
fi
case $line[1] in
@CASES
esac
'''


def zsh(commands, top):
    def quoted(text, special):
        return re.sub(r'([\\%s])' % special, r'\\\1', text).replace("'", r"'\''")

    def taken(word, values):
        known = ' '.join(r'%s\:"%s"' % (value, quoted(text, '"$`')) for value, text in pairs(values, commands))
        return '%s:%s' % (word, '_files' if values == FILES else '((%s))' % known if known else ' ')

    def option(it):
        others = '- : *' if it.names[-1] in ('--help', '--version') else ' '.join(it.names)
        value = ':' + taken(it.word, it.values) if it.word else ''
        marks = {name: '' if not it.word else '=' if name.startswith('--') else '+' for name in it.names}
        return ["'(%s)%s%s[%s]%s'" % (others, name, marks[name], quoted(it.text, r'\[\]'), value) for name in it.names]

    def case(command):
        words = [word for it in command.options for word in option(it)]
        words.append("'%s:%s'" % ('*' if command.several else '1', taken(command.word, command.values)))
        return '%s)\n    _arguments -S \\\n        %s ;;' % (command.name, ' \\\n        '.join(words))

    known = '\n'.join("        '%s:%s'" % (it.name, quoted(it.text, ':')) for it in commands)
    text = ZSH.replace('@TOP', ' '.join(word for it in top.options for word in option(it)))
    return text.replace('@COMMANDS', known).replace('@CASES', '\n'.join(map(case, commands)))


FISH = r'''# Completions of rdfconv for fish. packaging/completions.py makes them from the help of the program.

# Whether the line is one of this command (of none yet where that is empty), and has nothing of this pattern.
function __rdfconv_in
    set -l words (commandline -opc)
    test "$words[2]" = "$argv[1]"; or return 1
    test -z "$argv[2]"; or not string match -qr -- " ($argv[2])" " $words "
end

complete -c rdfconv -f
@
'''


def fish(commands, top):
    def quoted(text):
        return "'%s'" % re.sub(r"([\\'])", r'\\\1', text)

    def taken(values):
        known = [r'%s\t"%s"' % (value, re.sub(r'([\\"$])', r'\\\1', text)) for value, text in pairs(values, commands)]
        return ' -F' if values == FILES else ' -a ' + quoted(' '.join(known)) if known else ''

    lines = []
    for command in [top] + commands:
        place = command.name or '""'
        if command.values != UNKNOWN:
            lines.append("complete -c rdfconv -n '__rdfconv_in %s'%s" % (place, taken(command.values)))
        for it in command.options:
            names = ' '.join('-l ' + name[2:] if name.startswith('--') else '-s ' + name[1:] for name in it.names)
            given = '|'.join(name + ('[= ].' if it.word else ' ') for name in it.names)
            value = (' -r' if it.values == FILES else ' -x') + taken(it.values) if it.word else ''
            lines.append("complete -c rdfconv -n '__rdfconv_in %s \"%s\"' %s%s -d %s" % (place, given, names, value, quoted(it.text)))
    return FISH.replace('@', '\n'.join(lines))


def main(words):
    is_check = words[:1] == ['--check']
    commands, top = read_help((words[is_check:] or [os.path.join(TOP, 'rdfconv')])[0])
    status = 0
    for name, shell in (('rdfconv.bash', bash), ('_rdfconv', zsh), ('rdfconv.fish', fish)):
        path, text = os.path.join(FOLDER, name), shell(commands, top)
        if not is_check:
            with open(path, 'w', encoding='utf-8') as file:
                file.write(text)
            continue
        with open(path, encoding='utf-8') as file:
            if file.read() != text:
                print('completions: packaging/completions/%s is not what packaging/completions.py makes' % name)
                status = 1
    return status


if __name__ == '__main__':
    if '--help' in sys.argv[1:]:
        print(__doc__.strip())
        sys.exit()
    sys.exit(main(sys.argv[1:]))
