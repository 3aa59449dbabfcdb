#!/bin/bash
# try_completions.sh SHELL [FOLDER]: types lines into bash, zsh or fish and asks for completions, as somebody at a terminal does, and compares
# what comes with the words below. The completions are those of FOLDER; where none is given, the shell has to find the installed ones.
set -euo pipefail
shell=$1 from=
[ $# = 1 ] || from=$(cd "$2" && pwd)
type "$shell" >/dev/null 2>&1 || { echo "left out: $shell is not installed"; exit 0; }
room=$(mktemp -d)
trap 'rm -rf "$room"' EXIT
export HOME=$room TERM=dumb LC_ALL=C.UTF-8
mkdir -p "$room/in/dumps"
cd "$room/in"
touch library.nt library.ttl 'my file.ttl' prefixes.txt

# Behind | the words that should come for a line.
cat >"$room/table" <<'END'
rdfconv |check show convert help
rdfconv con|convert
rdfconv -|-h --help -V --version
rdfconv zz|
./rdfconv sh|show
rdfconv help con|convert
rdfconv show --|--format --base --token --depth --bindings --iri --explain --help
rdfconv check --|--format --base --token --depth --bindings --iri --explain --prefixes --help
rdfconv convert --|--format --base --token --depth --bindings --iri --explain --prefixes --ascii --node-prefix --graph --output --help
rdfconv check --as|
rdfconv convert --f|--format
rdfconv convert --format |nt nq ttl trig name
rdfconv convert --format t|ttl trig
rdfconv convert --format=t|ttl trig
rdfconv convert --format lib|
rdfconv convert --format nt --f|
rdfconv convert --format=nt --f|
rdfconv convert --ascii --as|
rdfconv check -h --he|
rdfconv --version |
rdfconv convert --format nt --as|--ascii
rdfconv check --depth |
rdfconv check --token l|
rdfconv check --base l|
rdfconv convert --node-prefix=l|
rdfconv check --prefixes p|prefixes.txt
rdfconv check --prefixes=p|prefixes.txt
rdfconv check |dumps library.nt library.ttl my\ file.ttl prefixes.txt
rdfconv check --format ttl my|my\ file.ttl
rdfconv convert -- l|library.nt library.ttl
rdfconv convert -- --|
rdfconv other l|
END

# bash reads its keys from a pipe: Escape * puts all completions into the line, and Control-X w writes the line down.
ask_bash() {
    local load=${from:-/usr/share/bash-completion}/rdfconv.bash
    [ -n "$from" ] || load=/usr/share/bash-completion/bash_completion
    cat >"$room/rc" <<END
. '$load'
write_down() { printf '%s\n' "\$READLINE_LINE" >>'$room/lines'; READLINE_LINE= READLINE_POINT=0; }
bind -x '"\C-xw": write_down'
END
    while IFS='|' read -r line _; do
        printf '%s\033*\030w' "$line"
    done <"$room/table" | bash --noprofile --rcfile "$room/rc" -i
}

# zsh wants a terminal, which another zsh gives it. The keys are the same.
ask_zsh() {
    cat >"$room/rc" <<END
${from:+fpath=('$from' \$fpath)}
autoload -Uz compinit
compinit -u -D
insert_all() { compstate[insert]=all compstate[list]= }
complete_all() { comppostfuncs=(insert_all); _main_complete }
write_down() { print -r -- "\$BUFFER" >>'$room/lines'; BUFFER= }
zle -C complete_all complete-word complete_all
zle -N write_down
bindkey '\e*' complete_all
bindkey '^Xw' write_down
END
    cat >"$room/keys" <<'END'
zmodload zsh/zpty
zpty asked zsh -f -i
zpty -w asked "source $1/rc"
while IFS='|' read -r line words; do
    zpty -n -w asked "$line"$'\e*\x18w'
done <$1/table
zpty -w asked exit
zpty -r asked said '*nothing that comes*'
print -r -- $said
END
    zsh -f "$room/keys" "$room"
}

# fish is asked by its own command for that.
ask_fish() {
    cat >"$room/rc" <<END
${from:+source '$from/rdfconv.fish'}
while read -d '|' -l line words
    set -l found (complete -C \$line | string replace -r '\t.*' '')
    set -l head (string replace -r '[^ =]*\$' '' -- \$line)
    test (count \$found) = 0; and echo \$line; or echo \$head(string join ' ' -- \$found)
end <'$room/table' >'$room/lines'
END
    fish "$room/rc"
}

# The words of a line one below the other, the same for all shells, without --format= in front, = or / behind, and \ before a space.
words() {
    tr ' ' '\n' | sed 's/^--[a-z-]*=\(..*\)/\1/; s|[=/\\]$||; /^$/d' | sort
}

"ask_$shell" >"$room/said" 2>&1 || true
tried=0 failed=0
touch "$room/lines"
while IFS='|' read -r line wanted <&3; do
    tried=$((tried + 1))
    came=none
    IFS= read -r came <&4 || true
    if [ "$came" = "$line" ]; then came=; else came=${came#"${line%"${line##*[ =]}"}"}; fi
    if [ "$(words <<<"$came")" != "$(words <<<"$wanted")" ]; then
        printf '%s: %s\n    should give: %s\n    but gives:   %s\n' "$shell" "$line" "$wanted" "$came"
        failed=$((failed + 1))
    fi
done 3<"$room/table" 4<"$room/lines"
[ $failed -lt $tried ] || tail -n 20 "$room/said"
echo "$shell: $tried lines, $failed failed"
[ $failed = 0 ]
