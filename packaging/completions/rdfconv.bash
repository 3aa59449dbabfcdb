# Completions of rdfconv for bash. packaging/completions.py makes them from the help of the program.

_rdfconv() {
    local IFS=$' \t\n' word=${COMP_WORDS[COMP_CWORD]} before=${COMP_WORDS[COMP_CWORD - 1]} command= wanted= options= option
    [ "$COMP_CWORD" = 1 ] || command=${COMP_WORDS[1]}
    # bash has three words for --format=nt.
    [ "$word" != = ] || word=
    [ "$before" != = ] || before=${COMP_WORDS[COMP_CWORD - 2]}
    case "$command $before" in
    'check --format') wanted='nt nq ttl trig name' ;;
    'check --base' | 'check --token' | 'check --depth' | 'check --bindings' | 'check --iri') wanted='' ;;
    'check --prefixes' | 'check --skip') wanted=FILES ;;
    'check '*) wanted=FILES options='--format --base --token --depth --bindings --iri --explain --prefixes --skip -h|--help' ;;
    'show --format') wanted='nt nq ttl trig name' ;;
    'show --base' | 'show --token' | 'show --depth' | 'show --bindings' | 'show --iri') wanted='' ;;
    'show '*) wanted=FILES options='--format --base --token --depth --bindings --iri --explain -h|--help' ;;
    'convert --format') wanted='nt nq ttl trig name' ;;
    'convert --base' | 'convert --token' | 'convert --depth' | 'convert --bindings' | 'convert --iri' | 'convert --node-prefix' | 'convert --graph') wanted='' ;;
    'convert --prefixes' | 'convert -o' | 'convert --output' | 'convert --skip') wanted=FILES ;;
    'convert '*) wanted=FILES options='--format --base --token --depth --bindings --iri --explain --prefixes --ascii --node-prefix --graph -o|--output --skip -h|--help' ;;
    'help '*) wanted='check show convert help' options='' ;;
    ' '*) wanted='check show convert help' options='-h|--help -V|--version' ;;
    esac
    # No option comes twice, by any of its names, and none behind --.
    local given=" ${COMP_WORDS[*]:0:COMP_CWORD} "
    if [[ -n $options && $word = -* && $given != *' -- '* ]]; then
        wanted=
        for option in $options; do
            [[ $given =~ " "($option)" " ]] || wanted+=" ${option//|/ }"
        done
    fi
    COMPREPLY=()
    if [ "$wanted" = FILES ]; then
        compopt -o default
    else
        COMPREPLY=($(compgen -W "$wanted" -- "$word"))
    fi
}

complete -F _rdfconv rdfconv
