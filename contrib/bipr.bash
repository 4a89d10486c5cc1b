# Completion for bipr in bash: `source contrib/bipr.bash`, as in ~/.bashrc. Commands, options and the
# values of options are read from the help of the program that is called; all else is a path.
_bipr() {
    local word=${COMP_WORDS[COMP_CWORD]} before=${COMP_WORDS[COMP_CWORD - 1]} command='' it help
    # `--option=value` comes as three words
    [[ $before != = ]] || before=${COMP_WORDS[COMP_CWORD - 2]}
    [[ $word != = ]] || word=''
    for it in "${COMP_WORDS[@]:1:COMP_CWORD-1}"; do
        [[ $it == -* ]] || { command=$it && break; }
    done
    [[ $command != help ]] || command=''
    help=$("${COMP_WORDS[0]}" ${command:+"$command"} --help 2>/dev/null </dev/null) || return 0
    if [[ $before == --* ]] && it=$(grep -E "^ +$before <" <<<"$help"); then
        # a value: one of those that are named, or a number
        it=$(sed -n 's/.*\[possible values: \([^]]*\)\].*/\1/p' <<<"$it")
        COMPREPLY=($(compgen -W "${it//,/}" -- "$word"))
    elif [[ $word == -* ]]; then
        it=$(sed -nE 's/^ +(-[a-zA-Z], )?(--[a-z-]+)( .*)?$/\2/p' <<<"$help")
        COMPREPLY=($(compgen -W "$it" -- "$word"))
    elif [[ -z $command ]]; then
        it=$(sed -nE '/^Commands:$/,/^$/s/^  ([a-z]+) .*/\1/p' <<<"$help")
        COMPREPLY=($(compgen -W "$it" -- "$word"))
    else
        compopt -o filenames 2>/dev/null
        mapfile -t COMPREPLY < <(compgen -f -- "$word")
    fi
}
complete -F _bipr bipr
