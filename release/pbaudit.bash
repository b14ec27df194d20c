# Completion of pbaudit in bash. It is made of the program's help.
_pbaudit_options() {
    case $1 in
        '') printf '%s\n' -h --help -V --version ;;
        read) printf '%s\n' --json -h --help ;;
        groups) printf '%s\n' --satisfaction --outcome --json -h --help ;;
        prices) printf '%s\n' --stable --no-exhaustive --cover --outcome --json -h --help ;;
        violation) printf '%s\n' --outcome --json -h --help ;;
        refutation) printf '%s\n' --stable --outcome --json -h --help ;;
        both) printf '%s\n' --stable --no-exhaustive --cover --outcome --json -h --help ;;
        explain) printf '%s\n' --groups --satisfaction --stable --no-exhaustive --cover --outcome --json -h --help ;;
        page) printf '%s\n' --groups --satisfaction --stable --no-exhaustive --cover --outcome --language -h --help ;;
        margins) printf '%s\n' --groups --satisfaction --outcome -h --help ;;
        tidy) printf '%s\n' -h --help ;;
        folder) printf '%s\n' --stable --no-exhaustive --cover --json -h --help ;;
    esac
}

# What stands for a word behind this option of a command, or for an argument of it.
_pbaudit_kind() {
    case "$1 $2" in
        'page --language') printf 'words en pl de fr' ;;
        'folder ') printf folder ;;
        'help ') printf command ;;
        *) printf file ;;
    esac
}

_pbaudit() {
    local word=${COMP_WORDS[COMP_CWORD]} before=${COMP_WORDS[COMP_CWORD - 1]} command='' kind='' closed='' i
    for ((i = 1; i < COMP_CWORD; i++)); do
        case ${COMP_WORDS[i]} in
            --) closed=yes ;;
            -*) ;;
            *) [ -n "$command" ] || command=${COMP_WORDS[i]} ;;
        esac
    done
    # An option and its value may be one word: --option=value.
    if [ "$word" = = ]; then
        word=''
    elif [ "$before" = = ]; then
        before=${COMP_WORDS[COMP_CWORD - 2]}
    fi
    COMPREPLY=()
    case $command:$before in
        groups:--satisfaction | groups:--outcome | prices:--outcome | violation:--outcome | refutation:--outcome | both:--outcome | explain:--satisfaction | explain:--outcome | page:--satisfaction | page:--outcome | page:--language | margins:--satisfaction | margins:--outcome) kind=$(_pbaudit_kind "$command" "$before") ;;
    esac
    if [ -z "$kind" ]; then
        if [ -z "$closed" ] && [[ $word == -* ]]; then
            mapfile -t COMPREPLY < <(compgen -W "$(_pbaudit_options "$command")" -- "$word")
            return
        fi
        kind='command'
        [ -z "$command" ] || kind=$(_pbaudit_kind "$command" '')
    fi
    case $kind in
        command) mapfile -t COMPREPLY < <(compgen -W 'read groups prices violation refutation both explain page margins tidy folder help' -- "$word") ;;
        'words '*) mapfile -t COMPREPLY < <(compgen -W "${kind#words }" -- "$word") ;;
        folder) compopt -o filenames 2> /dev/null || true; mapfile -t COMPREPLY < <(compgen -d -- "$word") ;;
        *) compopt -o filenames 2> /dev/null || true; mapfile -t COMPREPLY < <(compgen -f -- "$word") ;;
    esac
}
complete -F _pbaudit pbaudit
