# Completion of plantbal for bash. Made by packaging/derived write: change that, or the words themselves.

_plantbal_words() { # WORDS: those of them that begin as the word at hand
    mapfile -t COMPREPLY < <(compgen -W "$1" -- "$here")
}

_plantbal_files() { # -f or -d: files, or folders, that begin so
    compopt -o filenames 2>/dev/null
    mapfile -t COMPREPLY < <(compgen "$1" -- "$here")
}

_plantbal() {
    local here=${COMP_WORDS[COMP_CWORD]} before=${COMP_WORDS[COMP_CWORD - 1]} word= at
    COMPREPLY=()
    # An equals sign is a word of its own here.
    if [[ $here == = ]]; then
        here=
    elif [[ $before == = ]]; then
        before=${COMP_WORDS[COMP_CWORD - 2]}
    fi
    for ((at = 1; at < COMP_CWORD; at++)); do
        case ${COMP_WORDS[at]} in
        run|check|make) word=${COMP_WORDS[at]}; break ;;
        esac
    done
    case $word:$before in
        run:--gap) :; return ;;
        run:--sweeps) :; return ;;
        run:--eliminate) :; return ;;
        run:--format) _plantbal_words 'csv json'; return ;;
        make:--number) :; return ;;
        make:--streams) :; return ;;
        make:--gap) :; return ;;
        make:--sweeps) :; return ;;
    esac
    case $word in
    run)
        _plantbal_words '--gap --sweeps --tests --eliminate --format' ;;
    check)
        _plantbal_words '' ;;
    make)
        _plantbal_words '--number --streams --summary --gap --sweeps' ;;
    *) _plantbal_words 'run check make --gap --sweeps --tests --eliminate --format --number --streams --summary' ;;
    esac
}

complete -F _plantbal plantbal
