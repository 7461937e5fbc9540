#compdef plantbal
# Completion of plantbal for zsh. Made by packaging/derived write: change that, or the words themselves.

_plantbal() {
    local -a specifications
    local word at
    for ((at = 2; at < CURRENT; at++)); do
        case $words[at] in run|check|make) word=$words[at]; break ;; esac
    done
    case $word in
    run)
        specifications=(
            '--gap=[The greatest gap at which a stage counts as converged, in thousandths of a standard deviation, from 1 to 1000000]:N:'
            '--sweeps=[The greatest number of sweeps of a stage, from 0 to 100000]:N:'
            '--tests[Makes the global, the nodal and the measurement tests of each stage]'
            '--eliminate=[The greatest number of rounds of elimination, from 1 to 20]:N:'
            '--format=[The form of the output\: csv or json, one object on a line for each row]:F:(csv json)'
            '1:word:(run)'
        ) ;;
    check)
        specifications=(
            '1:word:(check)'
        ) ;;
    make)
        specifications=(
            '--number=[The number from which the session is made, 0 to 4294967295]:N:'
            '--streams=[How many streams the made session has, from 3 to 2000]:N:'
            '--summary[Writes the summary row in place of the session]'
            '--gap=[The greatest gap at which a stage counts as converged, in thousandths of a standard deviation, from 1 to 1000000]:N:'
            '--sweeps=[The greatest number of sweeps of a stage, from 0 to 100000]:N:'
            '1:word:(make)'
        ) ;;
    *)
        specifications=(
            '--gap=[The greatest gap at which a stage counts as converged, in thousandths of a standard deviation, from 1 to 1000000]:N:'
            '--sweeps=[The greatest number of sweeps of a stage, from 0 to 100000]:N:'
            '--tests[Makes the global, the nodal and the measurement tests of each stage]'
            '--eliminate=[The greatest number of rounds of elimination, from 1 to 20]:N:'
            '--format=[The form of the output\: csv or json, one object on a line for each row]:F:(csv json)'
            '--number=[The number from which the session is made, 0 to 4294967295]:N:'
            '--streams=[How many streams the made session has, from 3 to 2000]:N:'
            '--summary[Writes the summary row in place of the session]'
            "1:word:((run\:'read a session and write its reports' check\:'judge reports by their own numbers' make\:'make a session from a number'))"
        ) ;;
    esac
    _arguments -s : $specifications
}

_plantbal "$@"
