# Completion for bash: r2u2, c2po and the tools. A name of a file is completed wherever no option is.

_r2u2_options() {
    case $1 in
        r2u2) echo --source --runs --timed --mission-time --demo --help ;;
        c2po) echo --header --output --table --simplify --upgrade --show --help ;;
        r2u2-budget) echo --rate --top --json --max-slots --max-steps --max-reports --max-delay --max-bytes --help ;;
        r2u2-compare) echo --timed --random --rows --seed --keep --markdown --help ;;
        r2u2-probe) echo --timed --json --no-margins --fail-untried --least-noticed --help ;;
        r2u2-convert) echo --mission --rate --spec --scale --signals --write-signals --ids -o --help ;;
        r2u2-generate) echo --handlers --on --keep-rows --signals -o --help ;;
        r2u2-check) echo --json --sarif --timed --format --diff --write --server --help ;;
        r2u2-play) echo --port --no-browser --timed --help ;;
        r2u2-timeline) echo --html --trace --spec --all-columns --changing --from --to --unit --rate --ticks --title -o --help ;;
        r2u2-trace) echo --spec --columns --signals --names --rename --scale --map --round --hex --missing --within --time --rate \
            --time-unit --start --snap --stamps --sort --dedupe --hold --delimiter --decimal-comma --skip --comment --format --long -o --help ;;
        r2u2-verdicts) echo --json --junit --tap --github --ignore --spec --log --exercised --fail-untried --fail-undecided --diff --merge --help ;;
        r2u2-watch) echo --timed --on-false --stop-at-first --keep --quiet --help ;;
        r2u2-why) echo --timed --begin --seconds --html --help ;;
    esac
}

# Options before a word that is neither a file nor an option.
_r2u2_takes_a_word() {
    case $1 in
        --mission-time | --demo | --random | --rows | --seed | --least-noticed | --rate | --top | --max-slots | --max-steps | --max-reports | --max-delay | --max-bytes | --from | --to | --ticks | --title) ;;
        --columns | --names | --rename | --scale | --map | --round | --time | --start | --delimiter | --ignore | --log) ;;
        --hex | --missing | --within | --time-unit | --snap | --skip | --comment | --format | --long | --unit | --mission) ;;
        --port | --on-false | --on) ;;
        *) return 1 ;;
    esac
}

_r2u2() {
    local word=${COMP_WORDS[COMP_CWORD]} before=${COMP_WORDS[COMP_CWORD - 1]}
    COMPREPLY=()
    _r2u2_takes_a_word "$before" && return
    if [[ ${COMP_WORDS[0]##*/} == r2u2-convert && $COMP_CWORD == 1 && $word != -* ]]; then
        mapfile -t COMPREPLY < <(compgen -W "from-c2po from-map from-fret to-vcd to-csv to-json" -- "$word")
        return
    fi
    case $word in
        -*) mapfile -t COMPREPLY < <(compgen -W "$(_r2u2_options "${COMP_WORDS[0]##*/}")" -- "$word") ;;
        *) mapfile -t COMPREPLY < <(compgen -f -- "$word") ;;
    esac
}

complete -o filenames -F _r2u2 r2u2 c2po r2u2-budget r2u2-check r2u2-compare r2u2-convert r2u2-generate r2u2-play r2u2-probe r2u2-timeline r2u2-trace r2u2-verdicts r2u2-watch r2u2-why
