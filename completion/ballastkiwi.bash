# Completion of the program's commands and options, for bash. checks/manual.py compares its words with --help.
_ballastkiwi() {
    local word=$2
    local commands="replay history check decode make live"
    declare -A options=(
        [replay]="--mtu= --ssrc= --seq= --stamp="
        [history]=""
        [check]="--format="
        [decode]="--format="
        [make]="--seed= --ticks= --lanes="
        [live]="--lanes= --chair= --mtu= --ssrc= --seq= --stamp= --turns="
    )
    COMPREPLY=()
    if [ "$COMP_CWORD" -eq 1 ]; then
        mapfile -t COMPREPLY < <(compgen -W "$commands --help --version" -- "$word")
        return
    fi
    compopt -o nospace 2> /dev/null
    local line=${COMP_LINE:0:COMP_POINT}
    # bash takes the sign of a value as a word of its own
    case ${line##* } in
        --format=*) mapfile -t COMPREPLY < <(compgen -W "qcif cif" -- "${word#=}") ;;
        --lanes=* | --chair=*) [ "${COMP_WORDS[1]}" = live ] && mapfile -t COMPREPLY < <(compgen -f -- "${word#=}") ;;
        --*=*) ;;
        *) mapfile -t COMPREPLY < <(compgen -W "${options[${COMP_WORDS[1]}]} --help" -- "$word") ;;
    esac
}
complete -F _ballastkiwi ballastkiwi
