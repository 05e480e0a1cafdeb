# Completion of the command `uff` for bash.

# The commands.
_uff_commands='judge list number field values rewrite watch help version'

# COMMAND: its options.
_uff_options() {
    case $1 in
        judge) echo -H -j -q -r -v -h ;;
        list) echo -j -v -h ;;
        number | field | rewrite) echo -v -h ;;
        values) echo -H -n -v -h ;;
        watch) echo -j -t -v -w -h ;;
    esac
}

# COMMAND: the number of its first word that is the name of a file.
_uff_first() {
    case $1 in
        field) echo 1 ;;
        *) echo 0 ;;
    esac
}

# COMMAND: how many of its words are names of files.
_uff_files() {
    case $1 in
        judge) echo 1000000 ;;
        list | number | field | values | watch) echo 1 ;;
        rewrite) echo 2 ;;
        *) echo 0 ;;
    esac
}

_uff() {
    local word=${COMP_WORDS[COMP_CWORD]} command=${COMP_WORDS[1]} ended= names=0 i
    COMPREPLY=()
    if [ "$COMP_CWORD" -eq 1 ]; then
        mapfile -t COMPREPLY < <(compgen -W "$_uff_commands -h -V --help --version" -- "$word")
        return
    fi
    for ((i = 2; i < COMP_CWORD; i++)); do
        case $ended${COMP_WORDS[i]} in
            --) ended=x ;;
            -t | -[jvw]*t) i=$((i + 1)) ;;
            -?*) ;;
            *) names=$((names + 1)) ;;
        esac
    done
    [ "$i" -eq "$COMP_CWORD" ] || return
    if [ "$command" = help ]; then
        [ "$names" -gt 0 ] || mapfile -t COMPREPLY < <(compgen -W "$_uff_commands" -- "$word")
    elif [[ -z $ended && $word == -* ]]; then
        mapfile -t COMPREPLY < <(compgen -W "$(_uff_options "$command")" -- "$word")
    elif ((names >= $(_uff_first "$command") && names < $(_uff_first "$command") + $(_uff_files "$command"))); then
        compopt -o filenames 2>/dev/null
        mapfile -t COMPREPLY < <(compgen -f -- "$word")
    fi
}

complete -F _uff uff
