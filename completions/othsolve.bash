# Completion of othsolve for bash. ./install puts it into PREFIX/share/bash-completion/completions.

# The commands, a line each: its name, its options, and FILE where it takes one, or FILES where it takes several. A new command is a new line; a new option is a case of
# _othsolve_values too, or of _othsolve_read where it takes no value.
_othsolve_commands='
solve --workers --cells --scoring --book --explain --strict FILES
scores --workers --cells --scoring --explain --strict FILES
moves --explain --strict FILES
transcript --explain --strict FILES
play --explain --strict FILES
analyse --workers --cells --scoring --last --explain --strict FILES
book-verify --explain FILE
book-add --workers --cells --explain FILE
'

# Completes the value of an option: words, or files.
_othsolve_values() {
    case $1 in
        --workers) _othsolve_words "$2" "$(echo {1..16})" ;;
        --cells) _othsolve_words "$2" '0 1 2 4 8 16 32 64 128 256 512 1024 2048 4096 8192 16384 32768 65536 131072 262144' ;;
        --last) _othsolve_words "$2" "$(echo {1..30})" ;;
        --scoring) _othsolve_words "$2" 'winner discs' ;;
        --book) _othsolve_files "$2" ;;
        *) return 1 ;;
    esac
}

_othsolve_words() {
    mapfile -t COMPREPLY < <(compgen -W "$2" -- "$1")
}

_othsolve_files() {
    mapfile -t COMPREPLY < <(compgen -f -- "$1")
    compopt -o filenames 2> /dev/null || true
}

# The options of a command, and FILE.
_othsolve_line() {
    local line
    while read -r line; do
        [[ $line == "$1" || $line == "$1 "* ]] && echo "${line#"$1"}"
    done <<< "$_othsolve_commands"
}

# Reads the words in front of the cursor: sets `command`, and `given`, how many arguments follow it that are neither options nor their values.
_othsolve_read() {
    local word skip=''
    command='' given=0
    for word in "${COMP_WORDS[@]:1:COMP_CWORD-1}"; do
        case $word in
            -h | --help | -V | --version | --explain | --strict | = | --*=*) ;;
            -* | *[\<\>]) skip=yes ;;
            *)
                if [ -n "$skip" ]; then
                    skip=''
                elif [ -z "$command" ]; then
                    command=$word
                else
                    ((given += 1))
                fi
                ;;
        esac
    done
}

_othsolve() {
    local cur=${COMP_WORDS[COMP_CWORD]} prev=${COMP_WORDS[COMP_CWORD-1]} command given names
    COMPREPLY=()
    case $cur in =) cur= ;; *[\<\>]) prev=$cur cur= ;; *) [ "$prev" != = ] || prev=${COMP_WORDS[COMP_CWORD-2]} ;; esac
    case $prev in *[\<\>]) _othsolve_files "$cur"; return ;; esac
    _othsolve_values "$prev" "$cur" && return
    _othsolve_read
    names=$(while read -r name _; do echo "$name"; done <<< "$_othsolve_commands")
    case $command in
        '') _othsolve_words "$cur" "$names help --help --version" ;;
        help) [ "$given" != 0 ] || _othsolve_words "$cur" "$names" ;;
        *)
            local takes
            takes=$(_othsolve_line "$command")
            if [[ $cur == -* ]]; then
                _othsolve_words "$cur" "${takes/FILE*/} --help"
            elif [[ $takes == *FILES || ($takes == *FILE && $given == 0) ]]; then
                _othsolve_files "$cur"
            elif [[ $takes == *--* ]]; then
                _othsolve_words "$cur" "${takes/FILE/}"
            fi
            ;;
    esac
}

complete -F _othsolve othsolve
