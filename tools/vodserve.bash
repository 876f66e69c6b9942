# Completion of bash for vodserve: commands, the keys of each command, and their values.
# Files are offered where a key takes the name of one that the program accepts.

# _vodserve_keys COMMAND: prints the keys that the command takes.
_vodserve_keys() {
    case $1 in
        plan) echo trace film buffer startup slot ;;
        check) echo trace film cert buffer startup slot ;;
        scan) echo film ;;
        make) echo kind seed pictures ;;
        day) echo script capacity journal slot ;;
        fair) echo seed plays capacity ;;
        serve) echo film port bind capacity buffer startup slot journal workers connections ;;
        watch) echo film port buffer startup slot ;;
    esac
}

# _vodserve_files KIND PREFIX: prints the current folder's files that may be the value, one a line.
_vodserve_files() {
    local file
    for file in *; do
        [[ -f $file && $file == "$2"* && $file =~ ^[A-Za-z0-9_-][A-Za-z0-9._-]{0,63}$ ]] || continue
        case $1,$file in
            film,*.mpg | film,*.mpeg | film,*.m1v | film,*.mpv | other,*) printf '%s\n' "$file" ;;
        esac
    done
}

# _vodserve_values KEY PREFIX: prints the values of a key that begin with the prefix, one a line.
_vodserve_values() {
    case $1 in
        film) _vodserve_files film "$2" ;;
        trace | cert | script) _vodserve_files other "$2" ;;
        kind) compgen -W "film trace system" -- "$2" ;;
        bind) compgen -W "local all" -- "$2" ;;
    esac
}

_vodserve() {
    local line=${COMP_LINE:0:COMP_POINT} current="" key word
    local -a words=() keys=()
    read -ra words <<<"$line"
    [[ $line == *[[:space:]] ]] || { current=${words[-1]}; unset 'words[-1]'; }
    COMPREPLY=()
    if ((${#words[@]} < 2)); then
        mapfile -t COMPREPLY < <(
            compgen -W "plan check scan make day fair serve watch --help --version" -- "$current")
        return
    fi
    if [[ $current == *=* ]]; then
        mapfile -t COMPREPLY < <(_vodserve_values "${current%%=*}" "${current#*=}")
        # readline replaces what stands after the last break, and '=' is one unless it was taken out
        [[ $COMP_WORDBREAKS == *=* ]] || COMPREPLY=("${COMPREPLY[@]/#/${current%%=*}=}")
        return
    fi
    for key in $(_vodserve_keys "${words[1]}"); do
        for word in "${words[@]:2}"; do
            [[ ${words[1]},$key != serve,film && $word == "$key"=* ]] && continue 2
        done
        keys+=("$key=")
    done
    mapfile -t COMPREPLY < <(compgen -W "${keys[*]}" -- "$current")
    compopt -o nospace 2>/dev/null
}

complete -F _vodserve vodserve
