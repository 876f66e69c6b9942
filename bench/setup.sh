# What the scripts of this folder begin with: `. "$here/setup.sh"`, where `here` is the folder.

# need TOOL..: ends the script where a tool isn't there.
need() {
    for tool in "$@"; do
        command -v "$tool" >/dev/null || { echo "${0##*/}: $tool is missing; nothing is tried"; exit 2; }
    done
}

# find_program [PATH]: sets `program` to the built vodserve; ends the script where there is none.
find_program() {
    program=$(realpath "${1:-$here/../crates/vodserve/out/vodserve}")
    [ -x "$program" ] || { echo "${0##*/}: no program $program"; exit 2; }
}

# enter_folder: makes a folder, which goes when the script ends, and works in it.
enter_folder() {
    folder=$(mktemp -d)
    trap 'rm -rf "$folder"' EXIT
    trap 'exit 130' INT TERM
    cd "$folder" || exit 2
}
