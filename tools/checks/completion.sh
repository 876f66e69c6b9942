# Completion: what is offered at each place, by the function and in a terminal.
# shellcheck shell=bash disable=SC2154

cp "$top/examples/colours.mpg" "$top/examples/four.txt" .
mkdir folder.mpg
touch "not a name.mpg"

# offers LINE: prints what is offered at the end of a line.
offers() {
    bash -c '. "$1"; COMP_LINE=$2 COMP_POINT=${#2}; _vodserve; printf "%s " "${COMPREPLY[@]}"' \
        _ "$tools/vodserve.bash" "$1" | sed 's/ *$//'
}

# keys_of COMMAND: prints the keys that --help names for a command, sorted.
keys_of() {
    "$program" --help | awk -v command="$1" '
        /^  [a-z]+ / {on = $1 == command}
        /^  [a-z-]+$/ {on = 0}
        on && /=/ {print}' | grep -o '[a-z]*=' | sort -u | tr '\n' ' '
}

same "commands" "$(offers 'vodserve ' | tr ' ' '\n' | sort)" \
    "$("$program" --help |
        sed -n 's/^  \([a-z]*\) [a-z]*=.*/\1/p; s/^  \(--[a-z]*\)$/\1/p' | sort -u)"
for command in plan check scan make day fair serve watch; do
    same "keys of $command" "$(offers "vodserve $command " | tr ' ' '\n' | sort | tr '\n' ' ')" \
        "$(keys_of $command)"
done
while IFS='|' read -r line wanted; do
    same "after '$line'" "$(offers "$line")" "$wanted"
done <<'TABLE'
vodserve pl|plan
vodserve plan film=|colours.mpg
vodserve plan film=x|
vodserve plan trace=f|four.txt
vodserve plan film=colours.mpg bu|buffer=
vodserve plan buffer=1 bu|
vodserve serve film=colours.mpg f|film=
vodserve make kind=|film trace system
vodserve make kind=s|system
vodserve serve bind=|local all
vodserve nothing |
TABLE

# in_terminal KEYS: prints what a terminal shows after these keys were typed.
in_terminal() {
    python3 - "$tools/vodserve.bash" "$1" <<'PYTHON'
import os, pty, select, sys, time
child, terminal = pty.fork()
if child == 0:
    os.environ["PS1"] = "> "
    os.execvp("bash", ["bash", "--norc", "--noprofile", "-i"])
def read(seconds):
    end, data = time.time() + seconds, b""
    while time.time() < end:
        if select.select([terminal], [], [], 0.1)[0]:
            data += os.read(terminal, 4096)
    return data
read(0.5)
os.write(terminal, f"bind 'set bell-style none'; . {sys.argv[1]}\n".encode())
read(0.5)
os.write(terminal, sys.argv[2].encode().decode("unicode_escape").encode())
print(read(1).decode(errors="replace"))
os.write(terminal, b"\x03exit\n")
os.close(terminal)
PYTHON
}
try "in a terminal" grep -q 'vodserve plan film=colours.mpg buffer=9' \
    <(in_terminal 'vodserve pla\tfil\tcol\tbu\t9')
