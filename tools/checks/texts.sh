# Each tool prints its help; scripts are in order; the manual page has all that the program has.
# shellcheck shell=bash disable=SC2154

for tool in "$tools"/*.sh "$tools"/*.py "$top/examples/ask.sh"; do
    name=${tool##*/}
    if "$tool" --help >help.txt 2>&1 && [ -s help.txt ]; then
        pass "$name --help"
    else
        miss "$name --help" "$(head -n 3 help.txt)"
    fi
done

if have shellcheck; then
    try "scripts: shellcheck" shellcheck "$tools"/*.sh "$tools"/checks/*.sh "$tools"/package/p* \
        "$tools/vodserve.bash" "$top/vodserve" "$top"/examples/*.sh --exclude=SC1008
else
    skip "scripts: shellcheck" "it isn't installed"
fi

# python_style: no function of 40 lines or more, no line over 100 columns.
python_style() {
    python3 - "$@" <<'PYTHON'
import ast, sys
wrong = []
for name in sys.argv[1:]:
    text = open(name, encoding="utf-8").read()
    wrong += [f"{name}:{k}: over 100 columns" for k, line in enumerate(text.split("\n"), 1)
              if len(line) > 100]
    wrong += [f"{name}: {it.name} has {it.end_lineno - it.lineno + 1} lines"
              for it in ast.walk(ast.parse(text))
              if isinstance(it, ast.FunctionDef) and it.end_lineno - it.lineno >= 40]
print("\n".join(wrong))
sys.exit(bool(wrong))
PYTHON
}
try "documents: names, clauses, links, files, widths" "$tools/claims.py" --check
try "Python: lengths of functions and lines" python_style "$tools"/vodtools/*.py \
    "$tools"/{draw,monitor,start,protocol_page,build,claims}.py

# manual_has: the page names each command, key and status of --help.
manual_has() {
    "$program" --help >help.txt
    grep -q '^  serve ' help.txt || { echo "--help prints no commands" && return 1; }
    MANWIDTH=200 man -l "$tools/vodserve.1" 2>/dev/null | col -b >page.txt
    local word
    for word in $(sed -n 's/^  \([a-z]*\) .*[a-z]=.*/\1/p' help.txt) \
        $(grep -o '[a-z]*=' help.txt | sort -u) 0 1 2 3 4 5 6 7 8; do
        grep -q -- "\b$word" page.txt || { echo "the page doesn't have $word" && return 1; }
    done
    # the defaults of the keys, where the page writes them with no unit
    awk '/^  [a-z]+ .* [0-9]+$/ {print $1, $NF}' help.txt | while read -r key default; do
        grep -A4 -- "^ *$key=" page.txt | grep -q "Default: $default" ||
            { echo "the page has no default $default of $key" && return 1; }
    done
}
if have man && have col; then
    same "vodserve.1: man --warnings says nothing" \
        "$(man --warnings -l "$tools/vodserve.1" 2>&1 >/dev/null)" ""
    try "vodserve.1: commands, keys, defaults and statuses of --help" manual_has
else
    skip "vodserve.1" "man or col isn't installed"
fi
if have mandoc; then
    same "vodserve.1: mandoc -T lint says nothing" \
        "$(mandoc -T lint -W warning "$tools/vodserve.1" 2>&1 | grep -v 'referenced manual')" ""
fi

# shellcheck disable=SC2016
printf '# A\n\nText `x`.\n.dot\n\n## B\n\n| a | b |\n|---|---|\n| c | d |\n\n    x-y\n' >page.md
"$tools/protocol_page.py" page.md >page.7
if have man; then
    same "protocol_page.py: man --warnings says nothing" \
        "$(man --warnings -l page.7 2>&1 >/dev/null)" ""
    try "protocol_page.py: text, table and code are there" \
        grep -q 'Text x. .dot B c b: d x-y' <(man -l page.7 | col -b | tr -s '[:space:]' ' ')
fi
if [ -f "$top/docs/PROTOCOL.md" ]; then
    "$tools/protocol_page.py" "$top/docs/PROTOCOL.md" >protocol.7
    same "docs/PROTOCOL.md as a page: man --warnings says nothing" \
        "$(man --warnings -l protocol.7 2>&1 >/dev/null)" ""
fi
