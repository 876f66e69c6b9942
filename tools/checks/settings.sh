# The settings file: what it means, and each kind of nonsense with its sentence.
# shellcheck shell=bash disable=SC2154

mkdir films
cp "$top/examples/colours.mpg" films/
start=("$tools/start.py" --check --program "$program" --folder films)

# arguments FILE: prints the command that is run, without the program's path.
arguments() {
    "${start[@]}" "$1" | sed -n '2s/^vodserve-start: [^ ]* //p'
}

same "examples/vodserve.conf: the command" "$(arguments "$top/examples/vodserve.conf")" \
    "serve film=colours.mpg port=8554 bind=local capacity=50000 slot=14400 buffer=1048576\
 startup=25 workers=32 journal=65536"
: >empty.conf
same "an empty file means the same" "$(arguments empty.conf)" \
    "$(arguments "$top/examples/vodserve.conf")"
# the defaults are the program's own
"$program" --help | awk '/^  [a-z]+ .* [0-9]+$/ {print $1 "=" $NF}' >defaults.txt
for key in port capacity slot buffer startup workers journal; do
    try "the default of $key is the program's" \
        grep -q " $(grep "^$key=" defaults.txt)\b" <(arguments empty.conf)
done
cat >units.conf <<'CONF'
films       = colours.mpg   # one
listen      = every address
port        = 1554
capacity    = 2.5 Mbit/s, 800 kbit/s after 10 min
slot        = 20 ms
buffer      = 64 KiB
start delay = 0.5 s
workers     = 2
journal     = 100
CONF
same "units of people" "$(arguments units.conf)" \
    "serve film=colours.mpg port=1554 bind=all capacity=0:6250,30000:2000 slot=7200 buffer=65536\
 startup=25 workers=2 journal=100"

while IFS='|' read -r setting text; do
    printf '# a comment\n%b\n' "$setting" >bad.conf
    text=${text//FOLDER/$PWD/films}
    refuses "refused: ${setting:0:40}" 78 "bad.conf:$text" "${start[@]}" bad.conf
done <<'TABLE'
port 8554|2: 'port 8554' has no '='; write it as 'port = 8554'
prot = 8554|2: there is no setting 'prot'; did you mean 'port'?
colour = red|2: there is no setting 'colour'; there are: films,
port = 99999|2: 'port = 99999': write a number from 1 to 65535
port = eight|2: 'port = eight': write a number from 1 to 65535
port = 80\nport = 81|3: 'port' is set in line 2 too
capacity = 10|2: 'capacity = 10': write a number and one of kbit/s, Mbit/s
capacity = 10 Mbit|2: 'capacity = 10 Mbit': write a number and one of kbit/s
capacity = 1 bit/s|2: 'capacity = 1 bit/s': write a number and one of kbit/s
capacity = 0.001 kbit/s|2: 'capacity = 0.001 kbit/s': that is 0 bytes in a slot
capacity = 9 Mbit/s, 4 Mbit/s|2: 'capacity = 9 Mbit/s, 4 Mbit/s': write '10 Mbit/s'
capacity = 9 Mbit/s, 4 Mbit/s after 0 h|2: 'capacity = 9 Mbit/s, 4 Mbit/s after 0 h': '0 h' isn't
slot = 40.001 ms|2: 'slot = 40.001 ms': a slot is a multiple of 1/360,000 s: near it is '40 ms'
slot = 2 s|2: 'slot = 2 s': a slot has 1 ms to 1 s
start delay = 0.33 s|2: 'start delay = 0.33 s': a start delay is a whole number of slots of 40 ms
start delay = 9 h|2: 'start delay = 9 h': the server takes at most 10,000 slots
buffer = much|2: 'buffer = much': write a number and one of bytes, kB, MB, KiB, MiB, GiB
buffer = 9999 GiB|2: 'buffer = 9999 GiB': write 1 to 4398046511104 whole bytes
listen = all|2: 'listen = all': write 'this machine' (127.0.0.1) or 'every address'
workers = 0|2: 'workers = 0': write a number from 1 to 256
workers = 257|2: 'workers = 257': write a number from 1 to 256
journal = 1|2: 'journal = 1': write a number from 2 to 1048576
films = color.mpg|2: 'films = color.mpg': FOLDER has no film 'color.mpg'; did you mean 'colo
films = ../x.mpg|2: 'films = ../x.mpg': rename '../x.mpg': a film's name has 1 to 64
films = colours.mpg colours.mpg|2: 'films = colours.mpg colours.mpg': 'colours.mpg' is named twice
TABLE

printf '\377\376' >bytes.conf
refuses "refused: no text" 78 "bytes.conf: isn't a text in UTF-8" "${start[@]}" bytes.conf
refuses "refused: no file" 78 "none.conf: can't be read: No such file" "${start[@]}" none.conf
mkdir empty many large
refuses "refused: no films" 78 "empty has no film; a film's name ends in .mpg" \
    "$tools/start.py" --check --program "$program" --folder empty empty.conf
touch many/{1..65}.mpg
refuses "refused: too many films" 78 "65 films; the server takes at most 64" \
    "$tools/start.py" --check --program "$program" --folder many empty.conf
truncate -s $(((1 << 30) + 1)) large/long.mpg
refuses "refused: a film over 1 GiB" 78 "'long.mpg' has 1,073,741,825 bytes; a film has at" \
    "$tools/start.py" --check --program "$program" --folder large empty.conf
rm large/long.mpg
touch "large/my film.mpg"
refuses "refused: a film's name" 78 "rename 'my film.mpg': a film's name has 1 to 64 letters" \
    "$tools/start.py" --check --program "$program" --folder large empty.conf
refuses "refused: no folder" 78 "there is no folder $PWD/nowhere for the films" \
    "$tools/start.py" --check --program "$program" --folder nowhere empty.conf
refuses "refused: no program" 78 "there is no program at nothing" \
    "$tools/start.py" --check --program nothing --folder films empty.conf
echo "workers = 256" >workers.conf
# a control group of 30 MB below one of 20 MB, and a system without groups
mkdir -p groups/system.slice/vodserve.service
echo 30000000 >groups/system.slice/vodserve.service/memory.max
echo 20000000 >groups/system.slice/memory.max
echo max >groups/memory.max
echo "0::/system.slice/vodserve.service" >own.txt
try "the limit of memory is the least of the groups" python3 - "$tools" <<'PYTHON'
import sys
sys.path.insert(0, sys.argv[1])
sys.dont_write_bytecode = True
import start
from vodtools.settings import Settings
assert start.memory_limit("own.txt", "groups") == 20_000_000
assert start.memory_limit("own.txt", "nowhere") is None
assert start.memory_limit("none.txt", "groups") is None
start.memory_limit = lambda: 20_000_000
try:
    start.check_memory(Settings("empty.conf", "films"))
except start.LimitError as error:
    assert "1 films and 32 workers need about 31 MB, and the service may have 20 MB" in str(error)
else:
    raise AssertionError("more memory than the limit was accepted")
PYTHON
few_files() { (ulimit -n 200 && "${start[@]}" "$1"); }
refuses "refused: too few descriptors" 78 "256 workers need 800 open files, and the service may" \
    few_files workers.conf

# the settings are served: a client gets the film, and the port is then in use for another server
port=$(free_port)
printf 'port = %s\nworkers = 2\n' "$port" >run.conf
(cd films && exec "$tools/start.py" --program "$program" ../run.conf >../start.txt 2>&1) &
server=$!
wait_for_port "$port"
"$program" watch film=colours.mpg port="$port" startup=0 buffer=4000000 >copy.mpg 2>watch.txt &
client=$!
sleep 0.5
refuses "refused: the port is in use" 75 "run.conf:1: port $port: Address already in use" \
    "$tools/start.py" --program "$program" --folder films run.conf
wait $client
try "a started server sends the film" cmp copy.mpg films/colours.mpg
kill $server
wait $server 2>/dev/null
try "the command is printed" \
    grep -q "vodserve-start: .* serve film=colours.mpg port=$port" start.txt
if [ "$(id -u)" = 0 ] && have setpriv; then
    echo "port = 80" >low.conf
    chmod -R a+rX "$work"
    refuses "refused: a port of root" 78 "low.conf:1: only root may open port 80" \
        setpriv --reuid 65534 --regid 65534 --clear-groups --inh-caps=-all \
        "$tools/start.py" --program "$program" --folder films low.conf
else
    skip "refused: a port of root" "needs root and setpriv"
fi
