#!/bin/sh
# Plays and halts by 1, 2, 4, 16 and 64 threads, at a station and at a plain book under a mutex, with what both cost in processor time
# and sleeps; and the processor time of 63 threads that wait while one has the turn, or the lock, for a second: bench/station.sh
#
# Needs rt and rustc. The programs are proved and built (`rt run`), so that both run at full speed; the first run takes minutes.
set -eu
here=$(cd "$(dirname "$0")" && pwd)
. "$here/setup.sh"
need rt rustc python3
enter_folder
crates="vod_base plan_cert slot_calendar admission early_start turnstile station"
program=crates/bench_station
hold=crates/bench_hold
mkdir -p $program/src $program/proofs/rounds $program/proofs/tasks $hold/src $hold/proofs/tasks
cp "$here/../HANDLES" .
cp "$here/station/main.txt" $program/src/main.rt
for proof in rounds tasks; do cp "$here/station/$proof.txt" $program/proofs/$proof/Invariants.antt; done
cp "$here/station/hold.txt" $hold/src/main.rt
cp "$here/station/hold_tasks.txt" $hold/proofs/tasks/Invariants.antt
for crate in $crates; do
    mkdir "crates/$crate"
    for part in src specs proofs; do cp -r "$here/../crates/$crate/$part" "crates/$crate/"; done
    grep "^$crate:" "$here/../crates.txt" >>crates.txt
done
echo "bench_station: $crates atomic_table" >>crates.txt
echo "bench_hold: $crates atomic_table" >>crates.txt
rustc -O -o plain "$here/station/plain.rs"
uptime
echo "station"
(cd $program && rt run) | grep 'ns a call'
echo "plain book under a mutex"
./plain
echo "both again, three times: seconds of processor time and how often threads slept"
python3 "$here/station/switches.py" 3 station "$program/out/bench_station" mutex ./plain
(cd $hold && rt run) >/dev/null
echo "63 that wait for a second: seconds by the clock, and of processor time"
python3 "$here/measure.py" 3 turn "$hold/out/bench_hold" lock "./plain hold"
