#!/usr/bin/env python3
"""Connections as a plain program, beside `conn::serve_connection`.

    bench/transcript.py [SCENES [SEED]]

Draws SCENES (default 400) scenes: one station and some ten connections, one to three at a time,
with films of few pictures, requests of all kinds, good and bad, cut anywhere, interleaved blocks,
slots that are missed, repeated or far away, pauses, resumes, seeks, offers, and calls of the link that
fail. What each link has sent after each event, the report and the journal are computed here from
their definition, and compared with what a program over the crates prints (transcript/main.txt, run
by program.sh; needs rt).

The definition goes by places in whole lists and computes all anew after each event. Of a
connection's events the first i were heard: t(i) is the greatest slot up to 2^62 among them, due(i)
the bytes that the plans of its plays have up to t(i), each up to what its play keeps. Request r is
ready after the event that makes it whole; it is taken then, or when the reply before it is out,
whichever is later. Its reply stands at the least end of a frame or report that is at least what is
due at its taking, and is out after the first event with so much due. Sent after event i are the
first due(i) bytes of the connection's films, with each reply that is out at its place. Ends with
status 1 where something differs.
"""
import copy, os, subprocess, sys, tempfile, time

sys.dont_write_bytecode = True
HERE = os.path.dirname(os.path.abspath(__file__))
sys.path[:0] = [HERE, HERE + "/transcript"]
from drawing import drawn_scene

CRATES = (
    "vod_base slope_frac plan_cert wire_curve cert_check taut_plan mpeg_scan interleave rtp_pack"
    " film_frames film_run slot_calendar early_start admission report turnstile station pacer"
    " rtsp_text rtsp_fields session conn hex atomic_table").split()


def slots_told(segments):
    """The bytes of each slot of segments `SLOTS:BYTES`."""
    slots = []
    for word in segments:
        n, size = map(int, word.split(":"))
        slots += [(j + 1) * size // n - j * size // n for j in range(n)]
    return slots


def read_told(lines):
    """What the program told of a scene: of each connection the bytes sent, how many were sent after
    each event, and its other lines, with plans by slots; and the lines of journal and calendar."""
    sent, marks, reports, rest = [], [], [], []
    for line in lines:
        words = line.split(" ")
        if words[0] == "sent":
            sent.append(bytes.fromhex(words[2]))
            reports.append([])
        elif words[0] == "marks":
            marks.append([tuple(map(int, word.split(":"))) for word in words[2:]])
        elif words[0] == "play":
            reports[-1].append(" ".join(words[:13]) + f" {slots_told(words[13:])}")
        elif words[0] == "offered":
            reports[-1].append(f"offered {words[1]} {slots_told(words[2:])}")
        elif words[0] in ("report", "receipt", "offer"):
            reports[-1].append(line)
        else:
            rest.append(line)
    return sent, marks, reports, rest


def act_differs(scene, station, served, act, told):
    """What differs in an act from what was told, or None; and the station after it.

    Where a send failed, it isn't told how many requests were taken before: each number is tried."""
    sent, marks, reports = told
    broken = [
        k for k, (sends, _) in enumerate(act.failing) if sends and "end=LinkFault" in reports[k][0]]
    choices = [{}]
    for k in broken:
        choices = [
            {**choice, k: (marks[k][-1][0], count)} for choice in choices for count in range(15)]
    first = None
    for choice in choices:
        after = copy.deepcopy(station)
        lines, texts = scene.play(after, served, act, choice)
        found = lines_differ(
            lines,
            [
                line for report in reports
                for line in report]) or texts_differ(texts, sent, marks, choice)
        if not found:
            return None, after
        first = first or found
    return first, after


def difference(scene, told):
    """What differs in a scene from what was told, or None."""
    (*by_connection, rest), station, served = told, scene.new_station(), 0
    for number, act in enumerate(scene.acts):
        after = served + len(act.words)
        found, station = act_differs(
            scene, station, served, act, [told[served:after] for told in by_connection])
        if found:
            return f"act {number}, {found}"
        served = after
    return lines_differ(station.lines + station.calendar(), rest)


def lines_differ(lines, rest):
    if lines == rest:
        return None
    place = next(
        (i for i, (a, b) in enumerate(zip(lines, rest)) if a != b), min(len(lines), len(rest)))
    return f"line {place}: expected {lines[place:place + 1]}, told {rest[place:place + 1]}"


def texts_differ(texts, sent, marks, broken):
    for number, list_of in enumerate(texts):
        places = [place for place, _ in list_of]
        if [place for place, _ in marks[number]] != places:
            return f"connection {number}: expected events {places}, told {marks[number]}"
        before = b""
        for (place, count), (_, text) in zip(marks[number], list_of):
            got = sent[number][:count]
            cut = number in broken and broken[number][0] == place
            if got != text and not (cut and got.startswith(before) and text.startswith(got)):
                wanted, got = text[len(before):], got[len(before):]
                return f"connection {number}, event {place}: expected\n{wanted}\ntold\n{got}"
            if cut and got == text:
                return f"connection {number}, event {place}: all was sent, and yet a send failed"
            before = text
        if len(sent[number]) != (marks[number][-1][1] if marks[number] else 0):
            return f"connection {number}: bytes after the last event"
    return None


def tell(scenes):
    """What the program tells of scenes, each by its lines."""
    with tempfile.TemporaryDirectory() as folder:
        words = [HERE + "/program.sh", HERE + "/transcript/main.txt", *CRATES]
        flags = {"TRY_FLAGS": f"--seconds 3000 -- {folder}/told"}
        asked = "".join(scene.text() for scene in scenes)
        subprocess.run(words, cwd=folder, env={**os.environ, **flags}, input=asked, text=True)
        with open(folder + "/told") as file:
            texts = file.read().split("\nend\n")[:-1]
    return [read_told((text + "\nend").split("\n")) for text in texts]


def main():
    count = int(sys.argv[1]) if len(sys.argv) > 1 else 400
    seed = int(sys.argv[2]) if len(sys.argv) > 2 else 0
    scenes = [drawn_scene(number) for number in range(seed, seed + count)]
    begin = time.time()
    told, differing = tell(scenes), 0
    print(f"told after {time.time() - begin:.0f} s", flush=True)
    for number, scene in enumerate(scenes):
        found = difference(scene, told[number]) if number < len(told) else "not told"
        if found:
            differing += 1
            print(f"scene {seed + number} differs: {found}")
    connections = sum(len(act.words) for scene in scenes for act in scene.acts)
    print(f"{count} scenes of {connections} connections, {differing} differ")
    sys.exit(1 if differing else 0)


if __name__ == "__main__":
    main()
