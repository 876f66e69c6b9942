"""Connections at one station, with the one order of their events."""
from connections import Connection
from stations import Station


class Act:
    """Connections that are served at the same time, and the one order of their events."""

    def __init__(self, words, failing, events):
        self.words, self.failing, self.events = words, failing, events

    def text(self):
        lines = [
            "connection " + " ".join(map(str, words)) + f" {sends or '-'} {nexts or '-'}" for words,
            (sends, nexts) in zip(self.words, self.failing)]
        lines += [
            f"{what} {number} {value.hex() if what == 'bytes' else value}".rstrip() for number,
            (what, value) in self.events]
        return "\n".join(lines + ["act", ""])


class Scene:
    """A station, its films, and the acts that are played at it one after another."""

    def __init__(self, films, slot_units, buffer, startup, limit, steps, acts):
        self.films, self.slot_units, self.buffer, self.startup = films, slot_units, buffer, startup
        self.limit, self.steps = limit, steps
        self.acts = acts

    def text(self):
        steps = ",".join(f"{first}:{size}" for first, size in self.steps)
        lines = [f"serve {self.slot_units} {self.buffer} {self.startup} {self.limit} {steps}\n"]
        lines += [f"film {film.name} {film.data.hex()}\n" for film in self.films]
        return "".join(lines + [act.text() for act in self.acts] + ["close\n"])

    def new_station(self):
        return Station(self.steps, self.limit)

    def play(self, station, served, act, broken):
        """The lines that an act's reports have, and what each of its connections has sent by the
        end of each of its events.

        `served` connections were served before. `broken` has, for a connection whose send failed,
        the place of the event and how many requests were taken in it before."""
        connections = [
            Connection(self, station, served + number, words) for number,
            words in enumerate(act.words)]
        texts = [[] for _ in connections]
        for place, (number, event) in enumerate(act.events):
            one, (_, nexts) = connections[number], act.failing[number]
            if one.ended:
                continue
            if len(texts[number]) + 1 == nexts:
                one.ended = "LinkFault"
                texts[number].append((place, texts[number][-1][1] if texts[number] else b""))
            else:
                fails = number in broken and broken[number][0] == place
                one.most_requests = one.taken + broken[number][1] if fails else None
                texts[number].append((place, one.hear(event)))
                one.ended = "LinkFault" if fails else one.ended
            if one.ended:
                one.close()
        return [line for one in connections for line in report_lines(one)], texts

    def played(self):
        """All lines of reports, and the station after all acts, where no call fails."""
        station, lines, served = self.new_station(), [], 0
        for act in self.acts:
            lines += self.play(station, served, act, {})[0]
            served += len(act.words)
        return lines, station


def report_lines(one):
    number = one.number
    lines = [f"report {number} end={one.ended} late={one.late()} worker={number}"]
    for _, answer in one.answers:
        if answer[0] == "full":
            lines.append(f"receipt {number} full {answer[1]} {answer[2]}")
        elif answer[0] != "offered":
            told = answer[2] if answer[0] in ("overflow", "looked") else answer[2:]
            lines.append(" ".join(map(str, ("receipt", number, answer[1], answer[0], *told))))
    for play in one.plays:
        run = play.run
        film = one.scene.films.index(run.film)
        lines.append(
            f"play {number} place={play.place} film={film} first={run.first} end={run.end}"
            f" from={play.from_unit} buffer={play.buffer} delay={play.delay} played={play.played}"
            f" sent={play.sent_before} start={play.start} keep={play.keep} {play.slots}")
    for command, answer in one.answers:
        if answer[0] == "offered":
            _, seen, first, start, tried = answer
            starts = "".join(" %d:%d:%d:%d" % told for told in tried)
            found = "none" if start is None else start
            lines.append(
                f"offer {number} seen={seen} first={first} wait={command[2]} start={found}{starts}")
            lines.append(f"offered {number} {command[3]}")
    return lines
