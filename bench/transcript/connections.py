"""A connection by places in whole lists: what was sent after each event, computed anew from all."""
import bisect
from days import curves, plan
from films import Run
from messages import METHODS, Request, parameters, pieces_of, read_number, read_range
from messages import read_transport, reply, seconds
from stations import Admitted

LAST_SLOT, MOST_WAITING = 2 ** 62, 131_072


class Play:
    """A play of a connection, with what its run was as it began."""

    def __init__(self, run, booked, begun, connection, unit, played, sent):
        self.run, self.place, self.start = run, booked.number, booked.start
        self.slots, self.sums = booked.slots, booked.sums
        self.keep, self.begun, self.ended = booked.sums[-1], begun, float("inf")
        self.buffer, self.delay = connection.buffer, connection.delay
        self.slot_units = connection.scene.slot_units
        self.from_unit, self.played, self.sent_before = unit, played, sent

    due, sum = Admitted.due, Admitted.sum

    def is_done(self, slot):
        return slot >= self.start and self.due(slot) == self.sums[-1]

    def left(self, slot):
        """The first unplayed unit and the bytes played after a halt in a slot."""
        if slot < self.start:
            return self.from_unit, self.played
        reached = next(j for j in range(len(self.slots)) if self.sums[j + 1] >= self.keep)
        last, film = max(slot - self.start, reached), self.run.film
        rest = range(self.run.end - self.from_unit)
        count = sum(k * film.time // self.slot_units + self.delay < last for k in rest)
        return self.from_unit + count, self.played + sum(
            film.sizes[self.from_unit:self.from_unit + count])


class Connection:
    def __init__(self, scene, station, number, words):
        self.scene, self.station, self.number, self.words = scene, station, number, words
        self.identity = b"%08x%08x" % tuple(self.words[:2])
        self.events, self.answers, self.ended, self.most_requests = [], [], None, None
        self.requests, self.plans, self.runs = {}, {}, {}
        self.compute()

    def ask(self, command):
        """The station's answer to the next command: one that was given before, or a new one."""
        place = len(self.commands)
        self.commands.append(command)
        if place == len(self.answers):
            self.answers.append((command, self.station.ask(self.number + 1, command)))
        asked, answer = self.answers[place]
        assert asked == command
        return answer

    def new_run(self, first, end, *before):
        key = self.film.name, first, end, self.channels, before
        if key not in self.runs:
            self.runs[key] = Run(self.film, first, end, self.channels, self.words, *before)
        return self.runs[key]

    def plan_of(self, film, first, end, played, sent):
        key = film.name, first, end, self.buffer, self.delay, played, sent
        if key not in self.plans:
            made = curves(
                film.sizes[first:end], film.time, self.scene.slot_units, self.buffer, self.delay,
                played, sent)
            self.plans[key] = made if isinstance(made, str) else plan(sent, *made)
        return self.plans[key]

    def due(self, i):
        return sum(play.due(self.t[i]) for play in self.plays)

    def boundary(self, at):
        """The least end of a frame or report at or after a place among the films' bytes."""
        if not self.plays:
            return 0
        run = self.plays[-1].run
        return run.offset + run.boundary(at - run.offset)

    def settle(self, i):
        """A play that is done by event i, and wasn't halted, is halted with all its bytes."""
        play = self.plays[-1] if self.mode == "playing" else None
        if play and play.is_done(self.t[i]):
            play.ended = next(j for j in range(i + 1) if play.is_done(self.t[j]))
            self.ask(("halt", play.place, play.keep))
            self.mode, self.run = "ready", None

    def compute(self):
        """All that follows from the events heard so far."""
        n = len(self.events)
        self.t, lengths, stream = [0], [0], b""
        for what, value in self.events:
            self.t.append(
                max(self.t[-1], value) if what == "slot" and value <= LAST_SLOT else self.t[-1])
            stream += value if what == "bytes" else b""
            lengths.append(len(stream))
        self.pieces, self.rest, self.fault = pieces_of(stream)
        self.mode, self.film, self.run, self.torn = "init", None, None, None
        self.plays, self.commands, self.placed = [], [], []
        asked = [piece for piece in self.pieces if piece[0] == "request"]
        self.taken, out, self.untaken, taken = 0, 0, None, 0
        for number, (_, start, end, head_end) in enumerate(asked):
            taken = max(bisect.bisect_left(lengths, end), out)
            if taken > n or self.torn is not None or self.taken == self.most_requests:
                self.untaken = start
                break
            self.settle(taken)
            self.taken += 1
            if start not in self.requests:
                self.requests[start] = Request(stream[start:head_end], stream[head_end:end])
            place = self.boundary(self.due(taken))
            text = self.answer(self.requests[start], taken, place)
            out = next((i for i in range(taken, n + 1) if self.due(i) >= place), n + 1)
            if self.torn is None and self.mode == "torn":
                self.torn = out
            if self.halting:
                self.plays[-1].ended = out
            if out <= n:
                self.placed.append((place, text))
        self.settle(n)
        self.shown = max(
            taken if self.taken else 0,
            bisect.bisect_left(lengths, self.fault[1])) if self.fault else n + 1
        self.lengths, self.stream = lengths, stream
        return self.written(n)

    def written(self, i):
        films, at = b"", 0
        for run in dict.fromkeys(play.run for play in self.plays):
            size = sum(play.keep for play in self.plays if play.run is run)
            films += run.bytes if run is self.plays[-1].run else run.bytes[:size]
        text = b""
        for place, words in self.placed:
            text += films[at:place] + words
            at = place
        return text + films[at:self.due(i)]

    def held(self):
        return len(self.stream) - (self.rest if self.untaken is None else self.untaken)

    def late(self):
        """The slots that were missed while a play, or what a pause leaves of it, was sent."""
        late = 0
        for i in range(1, len(self.events) + 1):
            if self.t[i] == self.t[i - 1]:
                continue
            for play in self.plays:
                if play.begun < i <= play.ended:
                    late += max(0, self.t[i] - max(self.t[i - 1], play.start - 1) - 1)
        return late

    def hear(self, event):
        """What was sent after one more event; the end, if it is the last, is noted."""
        what, value = event
        if what == "bytes" and self.held() + len(value) > MOST_WAITING:
            self.ended = "TooMuchInput"
            return self.written(len(self.events))
        self.events.append(event)
        text = self.compute()
        n = len(self.events)
        if self.torn is not None and self.torn <= n:
            self.ended = "TornDown"
        elif self.untaken is None and self.fault and self.shown <= n:
            self.ended = self.fault[0]
        elif what == "end":
            self.ended = "Ended"
        return text

    def close(self):
        if self.mode == "playing":
            self.plays[-1].keep = self.plays[-1].due(self.t[-1])
            self.ask(("halt", self.plays[-1].place, self.plays[-1].keep))

    # ---- the answer to a request, by method

    def answer(self, request, i, place):
        """The reply to a request that is taken after event i, whose reply stands at a place."""
        self.halting = False
        if request.fault:
            return reply(request.fault, request.sequence)
        self.request, self.i, self.place = request, i, place
        code, *rest = self.judge() or getattr(self, "on_" + request.method.lower())()
        return reply(code, request.sequence, *rest)

    def judge(self):
        """The refusals that don't go by the method alone."""
        request, has_session = self.request, self.mode != "init"
        method, given = request.method, request.get("session")
        if method not in METHODS.split(", "):
            return 501,
        wanted = request.get("require") if request.get("require") is not None else request.get(
            "proxy-require")
        if wanted is not None:
            return 551, [("Unsupported", wanted.decode("latin1"))]
        matches = has_session and given is not None and given.split(b";")[0].strip(
            b" \t").lower() == self.identity
        if method in ("PLAY", "PAUSE", "TEARDOWN") and not matches:
            return 454,
        if method in ("SETUP", "GET_PARAMETER") and given is not None and not matches:
            return 454,
        if method != "OPTIONS":
            film = next((film for film in self.scene.films if film.name == request.name), None)
            if film is None or (has_session and method != "DESCRIBE" and film is not self.film):
                return 404,
            self.named = film
        if method == "SETUP" and has_session or method == "PAUSE" and self.mode != "playing":
            return 455,
        if method == "PLAY" and self.mode == "playing" and request.get("range") is not None:
            return 455,
        return None

    def session(self):
        return "Session", self.identity.decode()

    def on_options(self):
        return 200, [("Public", METHODS)]

    def on_describe(self):
        film, authority = self.named, self.request.authority
        text = "".join(
            line + "\r\n"
            for line in (
                "v=0", "o=- 0 0 IN IP4 127.0.0.1", f"s={film.name}", "c=IN IP4 0.0.0.0", "t=0 0",
                "a=control:*", f"a=range:npt=0-{seconds(len(film.units) * film.time // 360)}",
                "m=video 0 RTP/AVP 32", "a=control:video")).encode()
        base = f"rtsp://{authority}/{film.name}/"
        return 200, [
            ("Content-Base", base), ("Content-Type", "application/sdp"),
            ("Content-Length", len(text))], text

    def on_setup(self):
        request = self.request
        channels = read_transport(
            request.get("transport")) if request.get("transport") is not None else None
        if channels is None:
            return 461,
        buffer, delay = self.scene.buffer, self.scene.startup
        if request.get("x-buffer") is not None:
            buffer = read_number(request.get("x-buffer"))
            if buffer is None or not 1 <= buffer <= 2 ** 42:
                return 451,
        if request.get("x-startup") is not None:
            delay = read_number(request.get("x-startup"))
            if delay is None or delay > 10_000:
                return 451,
        self.mode, self.film, self.channels = "ready", self.named, channels
        self.buffer, self.delay = buffer, delay
        return 200, [
            (
                "Transport",
                "RTP/AVP/TCP;unicast;interleaved=%d-%d;ssrc=%08x" % (*channels, self.words[2])),
            self.session()]

    def wish(self, value):
        """The run that a PLAY with this Range asks for, None where it is the one that was paused;
        or a refusal."""
        film, span = self.film, ("now", None) if value is None else read_range(value)
        if span is None:
            return 457,
        if span[0] == "now" and self.run:
            return None
        start, end = 0 if span[0] == "now" else span[0], span[1]
        units = film.units
        if len(units) * film.time * 10 ** 9 <= start * 360_000 or (
            end is not None and end <= start):
            return 457,
        groups = [k for k, unit in enumerate(units) if unit.starts_group]
        first = max(k for k in groups if k * film.time * 10 ** 9 <= start * 360_000)
        after = [
            k for k in groups
            if end is not None and k > first and k * film.time * 10 ** 9 >= end * 360_000]
        return "run", first, min(after, default=len(units))

    def asking(self, value):
        """Which units a PLAY with this Range would send, by which plan; or a refusal."""
        wish = self.wish(value)
        if wish is None:
            run, unit, played, sent = self.run
            first, end = run.first, run.end
        elif wish[0] == "run":
            run, (_, first, end) = None, wish
            unit, played, sent = first, 0, 0
        else:
            return wish
        slots = self.plan_of(self.film, unit, end, played, sent)
        if isinstance(slots, str):
            word = slots.split()
            return (451, [("x-Least-Buffer", word[3])]) if word[0] == "BufferTooSmall" else (457,)
        return "plan", run, first, end, unit, played, sent, slots

    def full(self, answer):
        return 503, [("x-Entries", answer[1]), ("x-Open", answer[2])]

    def on_play(self):
        if self.mode == "playing":
            return 200, [self.session()]
        wish = self.asking(self.request.get("range"))
        if wish[0] != "plan":
            return wish
        _, run, first, end, unit, played, sent, slots = wish
        answer = self.ask(("play", self.t[self.i], slots))
        if answer[0] == "full":
            return self.full(answer)
        if answer[0] == "overflow":
            return 453, list(zip(("x-Slot", "x-Booked", "x-Asked"), answer[2]))
        film, frames, octets = self.film, 0, 0
        for before in dict.fromkeys(play.run for play in self.plays):
            counts = before.counts(sum(play.keep for play in self.plays if play.run is before))
            frames, octets = frames + counts[0], octets + counts[1]
        run = run or self.new_run(first, end, sum(play.keep for play in self.plays), frames, octets)
        self.plays.append(
            Play(run, self.station.plays[answer[1]], self.i, self, unit, played, sent))
        self.mode, self.run = "playing", None
        info = "url=rtsp://%s/%s/video;seq=%d;rtptime=%d" % (
            self.request.authority, film.name, (self.words[3] + frames) % 2 ** 16,
            (self.words[4] + unit * film.time // 4) % 2 ** 32)
        span = f"npt={seconds(unit * film.time // 360)}-{seconds(end * film.time // 360)}"
        return 200, [
            self.session(), ("Range", span), ("RTP-Info", info),
            ("x-Start", answer[2] - self.t[self.i])]

    def halt(self):
        """Halts the play at the place where the reply will stand."""
        play, self.halting = self.plays[-1], True
        play.keep = self.place - play.run.offset - play.sent_before
        self.ask(("halt", play.place, play.keep))
        return play

    def on_pause(self):
        play = self.halt()
        self.run = play.run, *play.left(self.t[self.i]), play.sent_before + play.keep
        self.mode = "ready"
        return 200, [self.session()]

    def on_teardown(self):
        if self.mode == "playing":
            self.halt()
        self.mode = "torn"
        return 200, [self.session()]

    def on_get_parameter(self):
        body = self.request.body
        if body == b"":
            return 200,
        if body in (b"x-Booked", b"x-Booked\n", b"x-Booked\r\n"):
            answer = self.ask(("look", self.t[self.i]))
            if answer[0] == "full":
                return self.full(answer)
            told = zip(("x-Now", "x-Slot", "x-Booked"), answer[2])
            return 200, *parameters(f"{name}: {value}" for name, value in told)
        if body in (b"x-Offer", b"x-Offer\n", b"x-Offer\r\n"):
            return self.offer()
        return 451,

    def offer(self):
        if self.mode == "init":
            return 454,
        if self.mode == "playing":
            return 455,
        wait = read_number(self.request.get("x-wait") or b"")
        if wait is None or wait > 255:
            return 451,
        wish = self.asking(None)
        if wish[0] != "plan":
            return wish
        answer = self.ask(("offer", self.t[self.i], wait, wish[-1]))
        _, seen, first, start, tried = answer
        lines = [f"x-Start: {'none' if start is None else start}"]
        lines += ["x-Over: %d %d %d %d" % told for told in tried]
        return 200, *parameters(lines)
