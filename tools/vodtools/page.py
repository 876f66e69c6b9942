"""The monitor's page: one HTML text with its pictures in it, which loads nothing from elsewhere."""

import html
import time

WIDTH, HEIGHT, LEFT, RIGHT, TOP, BELOW = 860, 220, 56, 16, 18, 26
REFRESH_SECONDS = 30

STYLE = """
:root { --paper: #fff; --ink: #1d2733; --soft: #5b6775; --line: #dfe4ea; --tile: #f5f7f9;
  --good: #1a7f4b; --bad: #b3261e; --booked: #2f6fb5; --fill: #cfe0f3; --limit: #b3261e;
  --gap: #f7d9d6; }
@media (prefers-color-scheme: dark) { :root { --paper: #14181d; --ink: #e6ebf0; --soft: #9aa6b2;
  --line: #2d353e; --tile: #1c2229; --good: #58c48b; --bad: #f2837b; --booked: #74a9e6;
  --fill: #24405f; --limit: #f2837b; --gap: #4a2320; } }
body { margin: 2rem auto; max-width: 900px; padding: 0 1rem; background: var(--paper);
  color: var(--ink); font: 15px/1.45 system-ui, sans-serif; }
h1 { font-size: 1.3rem; margin: 0 0 1rem; } h2 { font-size: 1rem; margin: 1.8rem 0 .4rem; }
.tiles { display: grid; grid-template-columns: repeat(auto-fit, minmax(190px, 1fr)); gap: .8rem; }
.tile { background: var(--tile); border-radius: 8px; padding: .7rem .9rem; }
.tile b { display: block; font-size: 1.5rem; font-weight: 600; line-height: 1.3; }
.tile span, .note { color: var(--soft); font-size: .85rem; }
.good { color: var(--good); } .bad { color: var(--bad); }
svg { width: 100%; height: auto; display: block; } svg text { fill: var(--soft); font-size: 12px; }
table { border-collapse: collapse; width: 100%; font-variant-numeric: tabular-nums; }
th, td { padding: .35rem .6rem; border-bottom: 1px solid var(--line); text-align: right; }
th { color: var(--soft); font-weight: 500; font-size: .85rem; }
th:first-child, td:first-child { text-align: left; }
"""


def scale_of(most):
    """Returns the top of an axis that holds `most`, and the step of its marks."""
    step = 1.0
    while step * 5 < most:
        step *= 10
    while step * 5 / 10 >= most > 0:
        step /= 10
    for part in (step / 5, step / 2, step):
        if part * 5 >= most:
            step = part
            break
    return step * 5, step


def clock(when):
    return time.strftime("%H:%M", time.localtime(when))


class Chart:
    """What was booked against the capacity, over the last hours."""

    def __init__(self, state, hours, now):
        self.state, self.begin, self.end = state, now - hours * 3600, now
        self.samples = state.since(hours)
        capacity = [state.rate(state.capacity(sample)) for sample in self.samples]
        booked = [state.rate(sample.booked or 0) for sample in self.samples]
        least = [state.rate(state.capacity(state.last()))]
        self.top, self.step = scale_of(max(capacity + booked + least))
        self.parts = []

    def x(self, when):
        share = (when - self.begin) / (self.end - self.begin)
        return round(LEFT + (WIDTH - LEFT - RIGHT) * max(0.0, share), 1)

    def y(self, rate):
        return round(TOP + HEIGHT - HEIGHT * rate / self.top, 1)

    def draw_axes(self):
        mark = 0
        while mark * self.step <= self.top * 1.001:
            y = self.y(mark * self.step)
            self.parts.append(
                f'<path d="M{LEFT},{y}H{WIDTH - RIGHT}" stroke="var(--line)"/>'
                f'<text x="{LEFT - 8}" y="{y + 4}" text-anchor="end">{mark * self.step:g}</text>'
            )
            mark += 1
        for part in range(7):
            when = self.begin + (self.end - self.begin) * part / 6
            anchor = "end" if part == 6 else "middle"
            self.parts.append(
                f'<text x="{self.x(when)}" y="{TOP + HEIGHT + 18}" text-anchor="{anchor}">'
                f"{clock(when)}</text>"
            )

    def spans(self):
        """Returns each sample with where it begins and ends."""
        nexts = [sample.when for sample in self.samples[1:]] + [self.end]
        return [
            (sample, self.x(sample.when), self.x(after))
            for sample, after in zip(self.samples, nexts)
        ]

    def draw_samples(self):
        """Draws the booked rate as an area, and the times at which the server was down."""
        floor = self.y(0)
        for sample, left, right in self.spans():
            width = round(max(0.5, right - left + 0.3), 1)
            if sample.is_up:
                y = self.y(self.state.rate(sample.booked or 0))
                text = f"{clock(sample.when)} {self.state.rate(sample.booked or 0):.2f} Mbit/s"
                self.parts.append(
                    f'<rect class="booked" x="{left}" y="{y}" width="{width}"'
                    f' height="{round(floor - y, 1)}" fill="var(--fill)"/>'
                    f'<path d="M{left},{y}h{width}" stroke="var(--booked)" stroke-width="2"/>'
                )
            else:
                y, text = TOP, f"{clock(sample.when)} down: {html.escape(sample.error)}"
                self.parts.append(
                    f'<rect class="down" x="{left}" y="{TOP}" width="{width}"'
                    f' height="{HEIGHT}" fill="var(--gap)"/>'
                )
            self.parts.append(
                f'<rect x="{left}" y="{TOP}" width="{width}" height="{HEIGHT}"'
                f' fill="transparent"><title>{text}</title></rect>'
            )

    def draw_capacity(self):
        points = [(LEFT, self.state.capacity(self.samples[0] if self.samples else None))]
        points += [(left, self.state.capacity(sample)) for sample, left, _ in self.spans()]
        path = f"M{LEFT},{self.y(self.state.rate(points[0][1]))}" + "".join(
            f"H{x}V{self.y(self.state.rate(size))}" for x, size in points
        )
        y = self.y(self.state.rate(points[-1][1]))
        self.parts.append(
            f'<path id="capacity" d="{path}H{WIDTH - RIGHT}" fill="none" stroke="var(--limit)"'
            ' stroke-width="1.5" stroke-dasharray="6 4"/>'
            f'<text x="{WIDTH - RIGHT}" y="{y - 5}" text-anchor="end">capacity</text>'
        )

    def svg(self):
        self.draw_axes()
        self.draw_samples()
        self.draw_capacity()
        return (
            f'<svg viewBox="0 0 {WIDTH} {TOP + HEIGHT + BELOW}" role="img"'
            ' aria-label="booked rate against the capacity">' + "".join(self.parts) + "</svg>"
        )


def length_of(seconds):
    """Returns a length as minutes and seconds."""
    if seconds is None:
        return "not known"
    whole = int(seconds + 0.5)
    if whole < 3600:
        return f"{whole // 60}:{whole % 60:02}"
    return f"{whole // 3600}:{whole // 60 % 60:02}:{whole % 60:02}"


def rate_or_unknown(state, size):
    return "not known" if size is None else f"{state.rate(size):.2f}"


def tile(head, value, below, kind=""):
    return (
        f'<div class="tile"><span>{head}</span><b class="{kind}">{value}</b>'
        f"<span>{below}</span></div>"
    )


def tiles_of(state):
    """Returns the tiles: up or down, the answer's time, what is booked, and how many more fit."""
    last = state.last()
    if last is None:
        return tile("server", "not asked yet", "")
    if not last.is_up:
        return tile("server", "down", html.escape(last.error), "bad")
    parts = [tile("server", "up", f"asked at {clock(last.when)}", "good")]
    parts.append(tile("answer after", f"{last.milliseconds:.1f} ms", "connect and OPTIONS"))
    if last.full is not None:
        below = f"{last.full:,} entries: each PLAY is answered 503 until a restart"
        parts.append(tile("journal", "full", below, "bad"))
    elif last.booked is not None:
        capacity = state.capacity(last)
        share = f"{100 * last.booked / capacity:.0f} %" if capacity else "no capacity"
        below = f"of {state.rate(capacity):.2f} Mbit/s ({share})"
        parts.append(tile("booked now", f"{state.rate(last.booked):.2f} Mbit/s", below))
    known = [state.more_viewers(film) for film in state.films]
    known = [count for count in known if count is not None]
    if known:
        parts.append(tile("more viewers", f"{min(known):,}", "of the film that needs most"))
    return "".join(parts)


def films_of(state):
    """Returns the table of films."""
    rows = []
    for film in state.films:
        more = state.more_viewers(film)
        cells = (
            html.escape(film.name),
            length_of(film.seconds),
            rate_or_unknown(state, film.mean),
            rate_or_unknown(state, film.peak),
            "not known" if more is None else f"{more:,}",
        )
        title = f' title="{html.escape(film.error)}"' if film.error else ""
        rows.append(f"<tr{title}>" + "".join(f"<td>{cell}</td>" for cell in cells) + "</tr>")
    heads = ("film", "length", "mean, Mbit/s", "peak of its plan, Mbit/s", "more viewers")
    head = "".join(f"<th>{name}</th>" for name in heads)
    return f"<table><thead><tr>{head}</tr></thead><tbody>{''.join(rows)}</tbody></table>"


def page_of(state, hours, every):
    """Returns the page as HTML."""
    server = f"rtsp://{state.host}:{state.settings.port}"
    looks = (
        f"The monitor asks every {every:g} s. Each look at the bookings takes one of the journal's"
        f" {state.settings.journal:,} entries; {state.looks:,} looks so far."
        if state.look
        else f"The monitor asks every {every:g} s, and doesn't look at the bookings."
    )
    return f"""<!DOCTYPE html>
<html lang="en"><head><meta charset="utf-8"><title>vodserve at {html.escape(server)}</title>
<meta name="viewport" content="width=device-width">
<meta http-equiv="refresh" content="{REFRESH_SECONDS}"><style>{STYLE}</style></head><body>
<h1>vodserve at {html.escape(server)}</h1><div class="tiles">{tiles_of(state)}</div>
<h2>Booked against the capacity, in Mbit/s, last {hours:g} h</h2>
{Chart(state, hours, time.time()).svg()}
<h2>Films</h2>{films_of(state)}
<p class="note">More viewers: what is free now, divided by the peak of the film's plan for a client
with a buffer of {state.settings.buffer:,} bytes. Red in the chart: the server was down.
{looks}</p>
</body></html>
"""
