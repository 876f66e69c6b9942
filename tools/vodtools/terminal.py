"""The monitor in a terminal: one line for each answer, or a screen that is drawn anew."""

import time

from vodtools.page import length_of, rate_or_unknown

BARS = " ▁▂▃▄▅▆▇█"


def line_of(state, sample):
    """Returns a sample as one line."""
    when = time.strftime("%Y-%m-%d %H:%M:%S", time.localtime(sample.when))
    if not sample.is_up:
        return f"{when} down: {sample.error}"
    parts = [f"{when} up, answer after {sample.milliseconds:.1f} ms"]
    if sample.full is not None:
        parts.append(f"journal full ({sample.full} entries): restart the server")
    if sample.booked is not None:
        booked, capacity = state.rate(sample.booked), state.rate(state.capacity(sample))
        parts.append(f"booked {booked:.2f} of {capacity:.2f} Mbit/s")
    known = [(state.more_viewers(film), film.name) for film in state.films]
    known = [(count, name) for count, name in known if count is not None]
    if known and sample is state.last():
        parts.append("room for " + ", ".join(f"{count} more of {name}" for count, name in known))
    return ", ".join(parts)


def chart_of(state, hours, columns):
    """Returns a line of bars: the most that was booked in each part of the last hours."""
    end = time.time()
    begin, most = end - hours * 3600, [None] * columns
    for sample in state.since(hours):
        place = min(columns - 1, int((sample.when - begin) / (end - begin) * columns))
        share = (sample.booked or 0) / max(1, state.capacity(sample)) if sample.is_up else -1
        most[place] = max(share, most[place] if most[place] is not None else -1)
    marks = {None: " ", -1: "x"}
    return "".join(
        marks[it] if it in marks else BARS[min(8, int(it * 8 + 0.999))] for it in most
    )


def films_of(state):
    """Returns the table of films as lines."""
    lines = [f"{'film':24} {'length':>9} {'mean':>9} {'peak':>9} {'more viewers':>12}"]
    for film in state.films:
        more = state.more_viewers(film)
        lines.append(
            f"{film.name:24} {length_of(film.seconds):>9} {rate_or_unknown(state, film.mean):>9}"
            f" {rate_or_unknown(state, film.peak):>9}"
            f" {'not known' if more is None else f'{more:,}':>12}"
        )
        if film.error:
            lines.append(f"    no plan: {film.error}")
    return lines


def screen_of(state, hours, every, columns):
    """Returns what a terminal shows."""
    last = state.last()
    width = max(20, min(columns - 2, 120))
    lines = [f"vodserve at rtsp://{state.host}:{state.settings.port}", line_of(state, last), ""]
    lines += [f"booked against the capacity, last {hours:g} h (full block: all, x: down)"]
    lines += ["|" + chart_of(state, hours, width) + "|", "", *films_of(state), ""]
    lines.append("rates in Mbit/s; more viewers: what is free now by the peak of the film's plan")
    if state.look:
        lines.append(f"asks every {every:g} s; each look takes an entry of the server's journal")
    if state.page:
        lines.append(f"the same as a page: {state.page}")
    return "\n".join(lines)
