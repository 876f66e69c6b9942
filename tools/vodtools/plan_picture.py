"""Draws a trace's plan between the two limits of the client's buffer."""

from vodtools.panels import GAP, HEIGHT, Panel, svg_of
from vodtools.program import run, segments_of, slots_of


def sums_of(values):
    total, sums = 0, []
    for value in values:
        total += value
        sums.append(total)
    return sums


def limits_of(sizes, buffer, startup):
    """Returns the bytes that must have been sent, and those that may have been, by each slot."""
    used = sums_of([0] * startup + sizes)
    low, total = used, used[-1]
    high = [min(total, before + buffer) for before in [0] + used[:-1]]
    return low, high


def draw_plan(program, args):
    buffer, startup = int(args.get("buffer", 1048576)), int(args.get("startup", 25))
    plan = slots_of(segments_of(run(program, "plan", args)))
    # the program accepted the trace, so it has numbers alone
    with open(args["trace"], encoding="ascii") as file:
        sizes = [int(number) for number in file.read().split()]
    low, high = limits_of(sizes, buffer, startup)
    pictures = [0] * (len(plan) - len(sizes)) + sizes
    upper = Panel(30, len(plan), high[-1], "bytes sent by the end of each slot")
    upper.line("must", low, "#c33")
    upper.line("may", high, "#36c")
    upper.line("plan", sums_of(plan), "#181")
    lower = Panel(30 + HEIGHT + GAP, len(plan), max(pictures + plan), "bytes in each slot")
    lower.steps("pictures", pictures, "#bbb", "#ddd", 1)
    lower.steps("sent", plan, "#181")
    names = [("must have been sent", "#c33"), ("may have been sent", "#36c")]
    return svg_of([upper, lower], names + [("the plan", "#181"), ("unsmoothed", "#bbb")])
