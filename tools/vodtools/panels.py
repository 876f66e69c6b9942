"""Pictures of values by slots, as SVG. Each drawn line carries its numbers in `data-values`."""

WIDTH, HEIGHT, LEFT, GAP = 900, 260, 80, 46
FACE = 'font-family="sans-serif" font-size="12"'


def scale_of(most):
    """Returns a round number at or above the most, and the step of the marks up to it."""
    step = 10 ** max(0, len(str(int(most))) - 1)
    for part in (step // 5, step // 2, step):
        if part and most <= 8 * part:
            step = part
            break
    return step * -(-int(most) // step), step


class Panel:
    """A picture of values by slots, from the slot `first` on; a value covers `each` slots."""

    def __init__(self, top, slots, most, title, first=0, each=1):
        self.top, self.slots, self.first, self.each = top, max(1, slots), first, each
        self.most, self.step = scale_of(max(1, most))
        self.parts = [f'<text x="{LEFT}" y="{top - 8}" {FACE}>{title}</text>']
        for mark in range(0, self.most + 1, self.step):
            y = self.y(mark)
            self.parts.append(
                f'<path d="M{LEFT},{y}H{LEFT + WIDTH}" stroke="#ddd"/>'
                f'<text x="{LEFT - 6}" y="{y + 4}" {FACE} text-anchor="end">{mark:,}</text>'
            )
        self.mark_slots(top + HEIGHT)

    def mark_slots(self, below):
        """Draws the numbers of slots, each where its slot begins."""
        self.parts.append(
            f'<text x="{LEFT - 14}" y="{below + 18}" {FACE} text-anchor="end">slot</text>'
        )
        step = scale_of(self.slots)[1]
        begin = -(-self.first // step) * step
        for mark in range(begin, self.first + self.slots + 1, step):
            x = self.x(mark)
            self.parts.append(
                f'<path d="M{x},{below}v5" stroke="#555"/>'
                f'<text x="{x}" y="{below + 18}" {FACE} text-anchor="middle">{mark:,}</text>'
            )

    def x(self, slot):
        return round(LEFT + WIDTH * (slot - self.first) / self.slots, 2)

    def y(self, value):
        return round(self.top + HEIGHT - HEIGHT * value / self.most, 2)

    def line(self, name, values, color, width=2):
        """Draws a line through the value at the end of each slot, from 0."""
        points = " ".join(f"{self.x(k)},{self.y(v)}" for k, v in enumerate([0] + values))
        self.add(
            "polyline",
            name,
            values,
            f'points="{points}" fill="none" stroke="{color}" stroke-width="{width}"',
        )

    def outline(self, values):
        """Returns the path over values that each cover a slot, or `each` slots."""
        return f"M{self.x(self.first)},{self.y(0)}" + "".join(
            f"V{self.y(v)}H{self.x(self.first + (k + 1) * self.each)}"
            for k, v in enumerate(values)
        ) + f"V{self.y(0)}"

    def steps(self, name, values, color, fill="none", width=2):
        """Draws a value across each slot."""
        path = self.outline(values)
        rest = f'd="{path}" fill="{fill}" stroke="{color}" stroke-width="{width}"'
        self.add("path", name, values, rest)

    def area(self, name, values, tops, color):
        """Draws what a play adds to those below it, filled up to the tops."""
        self.add("path", name, values, f'd="{self.outline(tops)}Z" fill="{color}" stroke="none"')

    def ticks(self, name, slots, y, color):
        """Draws a short line at each slot in a row at the height `y`."""
        path = "".join(f"M{self.x(slot)},{y}v12" for slot in slots)
        rest = f'd="{path}" fill="none" stroke="{color}" stroke-width="1.5"'
        self.add("path", name, slots, rest)

    def add(self, kind, name, values, rest):
        numbers = " ".join(map(str, values))
        self.parts.append(
            f'<{kind} id="{name}" data-values="{numbers}" {rest}><title>{name}</title></{kind}>'
        )


def legend(top, entries):
    parts, x = [], LEFT
    for name, color in entries:
        parts.append(
            f'<rect x="{x}" y="{top - 10}" width="14" height="10" fill="{color}"/>'
            f'<text x="{x + 20}" y="{top}" {FACE}>{name}</text>'
        )
        x += 34 + 7 * len(name)
    return parts


def svg_of_parts(width, height, parts):
    return (
        f'<svg xmlns="http://www.w3.org/2000/svg" viewBox="0 0 {width} {height}">\n'
        '<rect width="100%" height="100%" fill="white"/>\n' + "\n".join(parts) + "\n</svg>\n"
    )


def svg_of(panels, entries):
    height = panels[-1].top + HEIGHT + GAP
    parts = [part for panel in panels for part in panel.parts] + legend(height - 12, entries)
    return svg_of_parts(LEFT + WIDTH + 20, height, parts)
