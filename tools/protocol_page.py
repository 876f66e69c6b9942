#!/usr/bin/env python3
"""Turns docs/PROTOCOL.md into the manual page vodserve-protocol(7).

    tools/protocol_page.py docs/PROTOCOL.md > vodserve-protocol.7

Understood are headings, paragraphs, lists, tables and code. Text in backquotes or between two
stars is bold, and of a link the text stays.
"""

import re
import sys


def escape(text):
    """Returns a text in which roff finds nothing to do."""
    text = text.replace("\\", "\\e").replace("-", "\\-")
    return "\\&" + text if text[:1] in (".", "'") else text


def inline(text):
    """Returns a line of prose with its code and stress in bold, and links as their text."""
    text = re.sub(r"!?\[([^]]*)\]\([^)]*\)", r"\1", text)
    parts = re.split(r"(`[^`]*`|\*\*[^*]*\*\*)", text)
    shown = [
        f"\\fB{escape(part.strip('`*')).removeprefix(chr(92) + '&')}\\fR"
        if part[:1] == "`" or part[:2] == "**"
        else part.replace("\\", "\\e")
        for part in parts
    ]
    line = "".join(shown)
    return "\\&" + line if line[:1] in (".", "'") else line


def cells_of(line):
    """Returns the cells of a table's row."""
    return [cell.strip() for cell in re.split(r"(?<!\\)\|", line.strip().strip("|"))]


class Page:
    """The lines of the page, as the document is read."""

    def __init__(self):
        self.lines, self.head, self.code, self.prose = [], None, False, False

    def read(self, line):
        if line.startswith("```"):
            self.lines.append(".fi\n.RE" if self.code else ".PP\n.RS 4\n.nf")
            self.code = not self.code
        elif self.code:
            self.lines.append(escape(line))
        elif line.startswith("    ") and not self.prose:
            self.lines.append(f".RS 4\n.nf\n{escape(line[4:])}\n.fi\n.RE")
        else:
            self.read_text(line.strip())

    def read_text(self, line):
        """Reads a line that isn't code."""
        heading = re.fullmatch(r"(#+) (.*)", line)
        item = re.fullmatch(r"([-*]|\d+\.) (.*)", line)
        if not line.startswith("|"):
            self.head = None
        self.prose = bool(line) and not heading
        if not line:
            self.lines.append(".PP")
        elif heading:
            kind = ".SS" if len(heading[1]) > 2 else ".SH"
            text = inline(heading[2])
            self.lines.append(f"{kind} {text.upper() if kind == '.SH' else text}")
        elif item:
            mark = "\\(bu" if len(item[1]) == 1 else item[1]
            self.lines.append(f".IP {mark} 4\n{inline(item[2])}")
        elif line.startswith("|"):
            self.read_row(cells_of(line))
        else:
            self.lines.append(inline(line))

    def read_row(self, cells):
        """Writes a table's row as its first cell, and the others below with their names."""
        if self.head is None:
            self.head = cells
        elif not all(re.fullmatch(r":?-+:?", cell) for cell in cells):
            others = [
                f"{inline(name)}: {inline(cell)}" if name else inline(cell)
                for name, cell in zip(self.head[1:], cells[1:])
                if cell
            ]
            self.lines.append(f".TP\n{inline(cells[0])}\n" + "\n.br\n".join(others))


def tidy(lines):
    """Leaves out paragraph marks that stand beside a heading, an item or another one."""
    kept = []
    for line in "\n".join(lines).split("\n"):
        quiet = kept and kept[-1].startswith((".PP", ".SH", ".SS"))
        if line == ".PP" and quiet:
            continue
        if line.startswith((".SH", ".SS", ".IP", ".TP")) and kept and kept[-1] == ".PP":
            kept.pop()
        kept.append(line)
    return kept[:-1] if kept and kept[-1] == ".PP" else kept


def main():
    if len(sys.argv) != 2 or sys.argv[1] in ("-h", "--help"):
        print(__doc__, end="", file=sys.stdout if len(sys.argv) == 2 else sys.stderr)
        sys.exit(0 if len(sys.argv) == 2 else 2)
    try:
        with open(sys.argv[1], encoding="utf-8") as file:
            lines = file.read().splitlines()
    except OSError as error:
        sys.exit(f"protocol_page.py: {sys.argv[1]}: {error.strerror}")
    page = Page()
    for line in lines[1:] if lines and lines[0].startswith("# ") else lines:
        page.read(line)
    name = "vodserve\\-protocol \\- what vodserve speaks of RTSP and RTP"
    print('.TH VODSERVE\\-PROTOCOL 7 "" vodserve\n.SH NAME\n' + name + "\n.SH DESCRIPTION")
    print("\n".join(tidy(page.lines)))


if __name__ == "__main__":
    main()
