#!/usr/bin/env python3
"""Draws SVG pictures of measurements and of sessions. Python's standard library is all that it needs.

    draw.py lines TABLE.tsv OUT.svg [TITLE [log]]       a line for each column over the first one; `log`: both axes logarithmic
    draw.py table BOOK > TABLE.tsv                      what bench/book.sh said, as a table in microseconds
    draw.py workers SHARED > TABLE.tsv                  what bench/shared.sh said, as a table of how many times as fast as `alone`
    draw.py session ROSTER CAPTURE ANSWER OUT.svg       a session tick by tick: who is heard, and which listeners share encoder runs

TABLE has a row of names and then rows of numbers, with tabs between; a name may end with its unit. Lines that begin with # are notes, of
which the first stands below the picture. In a session's picture listeners stand by rate and then by join; at each tick those of one
colour are sent the same payloads, then and for the half second that follows, so one encoder run serves them.
"""
import colorsys
import math
import os
import re
import sys
from html import escape

TOP = os.path.dirname(os.path.dirname(os.path.abspath(__file__)))
sys.path.insert(0, os.path.join(TOP, "tools"))
COLOURS = ["#1f5fa8", "#c2452d", "#3b8a4a", "#8a5bb0", "#b0842b", "#4a4a4a"]
TEXT = 'font-family="sans-serif" font-size="13" fill="#222"'
TICK, AHEAD = 20, 25


class Picture:
    def __init__(self, width, height):
        self.parts = [
            f'<svg xmlns="http://www.w3.org/2000/svg" width="{width}" height="{height}" viewBox="0 0 {width} {height}">',
            f'<rect width="{width}" height="{height}" fill="#fff"/>',
        ]

    def text(self, x, y, words, anchor="start", more=""):
        self.parts.append(f'<text x="{x:g}" y="{y:g}" text-anchor="{anchor}" {TEXT} {more}>{escape(words)}</text>')

    def line(self, x, y, to_x, to_y, colour="#ccc"):
        self.parts.append(f'<path d="M{x:g} {y:g}L{to_x:g} {to_y:g}" stroke="{colour}" fill="none"/>')

    def box(self, x, y, width, height, colour):
        self.parts.append(f'<path d="M{x:g} {y:g}h{width:g}v{height:g}h{-width:g}z" fill="{colour}"/>')

    def curve(self, points, colour):
        path = "L".join(f"{x:.1f} {y:.1f}" for x, y in points)
        dots = "".join(f'<circle cx="{x:.1f}" cy="{y:.1f}" r="3" fill="{colour}"/>' for x, y in points)
        self.parts.append(f'<path d="M{path}" stroke="{colour}" stroke-width="2" fill="none"/>{dots}')

    def write(self, path):
        with open(path, "w") as file:
            file.write("\n".join([*self.parts, "</svg>", ""]))


def table(path):
    """Names, columns and notes."""
    with open(path) as file:
        lines = [line.rstrip("\n") for line in file if line.strip()]
    notes = [line.lstrip("# ") for line in lines if line.startswith("#")]
    names, *rows = [line.split("\t") for line in lines if not line.startswith("#")]
    if not rows or any(len(row) != len(names) for row in rows):
        sys.exit(f"{path}: not a table of {len(names)} columns")
    return names, [[float(value) if value else None for value in column] for column in zip(*rows)], notes


def scale(values, least, most, log):
    """A way from values to places, and the values that stand at the axis."""
    if log:
        low, high = math.floor(math.log10(min(values)) + 1e-9), math.log10(max(values))
        high = max(high, low + 1)
        marks = [10**n for n in range(low, math.floor(high + 1e-9) + 1)]
        return (lambda value: least + (math.log10(value) - low) / (high - low) * (most - least)), marks
    top = max(values)
    step = 10 ** math.floor(math.log10(top))
    step = next(step * part for part in (0.1, 0.2, 0.25, 0.5, 1, 2) if top / (step * part) <= 8)
    high = math.ceil(top / step - 1e-9) * step
    return (lambda value: least + value / high * (most - least)), [n * step for n in range(round(high / step) + 1)]


def lines(path, out, title="", log=""):
    names, columns, notes = table(path)
    picture, left, right, upper, lower = Picture(760, 440), 80, 540, 50, 370
    picture.text(left, 28, title, more='font-weight="bold"')
    values = [value for column in columns[1:] for value in column if value is not None]
    across, x_marks = scale(columns[0], left, right, log == "log")
    up, y_marks = scale(values, lower, upper, log == "log")
    for mark in y_marks:
        picture.line(left, up(mark), right, up(mark))
        picture.text(left - 8, up(mark) + 4, f"{mark:,g}" if mark < 1e6 else f"{mark:,.0f}", "end")
    for mark in x_marks:
        picture.line(across(mark), upper, across(mark), lower, "#eee")
        picture.text(across(mark), lower + 20, f"{mark:,g}" if mark < 1e6 else f"{mark:,.0f}", "middle")
    picture.text((left + right) / 2, lower + 40, names[0], "middle")
    ends = []
    for number, (name, column) in enumerate(zip(names[1:], columns[1:])):
        colour = COLOURS[number % len(COLOURS)]
        points = [(across(x), up(y)) for x, y in zip(columns[0], column) if y is not None]
        picture.curve(points, colour)
        ends.append((points[-1][1], name, colour))
    y = upper - 18
    for place, name, colour in sorted(ends):
        y = max(y + 18, place)
        picture.text(right + 10, y + 4, name, more=f'style="fill:{colour}"')
    if notes:
        picture.text(left, lower + 62, notes[0], more='style="font-size:11px;fill:#666"')
    picture.write(out)


def book_table(path):
    """The lines of bench/book.sh as a table: what its encoder runs and the rest of a tick cost."""
    found = {}
    with open(path) as file:
        for words in re.finditer(r"listeners (\d+) (\w+): \d+ ns a tick, encoder runs (-?\d+), the rest (-?\d+)", file.read()):
            found.setdefault(int(words[1]), {})[words[2]] = (int(words[3]) / 1000, int(words[4]) / 1000)
    if not found or any(set(kinds) != {"shared", "apart"} for kinds in found.values()):
        sys.exit(f"{path}: not what bench/book.sh says")
    print("listeners\tno two share: encoder runs\tno two share: the rest\tall share one run: the rest")
    for listeners, kinds in sorted(found.items()):
        print(f"{listeners}\t{kinds['apart'][0]:g}\t{kinds['apart'][1]:g}\t{kinds['shared'][1]:g}")


def workers_table(path):
    """How many times as fast as `alone` each session was by each number of workers, beside nine tenths of that number."""
    sessions, seconds = [], []
    with open(path) as file:
        for line in file:
            if heading := re.match(r"(.*): ticks \d+ runs ", line):
                sessions.append(heading.group(1))
                seconds.append({})
            elif row := re.match(r"\| `(alone|shared (\d+))` \| ([0-9.]+) \|", line):
                seconds[-1][int(row.group(2) or 0)] = float(row.group(3))
    if not sessions:
        sys.exit(f"{path}: no sessions in it")
    print("workers", *sessions, "nine tenths of the workers", sep="\t")
    for workers in sorted(seconds[0])[1:]:
        print(workers, *(f"{times[0] / times[workers]:.2f}" for times in seconds), f"{0.9 * workers:g}", sep="\t")


def shared(listeners, ticks):
    """For each listener the leader of those that are sent the same, tick by tick, and how many different ones there are in all."""
    groups, runs = [{} for _ in range(ticks)], 0
    rows = []
    for listener in listeners:
        begin, payloads, row = listener.offset // TICK - 1, listener.payloads, [None] * ticks
        for place in range(len(payloads)):
            if begin + place < ticks:
                key = (len(payloads[0]), hash(tuple(payloads[place : place + AHEAD])))
                runs += key not in groups[begin + place]
                row[begin + place] = groups[begin + place].setdefault(key, len(rows))
        rows.append(row)
    return rows, runs


def spans(row):
    """First and last tick and value of each stretch of a row with one value."""
    found, begin = [], 0
    for at in range(1, len(row) + 1):
        if at == len(row) or row[at] != row[begin]:
            if row[begin] is not None:
                found.append((begin, at, row[begin]))
            begin = at
    return found


def session(roster, capture, answer, out):
    from captures.answers import listeners
    from captures.heard import Session

    heard, told = [], Session(roster)
    told.run(capture, lambda tick, chosen: heard.append({member.source for member, _ in chosen}))
    everyone = listeners(answer, lambda source: True)
    if any(listener.ticks and listener.ticks > 1 for listener in everyone):
        sys.exit("a session whose packets carry several ticks can't be drawn")
    everyone.sort(key=lambda listener: (len(listener.payloads[0]), listener.offset))
    rows, runs = shared(everyone, told.ticks)
    size = 3 if len(rows) > 60 else 18
    wide = max(1, 900 // told.ticks)
    left, top = 110, 70
    width, height = told.ticks * wide, len(rows) * size
    begin = top + 22 * len(told.talkers) + 14
    picture = Picture(left + width + 30, begin + height + 60)
    packets = sum(len(listener.payloads) for listener in everyone)
    title = f"{os.path.basename(roster)[:-7]}: {len(rows)} listeners, {packets:,} packets"
    if os.path.exists(roster[:-7] + ".summary"):
        with open(roster[:-7] + ".summary") as file:
            title += f", {int(file.read().split()[3]):,} encoder runs"
    picture.text(left, 26, title, more='font-weight="bold"')
    picture.text(left, 46, "above: whose voice is heard; below: a row for each listener, one colour where all are sent the same")
    for number, talker in enumerate(told.talkers):
        y = top + 22 * number
        picture.text(left - 8, y + 13, f"talker {talker.member}", "end")
        picture.box(left, y + 8, width, 1, "#ddd")
        for first, last, _ in spans([1 if talker.source in chosen else None for chosen in heard]):
            picture.box(left + wide * first, y + 2, wide * (last - first), 14, "#333")
    draw_rows(picture, everyone, rows, (left, begin, wide, size))
    for second in range(0, told.ticks // 50 + 1, 1 if told.ticks <= 1500 else 10):
        x = left + 50 * wide * second
        picture.line(x, begin + height, x, begin + height + 5, "#888")
        picture.text(x, begin + height + 20, str(second), "middle")
    picture.text(left + width / 2, begin + height + 42, "seconds", "middle")
    picture.write(out)
    print(f"{packets} packets, {runs} different payloads with what follows them, by tick and rate", file=sys.stderr)


def draw_rows(picture, everyone, rows, place):
    left, begin, wide, size = place
    lengths = [len(listener.payloads[0]) for listener in everyone]
    leaders = sorted({value for row in rows for value in row if value is not None})
    colour = {}
    for leader in leaders:
        same = [other for other in leaders if lengths[other] == lengths[leader]]
        hue = (0.58, 0.03, 0.36, 0.78)[sorted(set(lengths)).index(lengths[leader])]
        at = same.index(leader)
        light = 0.42 + 0.4 * at / max(1, len(same) - 1) if at else 0.42
        colour[leader] = "#" + "".join(f"{round(255 * part):02x}" for part in colorsys.hls_to_rgb((hue + 0.04 * (at % 3)) % 1, light, 0.6))
    drawn = [spans(row) for row in rows]
    for number, row in enumerate(drawn):
        for span in row:
            if number and span in drawn[number - 1]:
                continue  # it is part of the box above it
            deep = 1
            while number + deep < len(rows) and span in drawn[number + deep]:
                deep += 1
            first, last, leader = span
            picture.box(left + wide * first, begin + size * number, wide * (last - first), size * deep - (1 if size > 6 else 0), colour[leader])
    for length in sorted(set(lengths)):
        middle = (lengths.index(length) + lengths.count(length) / 2) * size + begin
        picture.text(left - 8, middle + 4, f"{length * 8 // TICK} kbit/s", "end")


def main(words):
    if 3 <= len(words) <= 5 and words[0] == "lines":
        lines(*words[1:])
    elif len(words) == 2 and words[0] == "table":
        book_table(words[1])
    elif len(words) == 2 and words[0] == "workers":
        workers_table(words[1])
    elif len(words) == 5 and words[0] == "session":
        session(*words[1:])
    else:
        sys.exit(__doc__)


main(sys.argv[1:])
