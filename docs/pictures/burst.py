#!/usr/bin/env python3
"""Draws the burst of docs/LANE.md from a real run of the listing program.

    docs/pictures/burst.py [PROGRAM]

feeds the commands of one burst to PROGRAM (crates/listing/out/listing where none is named), reads its lines, writes burst.svg
beside this file and prints the text form.

Levels, runs and edges are worked out here once more, by the rules that docs/LANE.md tells. What the program printed has
to be their train: where it is another, the script stops and draws nothing.
"""
import math
import os
import struct
import subprocess
import sys

HERE = os.path.dirname(os.path.abspath(__file__))
LISTING = os.path.join(HERE, "..", "..", "crates", "listing", "out", "listing")

# The burst. Settings, then one envelope for each sample.
OOK, MIN_STEPS, GAP_STEPS, LONG_STEPS, MAX_PULSES = 0, 3, 9, 1000, 4
NOISE, FIRST = 1.0, 20
ENVELOPES = ([1, 1, 5] + [9] * 5 + [5, 1, 1, 1, 9, 1, 1, 1, 5] + [9] * 3 + [1] + [9] * 4 + [1] * 10)
LAST = FIRST + len(ENVELOPES) - 1
LEAD = min(16, 4 * MIN_STEPS - 1)


# ---- the run

def commands():
    """The burst as commands: 01 opens, 02 begins with the first sample, 03 steps through the others."""
    out = struct.pack("<BB5I4f", 1, OOK, MIN_STEPS, GAP_STEPS, GAP_STEPS, LONG_STEPS, MAX_PULSES, 0.5, 100, 0, 0)
    out += struct.pack("<BQ6f7f", 2, FIRST, 1, ENVELOPES[0], 1, 0, 1, 0, *[NOISE] * 7)
    for i, envelope in enumerate(ENVELOPES[1:], FIRST + 1):
        out += struct.pack("<BQ4f", 3, i, NOISE, envelope, 1, 0)
    return out


def lines(program):
    return subprocess.run([program], input=commands(), stdout=subprocess.PIPE, check=True).stdout.decode().splitlines()


# ---- levels, runs and edges, by the rules of docs/LANE.md

SIGNAL = max(ENVELOPES[:LEAD])
MIDDLE = (NOISE + SIGNAL) / 2
RISES_ABOVE, FALLS_BELOW = MIDDLE * 9 / 8, MIDDLE * 7 / 8
REFINED_AT = math.sqrt(SIGNAL ** 2 / 4 + 3 / math.pi * NOISE ** 2)


def at(i):
    return ENVELOPES[i - FIRST] if i >= FIRST else NOISE


def crossing(i, level):
    """Where the line from sample i - 1 to sample i meets the level."""
    return i - 1 + min(max((level - at(i - 1)) / (at(i) - at(i - 1)), 0), 1)


def runs():
    """The runs as [high, first sample, last sample]."""
    found, high = [], False
    for i in range(FIRST, LAST + 1):
        high = at(i) >= FALLS_BELOW if high else at(i) > RISES_ABOVE
        if found and found[-1][0] == high:
            found[-1][2] = i
        else:
            found.append([high, i, i])
    return found


def counts(run):
    return run[2] - run[1] + 1 >= MIN_STEPS


def refined(high, first):
    """The edge of a run: the samples around its first one are parted where the step is clearest, and there the line
    between two samples meets the level of half the signal's strength."""
    last, best, split, total = first + MIN_STEPS - 1, -math.inf, first, 0
    for i in range(last, first - min(6, MIN_STEPS - 1), -1):
        total += (at(i) - REFINED_AT) * (1 if high else -1)
        if total > best:
            best, split = total, i
    return crossing(split, REFINED_AT)


def edges():
    """The two edges of each pulse in order: [crossing, refined edge]."""
    found, high = [], False
    for run in filter(counts, runs()):
        if run[0] != high:
            high = run[0]
            found.append([crossing(run[1], RISES_ABOVE if high else FALLS_BELOW), refined(high, run[1])])
    return found


def nearest(x):
    return math.floor(x + 0.5)


def compared(printed):
    """The words of the train line, and the index of `idle`: what the program printed and what is drawn are the same."""
    train, idle = printed[0].split(), printed[1].split()
    found = edges()
    widths = [nearest(b[1] - a[1]) for a, b in zip(found, found[1:])] + [0]
    assert len(printed) == 2 and train[0] == "ook" and idle[0] == "idle", printed
    assert [int(w) for w in train[1:3]] == [nearest(found[0][0]), nearest(found[-1][0])], (train, found)
    assert [int(w) for w in train[10:]] == widths, (train, widths)
    assert int(idle[1]) == LAST, idle
    return train, int(idle[1])


# ---- the text form

def row(name, marks):
    """A row: marks are (time, text), each put at its time, two columns to a sample."""
    cells = [" "] * (2 * len(ENVELOPES) + 8)
    for time, text in marks:
        start = round(2 * (time - FIRST))
        cells[start:start + len(text)] = text
    return (name.ljust(12) + "".join(cells)).rstrip()


def bar(first, last, text):
    """A stretch of samples, from the first to the last of them, with its name."""
    width = 2 * (last - first) + 1
    return first, "|" + text.center(width - 2, "-") + "|" if width > 2 else "|"


def text_form(printed, train, idle):
    out = [row("index", [(i, str(i)) for i in range(FIRST, LAST + 1, 5)])]
    for name, level in (("signal   9", 9), ("middle   5", 5), ("noise    1", 1)):
        out.append(row(name, [(i, "o") for i in range(FIRST, LAST + 1) if at(i) == level]))
    out.append(row("level", [(i, "H" if run[0] else "l") for run in runs() for i in range(run[1], run[2] + 1)]))
    out.append(row("counts", [(i, "=" if counts(run) else "x") for run in runs() for i in range(run[1], run[2] + 1)]))
    out.append(row("lead", [bar(FIRST, FIRST + LEAD - 1, " lead ")]))
    times = [e[1] for e in edges()]
    out.append(row("edges", [(t, "^") for t in times]))
    out.append(row("", [(t - 1, "%.1f" % t) for t in times]))
    names = ["pulse", "gap"] * len(times)
    told = [" %s %s " % pair for pair in zip(names, train[10:])]
    out.append(row("widths", [bar(nearest(a), nearest(b), words) for a, b, words in zip(times, times[1:], told)]))
    out.append(row("train", [bar(int(train[1]), int(train[2]), " train: index %s, end %s " % (train[1], train[2]))]))
    out.append(row("phase", [(FIRST, "begin"), (idle - 2, "idle")]))
    return "\n".join(out + [""] + printed)


# ---- the drawing: each function gives a list of elements

STEP, LEFT, TOP, UNIT = 26, 132, 44, 26
BOTTOM = TOP + 10 * UNIT
CALLS, RUNS, EDGES, WIDTHS, TRAIN, PRINTED = ROWS = [BOTTOM + 18 + 36 * k for k in range(6)]
INK, GREY, BLUE, RED, GREEN = "#222", "#777", "#1f5fa8", "#b3261e", "#2e6b2e"
WHITE, PALE, ROSE, SAND, LEAF = "#fff", "#dbe7f5", "#f3d5d3", "#fff4d6", "#e4f1e1"


def x_of(time):
    return LEFT + STEP * (time - FIRST + 0.5)


def y_of(level):
    return BOTTOM - UNIT * level


RIGHT = x_of(LAST + 0.5)


def line(x1, y1, x2, y2, colour, more=""):
    return '<line x1="%.1f" y1="%.1f" x2="%.1f" y2="%.1f" stroke="%s" %s/>' % (x1, y1, x2, y2, colour, more)


def text(x, y, words, colour=INK, anchor="middle", size=12, more=""):
    place = 'x="%.1f" y="%.1f" text-anchor="%s"' % (x, y, anchor)
    return '<text %s fill="%s" font-size="%d" %s>%s</text>' % (place, colour, size, more, words)


def box(x1, x2, y, words, fill, colour=INK):
    place = 'x="%.1f" y="%.1f" width="%.1f" height="22"' % (x1, y, x2 - x1)
    return '<rect %s fill="%s" stroke="%s"/>' % (place, fill, colour) + text((x1 + x2) / 2, y + 15, words, colour)


def ring(x, y):
    return '<circle cx="%.1f" cy="%.1f" r="5" fill="none" stroke="%s" stroke-width="1.5"/>' % (x, y, INK)


def diamond(x, y):
    return '<path d="M%.1f %.1fl4 -4l4 4l-4 4z" fill="%s"/>' % (x - 4, y, RED)


def levels():
    out = []
    names = "signal level", "rises above", "middle", "falls below", "noise"
    for name, level in zip(names, (SIGNAL, RISES_ABOVE, MIDDLE, FALLS_BELOW, NOISE)):
        colour = RED if level in (RISES_ABOVE, FALLS_BELOW) else GREY
        out.append(line(LEFT, y_of(level), RIGHT, y_of(level), colour, 'stroke-dasharray="4 4"'))
        out.append(text(LEFT - 8, y_of(level) + 4, "%s %g" % (name, level), colour, "end", 11))
    return out


def samples():
    out = [text(LEFT - 8, TOP - 14, "index", GREY, "end", 11), text(x_of(25), y_of(SIGNAL) - 12, "envelope", BLUE)]
    for i in range(FIRST, LAST + 1, 5):
        out.append(line(x_of(i), TOP - 8, x_of(i), TOP - 2, GREY) + text(x_of(i), TOP - 14, str(i), GREY, size=11))
    points = ["%.1f,%.1f" % (x_of(i), y_of(at(i))) for i in range(FIRST, LAST + 1)]
    out.append('<polyline points="%s" fill="none" stroke="%s" stroke-width="1.5"/>' % (" ".join(points), BLUE))
    for i in range(FIRST, LAST + 1):
        out.append('<circle cx="%.1f" cy="%.1f" r="3.5" fill="%s"/>' % (x_of(i), y_of(at(i)), BLUE))
    return out


def marks():
    """Edges and crossings, with lines down to the rows, which are drawn over these."""
    out, key = [], x_of(46.2)
    for (crossed, edge), level in zip(edges(), [RISES_ABOVE, FALLS_BELOW] * MAX_PULSES):
        out.append(line(x_of(edge), y_of(REFINED_AT), x_of(edge), WIDTHS, INK, 'stroke-dasharray="2 3"'))
        out.append(ring(x_of(edge), y_of(REFINED_AT)) + diamond(x_of(crossed), y_of(level)))
    out.append(ring(key, y_of(8.2)) + text(key + 12, y_of(8.2) + 4, "edge: the widths lie between these", INK, "start", 11))
    out.append(diamond(key, y_of(7.4)) + text(key + 12, y_of(7.4) + 4, "crossing: index and end", RED, "start", 11))
    return out


def run_row():
    out = []
    for run in runs():
        name = "%s%d" % ("" if run[1] == run[2] else "high " if run[0] else "low ", run[2] - run[1] + 1)
        fill, colour = (PALE if run[0] else WHITE, INK) if counts(run) else (ROSE, RED)
        out.append(box(x_of(run[1] - 0.5), x_of(run[2] + 0.5), RUNS, name, fill, colour))
        if not counts(run):
            kind, y = ("high", y_of(SIGNAL) - 12) if run[0] else ("low", y_of(NOISE) + 20)
            out.append(text(x_of(run[1]), y, "short %s run: does not count" % kind, RED, size=11))
    return out


def rows(printed, train, idle):
    out, times, full = [], [edge for _, edge in edges()], x_of(FIRST + LEAD - 0.5)
    for y, name in zip(ROWS, ("calls", "runs", "edges", "pulses and gaps", "train", "printed")):
        out.append(text(LEFT - 8, y + 15, name, INK, "end", 12, 'font-weight="bold"'))
    out.append(box(LEFT, full, CALLS, "lead: begin and %d steps, kept" % (LEAD - 1), SAND))
    out.append(box(full, RIGHT, CALLS, "burst: the lead is replayed, then each step is one sample", WHITE))
    out += run_row()
    for time in times:
        out.append('<rect x="%.1f" y="%.1f" width="46" height="18" fill="%s"/>' % (x_of(time) - 23, EDGES + 2, WHITE))
        out.append(text(x_of(time), EDGES + 15, "%.2f" % time))
    for k, (start, end) in enumerate(zip(times, times[1:])):
        name, fill = ("gap", WHITE) if k % 2 else ("pulse", PALE)
        out.append(box(x_of(start), x_of(end), WIDTHS, "%s %s" % (name, train[10 + k]), fill))
    out.append(text(x_of(times[-1]) + 8, WIDTHS + 15, "last gap %s: no pulse closes it" % train[-1], GREY, "start", 11))
    told = "train: index %s to end %s, span %s, %s pairs" % (train[1], train[2], train[4], train[9])
    out.append(box(x_of(int(train[1])), x_of(int(train[2])), TRAIN, told, LEAF))
    out.append(line(x_of(idle), y_of(NOISE) + 6, x_of(idle), PRINTED + 2, GREEN, 'stroke-width="1.5"'))
    out.append(text(x_of(idle) - 6, TRAIN + 15, "%d low samples" % (GAP_STEPS + 1), GREEN, "end", 11))
    out.append(text(LEFT, PRINTED + 15, printed[0], INK, "start", 13, 'font-family="monospace"'))
    out.append(text(x_of(idle), PRINTED + 15, printed[1], GREEN))
    return out


def drawing(printed, train, idle):
    size = 'width="%d" height="%d"' % (RIGHT + 34, PRINTED + 36)
    box_of = 'viewBox="0 0 %d %d"' % (RIGHT + 34, PRINTED + 36)
    head = ['<svg xmlns="http://www.w3.org/2000/svg" %s %s font-family="sans-serif">' % (box_of, size),
            "<title>A burst: envelope, lead, runs, edges, pulses, gaps and train</title>",
            '<rect %s fill="%s"/>' % (size, WHITE)]
    return "\n".join(head + levels() + samples() + marks() + rows(printed, train, idle) + ["</svg>", ""])


def main():
    printed = lines(sys.argv[1] if len(sys.argv) > 1 else LISTING)
    train, idle = compared(printed)
    with open(os.path.join(HERE, "burst.svg"), "w") as file:
        file.write(drawing(printed, train, idle))
    print(text_form(printed, train, idle))


main()
