#!/usr/bin/env python3
"""draw.py [FOLDER]: the pictures of docs, as SVG, from measured data:

    times.svg    the table 'Time' of docs/PERFORMANCE.md, which bench/run.py writes
    loss.svg     docs/pictures/loss.csv, which bench/loss.py writes
    memory.svg   the sizes in include/ampferweg.h

`make pictures` draws all of them, into FOLDER or here. Each has a ground of its own, so that it is legible on a white and on a dark page.
"""
import csv
import math
import pathlib
import re
import sys

HERE = pathlib.Path(__file__).resolve().parent
ROOT = HERE.parent.parent
FOLDER = pathlib.Path(sys.argv[1]) if len(sys.argv) > 1 else HERE
INK, SOFT, GRID = "#1f2328", "#57606a", "#d8dee4"
OURS, OURS_TOO, THEIRS = "#0072b2", "#56b4e9", "#d55e00"  # told apart also by the colour-blind, and by their dashes


class Picture:
    def __init__(self, width, height, title):
        self.parts = [
            f'<svg xmlns="http://www.w3.org/2000/svg" viewBox="0 0 {width} {height}" width="{width}" height="{height}" role="img" '
            f'font-family="sans-serif" font-size="13">', f"<title>{title}</title>",
            f'<rect x="0.5" y="0.5" width="{width - 1}" height="{height - 1}" rx="6" fill="#ffffff" stroke="{GRID}"/>']
        self.text(20, 28, title, size=16, weight="bold")

    def text(self, x, y, words, anchor="start", fill=INK, size=13, weight="normal"):
        words = words.replace("&", "&amp;").replace("<", "&lt;")
        self.parts.append(f'<text x="{x:.1f}" y="{y:.1f}" text-anchor="{anchor}" fill="{fill}" font-size="{size}" '
                          f'font-weight="{weight}">{words}</text>')

    def line(self, x1, y1, x2, y2, stroke=GRID, width=1, dash=""):
        self.parts.append(f'<line x1="{x1:.1f}" y1="{y1:.1f}" x2="{x2:.1f}" y2="{y2:.1f}" stroke="{stroke}" stroke-width="{width}" '
                          f'stroke-dasharray="{dash}"/>')

    def bar(self, x, y, width, height, fill, stroke="none"):
        self.parts.append(f'<rect x="{x:.1f}" y="{y:.1f}" width="{max(width, 0.5):.1f}" height="{height:.1f}" fill="{fill}" '
                          f'stroke="{stroke}"/>')

    def curve(self, points, stroke, dash=""):
        at = " ".join(f"{x:.1f},{y:.1f}" for x, y in points)
        self.parts.append(f'<polyline points="{at}" fill="none" stroke="{stroke}" stroke-width="2.5" stroke-dasharray="{dash}"/>')
        self.parts += [f'<circle cx="{x:.1f}" cy="{y:.1f}" r="3" fill="{stroke}"/>' for x, y in points]

    def save(self, name):
        (FOLDER / name).write_text("\n".join([*self.parts, "</svg>", ""]))
        print(FOLDER / name)


# ---- time per message

def read_times():
    """Rows of the first table below '## Time': name, ns of ours, ns of kcp-go's core (none where it was left out)."""
    part = (ROOT / "docs/PERFORMANCE.md").read_text().split("## Time")[1].split("The worst single call")[0]
    rows = re.findall(r"^\| (W.*?) \| ([\d,]+) \| ([\d,]*) \|", part, re.M)
    return [(name, *(int(n.replace(",", "")) if n else None for n in numbers)) for name, *numbers in rows]


def draw_times():
    rows = read_times()
    left, top, wide, step = 250, 84, 480, 42
    most = max(n for _, *numbers in rows for n in numbers if n)
    scale = wide / (math.ceil(most / 500) * 500)
    p = Picture(820, top + step * len(rows) + 52, "Processor time for a message, both ends together")
    p.bar(left, 44, 14, 12, OURS)
    p.text(left + 20, 55, "Ampferweg")
    p.bar(left + 120, 44, 14, 12, THEIRS)
    p.text(left + 140, 55, "kcp-go's core")
    bottom = top + step * len(rows)
    for tick in range(0, math.ceil(most / 500) * 500 + 1, 500):
        p.line(left + tick * scale, top - 12, left + tick * scale, bottom)
        p.text(left + tick * scale, bottom + 18, f"{tick:,}", "middle", SOFT)
    p.text(left + wide / 2, bottom + 38, "nanoseconds (W5: for a datagram, W6: for a flush); less is better", "middle", SOFT)
    for i, (name, *numbers) in enumerate(rows):
        y = top + step * i
        p.text(left - 10, y + 16, name, "end")
        for number, fill, at in zip(numbers, (OURS, THEIRS), (y - 2, y + 13)):
            if number is not None:
                p.bar(left, at, number * scale, 13, fill)
                p.text(left + number * scale + 6, at + 11, f"{number:,}", size=12)
    p.save("times.svg")


# ---- delivery under loss

LINES = (("ampferweg", "1", "Ampferweg, mode 1", OURS, ""), ("ampferweg", "2", "Ampferweg, mode 2", OURS_TOO, "7 4"),
         ("kcp-go", "1", "kcp-go's core, nodelay 1", THEIRS, "2 3"))


def read_loss():
    with open(HERE / "loss.csv", newline="") as file:
        return list(csv.DictReader(file))


def panel(p, rows, left, column, words):
    """A panel of loss against milliseconds, on a scale where each line is ten times the one below it."""
    top, wide, high, least, most = 112, 330, 300, 1, 6  # 10 ms to 1,000 s

    def x(loss):
        return left + wide * loss / 50

    def y(milliseconds):
        return top + high * (most - math.log10(milliseconds)) / (most - least)

    p.text(left, top - 16, words, weight="bold")
    for power, label in zip(range(least, most + 1), ("10 ms", "100 ms", "1 s", "10 s", "100 s", "1,000 s")):
        p.line(left, y(10 ** power), left + wide, y(10 ** power))
        p.text(left - 8, y(10 ** power) + 4, label, "end", SOFT)
    for loss in range(0, 51, 10):
        p.line(x(loss), top, x(loss), top + high)
        p.text(x(loss), top + high + 18, f"{loss} %", "middle", SOFT)
    p.text(left + wide / 2, top + high + 38, "datagrams lost, each way", "middle", SOFT)
    for impl, mode, _, stroke, dash in LINES:
        mine = [row for row in rows if row["impl"] == impl and row["mode"] == mode]
        p.curve([(x(float(row["loss"])), y(float(row[column]))) for row in mine], stroke, dash)


def draw_loss():
    rows = read_loss()
    p = Picture(860, 468, "From sending to reading: a message every 20 ms over a line of 20 ms")
    for i, (_, _, words, stroke, dash) in enumerate(LINES):
        at = 80 + 220 * i
        p.line(at, 54, at + 34, 54, stroke, 2.5, dash)
        p.text(at + 42, 58, words)
    panel(p, rows, 80, "median", "half of all messages take at most")
    panel(p, rows, 500, "p99", "99 of 100 messages take at most")
    p.save("loss.svg")


# ---- the block and the pools

def read_sizes():
    """The numbers of the header's sizes; the pools by their slots."""
    text = (ROOT / "include/ampferweg.h").read_text()
    size = {name: int(value) for name, value in re.findall(r"#define AMPFERWEG_(\w+) +(\d+)", text)}
    slots = {name: int(value) for name, value in re.findall(r"#define AMPFERWEG_(\w+)_POOL_SIZE\(mtu\) +\((\d+) \*", text)}
    return size, slots


def parts_of(mtu):
    """The lent parts in bytes: name, what is in it, bytes, colour."""
    size, slots = read_sizes()
    mss = mtu - 24
    return [
        ("control block", "settings, numbers, lists", size["BLOCK_SIZE"], "#cc79a7"),
        ("send pool", f"{slots['SEND']} slots of mtu - 24", slots["SEND"] * mss, OURS),
        ("receive pool", f"{slots['RECEIVE']} slots of mtu - 24", slots["RECEIVE"] * mss, OURS_TOO),
        ("table", f"{size['TABLE_LEN']} records of 16", 16 * size["TABLE_LEN"], "#009e73"),
        ("ack list", f"{size['ACKS_LEN']} numbers of 4", 4 * size["ACKS_LEN"], "#8c8c00"),
        ("output", f"{size['OUTPUT_SIZE']:,} and {size['LENGTHS_LEN']} lengths of 2; may be shared",
         size["OUTPUT_SIZE"] + 2 * size["LENGTHS_LEN"], "#e69f00"),
    ]


def draw_memory():
    mtus, left, wide = (64, 256, 512, 1400), 110, 580
    most = sum(part[2] for part in parts_of(mtus[-1]))
    p = Picture(820, 452, "What a link is lent, in bytes: no heap beside it")
    y = 56 + 44 * len(mtus) + 16
    for tick in range(0, most + 1, 100_000):
        p.line(left + wide * tick / most, 50, left + wide * tick / most, y - 10)
        p.text(left + wide * tick / most, y + 6, f"{tick // 1000} kB", "middle", SOFT)
    columns = ((460, 64), (560, 256), (680, 1400))
    for column, mtu in columns:
        p.text(column + 60, y + 38, f"mtu {mtu:,}", "end", SOFT)
    for i, (name, inside, _, fill) in enumerate(parts_of(256)):
        at = y + 62 + 22 * i
        p.bar(left - 80, at - 11, 14, 13, fill)
        p.text(left - 58, at, name)
        p.text(left + 50, at, inside, fill=SOFT, size=12)
        for column, mtu in columns:
            p.text(column + 60, at, f"{parts_of(mtu)[i][2]:,}", "end")
    for i, mtu in enumerate(mtus):
        y, x = 56 + 44 * i, left
        p.text(left - 12, y + 19, f"mtu {mtu:,}", "end")
        for _, _, count, fill in parts_of(mtu):
            p.bar(x, y, wide * count / most, 28, fill, "#ffffff")
            x += wide * count / most
        p.text(x + 8, y + 19, f"{sum(part[2] for part in parts_of(mtu)):,}")
    p.save("memory.svg")


if __name__ == "__main__":
    draw_times()
    draw_loss()
    draw_memory()
