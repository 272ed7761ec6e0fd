#!/usr/bin/env python3
"""Draws the charts of many histories, and measures that nothing in them overlaps.

    checks/charts/run.py            all histories
    checks/charts/run.py --keep DIR also keeps each chart and its picture there, for who changes the drawing

The histories are those of checks/examples and of scripts that are made here at random: with links, crashes, failed calls,
letters in flight, letters of a process to itself, long names and long reasons. The boxes of texts, marks, heads and boxes
are read from the SVG. The width of a character is measured in a picture that rsvg-convert draws, and each chart of an
example is drawn by it whole. Without rsvg-convert it says so, and measures nothing. The program is bin/pt_run, which is
built first if it is not up to date.
"""
from __future__ import annotations

import argparse
import itertools
import json
import math
import random
import re
import shutil
import struct
import subprocess
import sys
import tempfile
import xml.etree.ElementTree as ET
import zlib
from dataclasses import dataclass
from pathlib import Path
from typing import Any

HERE = Path(__file__).resolve().parent
ROOT = HERE.parent.parent
SVG = "{http://www.w3.org/2000/svg}"
FONT = "ui-monospace,monospace"
# How far a letter of this font rises above its line and falls below it, as parts of its size.
RISE, FALL = 0.76, 0.24
# The boxes of the marks, around their places.
MARKS = {"birth": (8, 5), "t": (4, 4), "traps": (4, 4), "free": (4, 4), "refused": (6, 6), "end": (7, 7)}
HEAD = 9.0
# What lines may share by rounding.
SLACK = 0.6
COLUMN = 180
# The bytes of a chart for each event of a long history: half of what they were before labels were cut and titles shared.
MOST_BYTES = 236


@dataclass(frozen=True)
class Box:
    """What is drawn in a rectangle of the page."""

    what: str
    left: float
    top: float
    right: float
    bottom: float

    def overlaps(self, other: Box) -> bool:
        """Whether two boxes share more than rounding."""
        return (
            min(self.right, other.right) - max(self.left, other.left) > SLACK
            and min(self.bottom, other.bottom) - max(self.top, other.top) > SLACK
        )


def picture(svg: str) -> bytes:
    """The picture of a drawing, as PNG."""
    return subprocess.run(["rsvg-convert", "--unlimited"], input=svg.encode(), stdout=subprocess.PIPE, check=True).stdout


def rows_of(png: bytes) -> list[bytes]:
    """The rows of a picture of four bytes a point."""
    width, height = struct.unpack(">II", png[16:24])
    data, at = b"", 8
    while at < len(png):
        size, kind = struct.unpack(">I4s", png[at : at + 8])
        if kind == b"IDAT":
            data += png[at + 8 : at + 8 + size]
        at += size + 12
    raw, rows, above = zlib.decompress(data), [], bytes(width * 4)
    for row in range(height):
        start = row * (width * 4 + 1)
        above = unfiltered(raw[start], bytearray(raw[start + 1 : start + 1 + width * 4]), above)
        rows.append(above)
    return rows


def unfiltered(kind: int, line: bytearray, above: bytes) -> bytes:
    """A row of a PNG without its filter."""
    for at, byte in enumerate(line):
        left = line[at - 4] if at >= 4 else 0
        up, corner = above[at], above[at - 4] if at >= 4 else 0
        guess = left + up - corner
        nearest = min((abs(guess - left), 0, left), (abs(guess - up), 1, up), (abs(guess - corner), 2, corner))[2]
        line[at] = (byte + (0, left, up, (left + up) // 2, nearest)[kind]) % 256
    return bytes(line)


def right_edge(count: int, style: str) -> int:
    """The last column of a picture in which so many characters are seen."""
    text = f'<text y="20" style="font:{style} {FONT}">{"M" * count}</text>'
    rows = rows_of(picture(f'<svg xmlns="http://www.w3.org/2000/svg" width="1500" height="30">{text}</svg>'))
    return max(at // 4 for row in rows for at in range(3, len(row), 4) if row[at] > 100)


def width_of_character(style: str) -> float:
    """The width of a character, measured by the difference of two texts."""
    return (right_edge(200, style) - right_edge(100, style)) / 100


def text_boxes(root: ET.Element, widths: dict[str, float]) -> list[tuple[str, Box]]:
    """The boxes of all texts, with their classes. A stamp has one for each of its lines."""
    boxes = []
    for it in root.iter(SVG + "text"):
        kind = it.get("class") or ""
        size, width = (11, widths["name"]) if kind == "n" else (10, widths["label"])
        x, y = float(it.get("x") or 0), float(it.get("y") or 0)
        title = it.find(SVG + "title")
        said = (it.text or "") + (title.tail or "" if title is not None else "")
        for line in (said, *(span.text or "" for span in it.iter(SVG + "tspan"))):
            if line:
                room = len(line) * width
                left = x - room if " e" in kind else x - room / 2 if kind.endswith(" c") or kind == "n" else x
                boxes.append((kind, Box(line, left, y - RISE * size, left + room, y + FALL * size)))
            y += 12
    return boxes


def mark_boxes(root: ET.Element) -> list[Box]:
    """The boxes of all marks."""
    boxes = []
    for it in root.iter(SVG + "use"):
        name = (it.get("href") or "")[1:]
        x, y, (wide, high) = float(it.get("x") or 0), float(it.get("y") or 0), MARKS[name]
        boxes.append(Box(name, x - wide, y - high, x + wide, y + high))
    return boxes


def head_boxes(root: ET.Element) -> list[Box]:
    """The boxes of the heads of all arrows."""
    boxes = []
    for it in root.findall(SVG + "path"):
        points = [float(n) for n in re.findall(r"-?\d+", it.get("d") or "")]
        if (it.get("class") or "")[:1] in "mxloq" and it.get("class") != "linked" and len(points) >= 4:
            (x, y), (to, down) = points[-4:-2], points[-2:]
            far = math.hypot(to - x, down - y) or 1.0
            tail = (to - HEAD * (to - x) / far, down - HEAD * (down - y) / far)
            half = abs(to - x) / far * HEAD / 2
            boxes.append(Box("head", min(to, tail[0]), min(down, tail[1]) - half, max(to, tail[0]), max(down, tail[1]) + half))
    return boxes


def clashes(texts: list[Box], others: list[Box]) -> list[str]:
    """The texts that overlap one another, or another box."""
    found = []
    ordered = sorted([(box, True) for box in texts] + [(box, False) for box in others], key=lambda it: it[0].top)
    for at, (box, is_text) in enumerate(ordered):
        for other, other_text in itertools.takewhile(lambda it: it[0].top < box.bottom, ordered[at + 1 :]):
            if (is_text or other_text) and box.overlaps(other):
                found.append(f"'{box.what}' at {box.left:.0f} {box.top:.0f} is over '{other.what}'")
    return found


def faults(svg: str, widths: dict[str, float]) -> list[str]:
    """What is wrong with a chart."""
    root = ET.fromstring(svg)
    width, height = float(root.get("width") or 0), float(root.get("height") or 0)
    kinds = text_boxes(root, widths)
    texts = [box for _, box in kinds]
    marks = mark_boxes(root)
    grounds = [it for it in root.findall(SVG + "rect") if (it.get("class") or "").startswith("band")]
    edge = max((float(it.get("x") or 0) + COLUMN for it in grounds), default=width)
    found = clashes(texts, marks + head_boxes(root))
    found += [f"'{box.what}' is outside" for box in texts if box.left < -6 or box.right > width - 6 or box.bottom > height]
    found += [f"'{box.what}' leaves the drawing" for kind, box in kinds if kind == "k" and box.right > max(edge, 244)]
    if grounds and width - 6 - edge > width / 3:
        found.append("a third of the page is a margin")
    found += stamps(kinds) + pids(kinds) + order(root)
    calls = sum(box.what.startswith("refused <") for box in texts)
    if calls != sum(box.what == "refused" for box in marks) - 1:
        found.append("a failed call has no mark")
    columns = {float(it.get("x") or 0) + COLUMN / 2 for it in grounds}
    for box in (box for kind, box in kinds if kind == "k" and box.top > 76):
        if not any(box.left > x and box.right <= x + COLUMN / 2 for x in columns):
            found.append(f"'{box.what}' leaves its band")
    return found


def stamps(kinds: list[tuple[str, Box]]) -> list[str]:
    """Stamps without their desks."""
    return [f"the stamp '{box.what}'" for kind, box in kinds if not kind and not re.fullmatch(r"-?\d+@\d+", box.what)]


def pids(kinds: list[tuple[str, Box]]) -> list[str]:
    """Pids that are above the first row more than once."""
    names = [box.what for kind, box in kinds if kind == "n" and box.top < 130 and box.what.startswith("<")]
    return [f"{pid} is there twice" for pid in set(names) if names.count(pid) > 1]


def order(root: ET.Element) -> list[str]:
    """What is drawn after the first arrow of a letter and is none."""
    drawn = [it for it in root if it.tag != SVG + "style"]
    last = max((at for at, it in enumerate(drawn) if it.tag != SVG + "path" or it.get("class") == "linked"), default=0)
    arrows = [at for at, it in enumerate(drawn) if it.tag == SVG + "path" and "L" in (it.get("d") or "")]
    return ["an arrow has something over it"] if arrows and min(arrows) < last else []


def made(seed: int, count: int, ops: int, desks: int, *, calm: bool = False) -> dict[str, Any]:
    """A script that is made at random. In a calm one no exit ends another process."""
    r = random.Random(seed)
    names = [f"p{at}" if calm or r.random() < 0.8 else f"process_with_a_long_name_{at:07}" for at in range(count)]
    return {"format": 2, "desks": desks, "processes": [
        {"name": names[at], "desk": at % desks, "trap": calm or r.random() < 0.4, "ops": listed(r, at, names, ops, calm)}
        for at in range(count)
    ]}


def listed(r: random.Random, me: int, names: list[str], count: int, calm: bool) -> list[dict[str, Any]]:
    """What a process of such a script does."""
    ops: list[dict[str, Any]] = []
    for at in range(count):
        to, x = r.choice(names), r.random()
        child = f"w{me}_{at}"
        if x < 0.45:
            ops.append({"op": "send", "to": to, "kind": r.randrange(1, 5), "num": r.randrange(-(10**12), 10**12)})
        elif x < 0.65:
            ops.append({"op": "check"})
        elif x < 0.72:
            ops.append({"op": "monitor", "to": to, "tag": f"m{at}"})
        elif x < 0.78:
            ops.append({"op": "link", "to": to})
        elif x < 0.84:
            ops.append({"op": "alive", "to": to, "tag": f"q{at}"})
        elif x < 0.9:
            exits = {"op": "exit", "reason": f"other:{r.choice([7, 4294967295])}"}
            ops += [{"op": "spawn", "name": child, "linked": r.random() < 0.7, "ops": [{"op": "receive"}, exits]}]
            ops += [{"op": "send", "to": child, "kind": 7, "num": 1}]
        elif x < 0.94:
            ops.append({"op": "trap", "on": calm or r.random() < 0.5})
        else:
            ops.append({"op": "pass"})
    return ops + [{"op": "receive", "pick": {"kind": 99}}] if r.random() < 0.5 else ops


def drawn(script: Path, words: list[str]) -> str:
    """The chart of a script. Status 1 is a script whose expectations failed, which is drawn too."""
    run = subprocess.run([ROOT / "bin/pt_run", "--print", "chart", *words, script], stdout=subprocess.PIPE, check=False)
    if not run.stdout.startswith(b"<svg "):
        raise ValueError(f"{script.name}: no chart, status {run.returncode}")
    return run.stdout.decode()


def cases(work: Path) -> list[tuple[str, Path, list[str]]]:
    """The scripts whose histories are drawn, with the words of their runs."""
    found = [(path.name, path, list[str]()) for path in sorted((ROOT / "checks/examples").glob("*.json"))]
    sizes = itertools.product((3, 6, 20), (8, 30), (1, 4), ("100000", "9"))
    for seed, (count, ops, desks, turns) in enumerate(sizes):
        path = work / f"made_{seed}.json"
        path.write_text(json.dumps(made(seed, count, ops, desks)))
        found.append((path.name, path, ["--turns", turns]))
    return found


def check_size(work: Path) -> list[str]:
    """Whether the chart of a long history has as few bytes as it may."""
    path = work / "long.json"
    path.write_text(json.dumps(made(2, 60, 96, 4, calm=True)))
    svg = drawn(path, ["--turns", "100000"])
    events = int(re.findall(r"A history: events (\d+)", svg)[0])
    bytes_each = len(svg) / events
    return [] if bytes_each <= MOST_BYTES and events > 9000 else [f"{bytes_each:.0f} bytes for each of {events} events"]


def main() -> int:
    """Draws and measures all."""
    words = argparse.ArgumentParser()
    words.add_argument("--keep", type=Path)
    keep = words.parse_args().keep
    if not shutil.which("rsvg-convert"):
        print("charts: skipped: rsvg-convert (Debian's librsvg2-bin) is not here, so charts are not measured")
        return 0
    subprocess.run([ROOT / ".ci/build", "pt_run"], check=True)
    widths = {"label": width_of_character("10px"), "name": width_of_character("bold 11px")}
    passed = failed = 0
    with tempfile.TemporaryDirectory() as folder:
        work = Path(folder)
        for name, path, turns in cases(work):
            svg = drawn(path, turns)
            found = faults(svg, widths)
            if keep or not name.startswith("made"):
                png = picture(svg)
                root = ET.fromstring(svg)
                if struct.unpack(">II", png[16:24]) != (int(root.get("width") or 0), int(root.get("height") or 0)):
                    found.append("its picture has another size")
                if keep:
                    keep.mkdir(exist_ok=True)
                    (keep / f"{name}.svg").write_text(svg)
                    (keep / f"{name}.png").write_bytes(png)
            for fault in found[:5]:
                print(f"WRONG: {name}: {fault}")
            passed, failed = (passed, failed + 1) if found else (passed + 1, failed)
        found = check_size(work)
        for fault in found:
            print(f"WRONG: long.json: {fault}")
        passed, failed = (passed, failed + 1) if found else (passed + 1, failed)
    print(f"charts: {passed} passed, {failed} failed")
    return 1 if failed else 0


if __name__ == "__main__":
    sys.exit(main())
