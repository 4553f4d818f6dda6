#!/usr/bin/env python3
"""Draws the pictures of the documents, as SVG files in docs/.

    pictures/draw.py            draws all of them
    pictures/draw.py --check    only says which of them aren't what their data gives now

- docs/way.svg: the way of a file from CDL to `git diff`.
- docs/times.svg: times beside Unidata's, from times.tsv, which `bench/run.py --keep` and `bench/generate.py --keep` write: the program, the
  file or text of the benchmark, and the milliseconds of Unidata's program and of ours.
- docs/crates.svg: the crates of the programs, each with those that it stands on, from crates.txt, and the minutes that each of them took of
  the first build, from minutes.tsv, which `tests/crates.py --keep LOG` writes. The chain that took longest is marked.
"""

import sys
from pathlib import Path

TOP = Path(__file__).resolve().parent.parent
PICTURES = TOP / "pictures"
sys.path.append(str(TOP / "tests"))

from crates import chains_of  # noqa: E402
from prover import below, stands_on  # noqa: E402

INK, PALE, LINE, OURS, THEIRS, MARK = "#1f2933", "#f4f6f8", "#9aa5b1", "#2f6f4e", "#b8c2cc", "#d9efe2"
# the bars of times.svg: what a row is called, and its program and its name in times.tsv
BARS = [
    ("two million ints", "ncdump", "ints"),
    ("ten million bytes", "ncdump", "bytes"),
    ("40,000 rows of 80 characters", "ncdump", "rows"),
    ("100 interleaved record variables", "ncdump", "records_100"),
    ("five million ints", "ncgen", "ints"),
    ("ten million bytes", "ncgen", "bytes"),
    ("50,000 rows of 80 characters", "ncgen", "rows"),
    ("20,000 variables", "ncgen", "variables"),
]


def text(x, y, words, anchor="start", size=13, weight="normal", color=INK, font="sans-serif"):
    words = words.replace("&", "&amp;").replace("<", "&lt;")
    return f'<text x="{x}" y="{y}" font-family="{font}" font-size="{size}" font-weight="{weight}" fill="{color}" text-anchor="{anchor}">{words}</text>'


def box(x, y, width, height, fill=PALE, stroke=LINE):
    return f'<rect x="{x}" y="{y}" width="{width}" height="{height}" rx="5" fill="{fill}" stroke="{stroke}"/>'


def bar(x, y, width, fill):
    return f'<rect x="{x}" y="{y}" width="{width:.1f}" height="11" fill="{fill}"/>'


def arrow(path, color=LINE, width=1.5):
    return f'<path d="{path}" fill="none" stroke="{color}" stroke-width="{width}" marker-end="url(#{"mark" if color == OURS else "head"})"/>'


def heads():
    """The heads of arrows of both colors."""
    return "".join(
        f'<marker id="{name}" viewBox="0 0 8 8" refX="7" refY="4" markerWidth="9" markerHeight="9" markerUnits="userSpaceOnUse" orient="auto">'
        f'<path d="M0 0L8 4L0 8z" fill="{color}"/></marker>'
        for name, color in (("head", LINE), ("mark", OURS))
    )


def svg(width, height, title, parts):
    head = f'<svg xmlns="http://www.w3.org/2000/svg" width="{width}" height="{height}" viewBox="0 0 {width} {height}" role="img">'
    white = f'<rect width="{width}" height="{height}" rx="8" fill="#ffffff"/>'
    return "\n".join([head, f"<title>{title}</title>", f"<defs>{heads()}</defs>", white, *parts, "</svg>", ""])


def way():
    """The way of a file: CDL in git, ncgen, the .nc file with nccheck beside it, ncdump, git diff."""
    stations = [("stations.cdl", "text, kept in git"), ("stations.nc", "the same data, binary"), ("CDL text", "to read, or for git diff")]
    parts = []
    for at, (name, what) in enumerate(stations):
        x = 20 + 300 * at
        parts += [box(x, 30, 170, 56), text(x + 85, 54, name, "middle", 15, "bold", font="monospace"), text(x + 85, 74, what, "middle", 12)]
    for at, program in enumerate(["ncgen", "ncdump"]):
        x = 190 + 300 * at
        parts += [arrow(f"M{x + 6} 58H{x + 124}", OURS, 2), text(x + 63, 48, program, "middle", 15, "bold", OURS, "monospace")]
    parts += [
        arrow("M405 136V92", OURS, 2),
        text(405, 154, "nccheck", "middle", 15, "bold", OURS, "monospace"),
        text(445, 154, "reports what is damaged, also in files with floats", size=12),
    ]
    return svg(810, 172, "ncgen makes a netCDF file from CDL, ncdump prints it as CDL again, nccheck checks it", parts)


def milliseconds(time):
    return f"{time:,.0f} ms" if time >= 10 else f"{time:.1f} ms"


def times():
    """Times beside Unidata's: of each pair of bars, the longer one is Unidata's."""
    rows = [it.split("\t") for it in (PICTURES / "times.tsv").read_text().splitlines()]
    measured = {(program, name): (float(theirs), float(ours)) for program, name, theirs, ours in rows}
    parts = [
        bar(20, 18, 14, THEIRS), text(40, 28, "Unidata's 4.9.0", size=12),
        bar(160, 18, 14, OURS), text(180, 28, "Juniperbrick: the part of Unidata's time that it takes", size=12),
    ]
    y, before = 44, ""
    for label, program, name in BARS:
        theirs, ours = measured[program, name]
        if program != before:
            parts.append(text(20, y + 15, program, size=14, weight="bold", font="monospace"))
            y, before = y + 26, program
        parts += [
            text(232, y + 15, label, "end", 12),
            bar(242, y, 420, THEIRS), text(670, y + 10, milliseconds(theirs), size=11),
            bar(242, y + 12, max(1.5, 420 * ours / theirs), OURS),
            text(250 + max(1.5, 420 * ours / theirs), y + 22, f"{milliseconds(ours)}, {theirs / ours:.0f} times as fast", size=11),
        ]
        y += 34
    return svg(750, y + 8, "Times of ncdump and ncgen beside Unidata's", parts)


def minutes():
    """The minutes that each crate took of the first build."""
    return {crate: float(took) for crate, took in (it.split("\t") for it in (PICTURES / "minutes.tsv").read_text().splitlines())}


def nearest(crate, under):
    """The crates that a crate stands on, without those that another one of them stands on."""
    return [it for it in under[crate] if not any(it in below([other]) for other in under[crate] if other != it)]


def columns(edges):
    """The crates column by column: each stands right of those that it stands on, as near to their height as there is room."""
    level, height, found = {}, {}, []
    for crate in sorted(edges, key=lambda it: (len(below([it])), it)):
        level[crate] = max((level[it] + 1 for it in edges[crate]), default=0)
    for at in range(max(level.values()) + 1):
        column = [it for it in edges if level[it] == at]
        column.sort(key=lambda it: (sum(height[low] for low in edges[it]) / max(1, len(edges[it])), it))
        height.update({it: (place + 0.5) / len(column) for place, it in enumerate(column)})
        found.append(column)
    return found


def crates():
    """The crates of the programs, each with the minutes it took, and the chain that took longest."""
    took = minutes()
    under = {crate: [it for it in stands_on()[crate] if it in took] for crate in took}
    edges = {crate: nearest(crate, under) for crate in took}
    longest, chain = max(chains_of(took).values())
    place, parts, boxes, tall = {}, [], [], 300
    for at, column in enumerate(columns(edges)):
        for row, crate in enumerate(column):
            place[crate] = 12 + 128 * at, 16 + tall * (row + 0.5) / len(column)
    for crate, (x, y) in place.items():
        on = crate in chain
        boxes += [
            box(x, y - 17, 104, 34, MARK if on else PALE, OURS if on else LINE),
            text(x + 52, y - 3, crate, "middle", 11, "bold" if on else "normal", font="monospace"),
            text(x + 52, y + 11, f"{took[crate]:.1f} min", "middle", 10),
        ]
        for low in edges[crate]:
            (from_x, from_y), marked = place[low], on and low in chain and chain.index(low) + 1 == chain.index(crate)
            left, right = from_x + 104, x - 2
            middle = (left + right) / 2 if right - left < 40 else right - 14
            parts.append(arrow(f"M{left} {from_y:.0f}C{middle:.0f} {from_y:.0f} {middle:.0f} {y:.0f} {right} {y:.0f}", *((OURS, 2.5) if marked else (LINE, 1))))
    width = max(x for x, _ in place.values()) + 116
    caption = text(12, tall + 44, f"An arrow leads from a crate to one that stands on it. Marked: the chain that the first build waits for, {longest:.1f} min.", size=12)
    return svg(width, tall + 56, "The crates of the programs, and the chain that takes longest to prove", [*parts, *boxes, caption])


DRAWN = {"way": way, "times": times, "crates": crates}


def old():
    """The pictures that aren't what their data gives."""
    return [name for name, draw in DRAWN.items() if not (path := TOP / "docs" / f"{name}.svg").exists() or path.read_text() != draw()]


def main():
    if sys.argv[1:] == ["--check"]:
        print("".join(f"docs/{name}.svg is older than its data: run pictures/draw.py\n" for name in old()), end="")
        return 1 if old() else 0
    for name, draw in DRAWN.items():
        (TOP / "docs" / f"{name}.svg").write_text(draw())
    return 0


if __name__ == "__main__":
    sys.exit(main())
