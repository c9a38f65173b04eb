#!/usr/bin/env python3
"""The layers of crates as a picture: tools/layers.py [crates.txt] > docs/layers.svg

Each line of crates.txt is a crate and the crates below it; a second word before the colon says how the crate is built. A crate stands one row above the highest
crate that it uses. A line is drawn to a crate that is used unless another used crate uses it too. Names that are no crates of the file, as the kit's own
libraries, are left out. Crates of theory, named so, have a colour of their own. Places are whole numbers, so that the picture is the same on every machine.
"""
import sys

HEIGHT, GAP, ROW, MARGIN = 30, 26, 74, 16
SWEEPS = 24


def read(text):
    """The crates that each crate names, in the order of the file."""
    lines = [line.split("#")[0] for line in text.splitlines()]
    named = {name.split()[0]: rest.split() for name, _, rest in (line.partition(":") for line in lines) if name.strip()}
    return {name: [x for x in rest if x in named] for name, rest in named.items()}


def below(uses, name, seen=()):
    """All crates below a crate."""
    if name in seen:
        sys.exit(f"tools/layers.py: {name} stands below itself; take one use out of crates.txt")
    return set(uses[name]).union(*(below(uses, x, (*seen, name)) for x in uses[name]))


def direct(uses):
    """The uses that no other used crate has."""
    under = {name: below(uses, name) for name in uses}
    return {name: [x for x in uses[name] if not any(x in under[y] for y in uses[name])] for name in uses}


def levels(lines):
    """The row of each crate, from 0 at the bottom."""
    row = {}

    def of(name):
        if name not in row:
            row[name] = max((of(x) + 1 for x in lines[name]), default=0)
        return row[name]

    for name in lines:
        of(name)
    return row


def laid(lines, row):
    """Rows of points, bottom up, and the steps between neighbouring rows: a crate is its name, a line that passes a row is a point (from, to, row)."""
    rows = [[name for name in lines if row[name] == i] for i in range(max(row.values()) + 1)]
    steps = []
    for upper, used in lines.items():
        for lower in used:
            path = [lower] + [(upper, lower, i) for i in range(row[lower] + 1, row[upper])] + [upper]
            for i, point in enumerate(path[1:-1], row[lower] + 1):
                rows[i].append(point)
            steps += zip(path, path[1:])
    return rows, steps


def width(point):
    return 8 * len(point) + 22 if isinstance(point, str) else 4


def ordered(rows, steps):
    """The points of each row, sorted by the middle of their neighbours, up and down until the lines cross little."""
    near = {point: [] for points in rows for point in points}
    for lower, upper in steps:
        near[upper].append(lower)
        near[lower].append(upper)
    best = None
    for sweep in range(SWEEPS):
        for i in range(len(rows)) if sweep % 2 == 0 else reversed(range(len(rows))):
            other = i - 1 if sweep % 2 == 0 else i + 1
            if 0 <= other < len(rows):
                at = {point: n for n, point in enumerate(rows[other])}
                middle = {x: [at[y] for y in near[x] if y in at] for x in rows[i]}
                keys = {x: sum(middle[x]) / len(middle[x]) if middle[x] else n for n, x in enumerate(rows[i])}
                rows[i] = sorted(rows[i], key=keys.get)
        count = crossings(rows, steps)
        if best is None or count < best[0]:
            best = count, [list(points) for points in rows]
    return best[1], near


def crossings(rows, steps):
    at = {point: (i, n) for i, points in enumerate(rows) for n, point in enumerate(points)}
    total = 0
    for i in range(len(rows) - 1):
        some = [(at[x][1], at[y][1]) for x, y in steps if at[x][0] == i]
        total += sum((a - c) * (b - d) < 0 for n, (a, b) in enumerate(some) for c, d in some[:n])
    return total


def spaced(points, wanted):
    """Places near the wanted ones, in order and with gaps: neighbours that would overlap move together."""
    groups, offsets = [], [0]
    for left, right in zip(points, points[1:]):
        offsets.append(offsets[-1] + (width(left) + width(right)) // 2 + GAP)
    for place, offset in zip(wanted, offsets):
        groups.append((place - offset, 1))
        while len(groups) > 1 and groups[-2][0] > groups[-1][0]:
            (one, m), (other, n) = groups[-2:]
            groups[-2:] = [((one * m + other * n) // (m + n), m + n)]
    together = [place for place, count in groups for _ in range(count)]
    return [x + y for x, y in zip(together, offsets)]


def placed(rows, near):
    """The middle of each point."""
    at = {}
    for points in rows:
        at.update(zip(points, spaced(points, [0] * len(points))))
    for sweep in range(SWEEPS):
        for points in rows if sweep % 2 == 0 else reversed(rows):
            wanted = [sum(at[y] for y in near[x]) // len(near[x]) if near[x] else at[x] for x in points]
            at.update(zip(points, spaced(points, wanted)))
    return at


def drawn(lines):
    """The picture as SVG."""
    row = levels(lines)
    rows, steps = laid(lines, row)
    rows, near = ordered(rows, steps)
    x = placed(rows, near)
    left = min(x[p] - width(p) // 2 for p in x) - MARGIN
    total = max(x[p] + width(p) // 2 for p in x) - left + MARGIN
    tall = ROW * (len(rows) - 1) + HEIGHT + 2 * MARGIN
    y = {point: tall - MARGIN - HEIGHT // 2 - ROW * i for i, points in enumerate(rows) for point in points}
    out = [
        f'<svg xmlns="http://www.w3.org/2000/svg" width="{total}" height="{tall}" viewBox="0 0 {total} {tall}" font-family="sans-serif" font-size="14">',
        '<rect width="100%" height="100%" fill="#ffffff"/>',
        '<g fill="none" stroke="#8a94a6" stroke-width="1.4">',
    ]
    for lower, upper in steps:
        x1, x2 = x[upper] - left, x[lower] - left
        y1 = y[upper] + (HEIGHT // 2 if isinstance(upper, str) else 0)
        y2 = y[lower] - (HEIGHT // 2 if isinstance(lower, str) else 0)
        middle = (y1 + y2) // 2
        out.append(f'<path d="M{x1} {y1}C{x1} {middle} {x2} {middle} {x2} {y2}"/>')
    out.append("</g>")
    for name in lines:
        box, fill = width(name), "#fbf3df" if name.endswith("_theory") else "#eef3fb"
        corner = f'x="{x[name] - left - box // 2}" y="{y[name] - HEIGHT // 2}"'
        out.append(f'<rect {corner} width="{box}" height="{HEIGHT}" rx="6" fill="{fill}" stroke="#3b5b92"/>')
        out.append(f'<text x="{x[name] - left}" y="{y[name] + 5}" text-anchor="middle" fill="#1d2b44">{name}</text>')
    return "\n".join([*out, "</svg>"]) + "\n"


def main():
    path = sys.argv[1] if len(sys.argv) > 1 else "crates.txt"
    try:
        with open(path, encoding="utf-8") as file:
            uses = read(file.read())
    except OSError as error:
        sys.exit(f"tools/layers.py: {path}: {error.strerror}; give the list of crates")
    sys.stdout.write(drawn(direct(uses)))


if __name__ == "__main__":
    main()
