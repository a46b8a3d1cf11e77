# plot.py RESULT > FILE.svg: draws the time of an item by the number of items, of the rows that `run.sh --scaling` printed.
import html, math, re, sys

COLUMNS = {"ours": "#0b6e4f", "planus": "#c1442e", "google": "#3a5fa8"}
WIDTH, HEIGHT, LEFT, TOP, GAP = 250, 150, 46, 42, 34


def rows(text):
    """For each work, for each column, the pairs of how many items and nanoseconds an item."""
    works, sides = {}, []
    for line in text.splitlines():
        cells = [cell.strip() for cell in line.strip().strip("|").split("|")]
        if line.startswith("| | "):
            sides = [cells[1].split(",")[0]] + [cell.lstrip("/ ") for cell in cells[2:]]
        named = re.match(r"\| (S\d .*), n = (\d+) \| ([\d.]+) \|", line)
        if named:
            work, n, ours = named[1], int(named[2]), float(named[3])
            of = works.setdefault(work, {})
            for side, cell in zip(sides, cells[1:]):
                ratio = re.match(r"[\d.]+", cell)
                if side in COLUMNS and ratio:
                    time = ours if side == "ours" else ours / float(ratio[0])
                    of.setdefault(side, []).append((n, time))
    return works


def power(n):
    return f"10<tspan dy='-4' font-size='8'>{round(math.log10(n))}</tspan>"


def panel(work, of, x0, y0):
    times = [time for points in of.values() for _, time in points]
    sizes = sorted({n for points in of.values() for n, _ in points})
    low, high = math.floor(math.log10(min(times))), math.ceil(math.log10(max(times)))
    left, right = math.log10(sizes[0]), math.log10(sizes[-1])
    x = lambda n: x0 + (math.log10(n) - left) / (right - left) * WIDTH
    y = lambda time: y0 + HEIGHT - (math.log10(time) - low) / (high - low) * HEIGHT
    out = [f"<text x='{x0}' y='{y0 - 8}' font-weight='bold' font-size='10'>{html.escape(work)}</text>"]
    for k in range(low, high + 1):
        out.append(f"<path d='M{x0} {y(10.0 ** k):.1f}h{WIDTH}' stroke='#ddd'/>")
        out.append(f"<text x='{x0 - 5}' y='{y(10.0 ** k) + 4:.1f}' text-anchor='end'>{10.0 ** k:g}</text>")
    for n in sizes:
        out.append(f"<text x='{x(n):.1f}' y='{y0 + HEIGHT + 15}' text-anchor='middle'>{power(n)}</text>")
    for side, points in of.items():
        at = [(x(n), y(time)) for n, time in sorted(points)]
        path = " ".join(f"{a:.1f},{b:.1f}" for a, b in at)
        out.append(f"<polyline points='{path}' fill='none' stroke='{COLUMNS[side]}' stroke-width='1.6'/>")
        out += [f"<circle cx='{a:.1f}' cy='{b:.1f}' r='2.4' fill='{COLUMNS[side]}'/>" for a, b in at]
    return out


works = rows(open(sys.argv[1]).read())
if not works:
    sys.exit(f"plot.py: {sys.argv[1]} has no rows of growing numbers of items")
across = 2
down = math.ceil(len(works) / across)
width, height = across * (WIDTH + LEFT + 14) + 10, TOP + down * (HEIGHT + 2 * GAP)
out = [f"<svg xmlns='http://www.w3.org/2000/svg' viewBox='0 0 {width} {height}' font-family='sans-serif' font-size='11'>"]
out.append(f"<rect width='{width}' height='{height}' fill='white'/>")
for k, (side, colour) in enumerate(COLUMNS.items()):
    out.append(f"<path d='M{LEFT + 90 * k} 14h18' stroke='{colour}' stroke-width='2'/><text x='{LEFT + 24 + 90 * k}' y='18'>{side}</text>")
out.append(f"<text x='{LEFT + 290}' y='18'>nanoseconds an item, by how many items</text>")
for k, (work, of) in enumerate(works.items()):
    out += panel(work, of, LEFT + k % across * (WIDTH + LEFT + 14), TOP + GAP // 2 + k // across * (HEIGHT + 2 * GAP))
print("\n".join(out + ["</svg>"]))
