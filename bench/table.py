"""Writes the table of the measurements between the markers of a document, and draws the plot: python3 table.py ROWS DOCUMENT PLOT."""
import datetime
import math
import platform
import re
import sys

BEGIN = "<!-- measured: begin, written by bench/run -->"
END = "<!-- measured: end -->"

GROUPS = [
    ("sums", "Add and subtract, one precision", "MPFR"),
    ("mixed", "Add and subtract, mixed precisions", "MPFR"),
    ("own", "The kernel's own times", "kernel, 128,128 -> 53"),
    ("others", "Re-round, compare, to double", "MPFR"),
    ("runs", "Aligned runs of limbs", "mpn_add_n"),
    ("depth", "How the cost grows with the depth", "MPFR"),
]


def processor():
    try:
        with open("/proc/cpuinfo") as f:
            for line in f:
                if line.startswith("model name"):
                    return line.split(":", 1)[1].strip()
    except OSError:
        pass
    return platform.machine()


def read(path):
    facts, rows = {}, []
    with open(path) as f:
        for line in f:
            fields = line.rstrip("\n").split("\t")
            if len(fields) == 2:
                facts[fields[0]] = fields[1]
            else:
                group, name, kernel, other, ratio, bar = fields
                rows.append((group, name, float(kernel), float(other), float(ratio), float(bar)))
    return facts, rows


def within(row):
    return row[5] == 0 or row[4] <= row[5]


def table(facts, rows):
    barred = [r for r in rows if r[5] > 0]
    over = [r for r in barred if not within(r)]
    out = [BEGIN, ""]
    out.append(
        f"{processor()}; {facts['versions']}; {datetime.date.today().isoformat()}. "
        f"{int(facts['compared']):,} random answers compared, and every case of every row. "
        f"{len(barred) - len(over)} of {len(barred)} rows are within their bars."
    )
    for group, title, against in GROUPS:
        part = [r for r in rows if r[0] == group]
        if not part:
            continue
        bars = any(r[5] > 0 for r in part)
        out += ["", f"### {title}", ""]
        out.append(f"| Row | kernel, ns | {against}, ns | ratio |" + (" bar | |" if bars else ""))
        out.append("|---|---:|---:|---:|" + ("---:|---|" if bars else ""))
        for r in part:
            end = f" {r[5]:.1f} | {'' if within(r) else 'over'} |" if bars else ""
            out.append(f"| {r[1]} | {r[2]:.1f} | {r[3]:.1f} | {r[4]:.2f} |{end}")
    return "\n".join(out + ["", END])


def place(path, text):
    with open(path) as f:
        old = f.read()
    head, rest = old.split(BEGIN, 1)
    tail = rest.split(END, 1)[1]
    with open(path, "w") as f:
        f.write(head + text + tail)


# ---- the plot: two panels over logarithmic axes

COLOURS = {
    "equal exponents": "#1b6ca8",
    "small gap": "#2a9d4a",
    "far": "#d1782c",
    "cancellation": "#9b3fa0",
    "kernel": "#1b6ca8",
    "MPFR": "#888888",
}


class Panel:
    def __init__(self, left, top, width, height, xs, low, high):
        self.left, self.top, self.width, self.height = left, top, width, height
        self.xs, self.low, self.high = xs, math.log10(low), math.log10(high)

    def x(self, i):
        return self.left + self.width * (i + 0.5) / len(self.xs)

    def y(self, value):
        return self.top + self.height * (self.high - math.log10(value)) / (self.high - self.low)

    def frame(self, title, ticks, bottom):
        out = [f'<rect x="{self.left}" y="{self.top}" width="{self.width}" height="{self.height}" fill="none" stroke="#444"/>']
        out.append(f'<text x="{self.left}" y="{self.top - 12}" font-weight="bold">{title}</text>')
        for t in ticks:
            if self.low <= math.log10(t) <= self.high:
                y = self.y(t)
                out.append(f'<line x1="{self.left}" x2="{self.left + self.width}" y1="{y:.1f}" y2="{y:.1f}" stroke="#ddd"/>')
                out.append(f'<text x="{self.left - 6}" y="{y + 4:.1f}" text-anchor="end">{t:g}</text>')
        for i, name in enumerate(self.xs):
            out.append(f'<text x="{self.x(i):.1f}" y="{self.top + self.height + 16}" text-anchor="middle">{name}</text>')
        out.append(f'<text x="{self.left + self.width / 2}" y="{self.top + self.height + 34}" text-anchor="middle">{bottom}</text>')
        return out

    def line(self, values, colour, dashes=""):
        points = " ".join(f"{self.x(i):.1f},{self.y(v):.1f}" for i, v in values)
        out = [f'<polyline points="{points}" fill="none" stroke="{colour}" stroke-width="1.5" stroke-dasharray="{dashes}"/>']
        out += [f'<circle cx="{self.x(i):.1f}" cy="{self.y(v):.1f}" r="3" fill="{colour}"/>' for i, v in values]
        return out

    def bar(self, limits):
        half = self.width / len(self.xs) / 2
        out = []
        for i, v in limits:
            x, y = self.x(i), self.y(v)
            out.append(f'<line x1="{x - half:.1f}" x2="{x + half:.1f}" y1="{y:.1f}" y2="{y:.1f}" stroke="#c1121f" stroke-width="2"/>')
        return out


def legend(x, y, entries):
    out = []
    for i, (name, colour) in enumerate(entries):
        out.append(f'<line x1="{x}" x2="{x + 18}" y1="{y + 16 * i}" y2="{y + 16 * i}" stroke="{colour}" stroke-width="2"/>')
        out.append(f'<text x="{x + 24}" y="{y + 16 * i + 4}">{name}</text>')
    return out


def sums_panel(rows, operation, left, low, high):
    found = {}
    bars = {}
    for group, name, _, _, ratio, bar in rows:
        m = re.fullmatch(operation + r" (\d+),\1 -> \1, (.*)", name)
        if group == "sums" and m:
            found.setdefault(m[2], {})[int(m[1])] = ratio
            bars[int(m[1])] = bar
    xs = sorted(bars)
    panel = Panel(left, 60, 330, 300, xs, low, high)
    out = panel.frame(f"{operation}: kernel / MPFR", [0.5, 1, 2, 3, 5, 10, 20, 50, 100, 200], "digits")
    out += panel.bar([(xs.index(p), b) for p, b in bars.items()])
    for shape, points in found.items():
        out += panel.line([(xs.index(p), points[p]) for p in sorted(points)], COLOURS[shape])
    return out + legend(left + 10, 76, [(s, COLOURS[s]) for s in found] + [("bar", "#c1121f")])


def depth_panel(rows, left):
    part = [(int(r[1].rsplit(" ", 1)[1]), r[2], r[3]) for r in rows if r[0] == "depth" and r[1].startswith("add")]
    xs = [p[0] for p in part]
    low, high = min(min(p[1:]) for p in part) / 1.5, max(max(p[1:]) for p in part) * 3
    panel = Panel(left, 60, 260, 300, xs, low, high)
    out = panel.frame("add 4096,4096 -&gt; 53: ns a call", [10, 20, 50, 100, 200, 500, 1000, 2000, 5000, 10000, 20000], "depth, columns")
    out += panel.line([(i, p[1]) for i, p in enumerate(part)], COLOURS["kernel"])
    out += panel.line([(i, p[2]) for i, p in enumerate(part)], COLOURS["MPFR"])
    return out + legend(left + 10, 76, [("kernel", COLOURS["kernel"]), ("MPFR", COLOURS["MPFR"])])


def plot(path, rows):
    ratios = [r[4] for r in rows if r[0] == "sums"]
    low, high = min(0.8, min(ratios) / 1.3), max(6, max(ratios) * 2.5)
    out = ['<svg xmlns="http://www.w3.org/2000/svg" width="1080" height="420" font-family="sans-serif" font-size="12">']
    out.append('<rect width="1080" height="420" fill="white"/>')
    out += sums_panel(rows, "add", 50, low, high)
    out += sums_panel(rows, "subtract", 425, low, high)
    out += depth_panel(rows, 805)
    with open(path, "w") as f:
        f.write("\n".join(out + ["</svg>", ""]))


def main():
    source, document, picture = sys.argv[1:]
    facts, rows = read(source)
    place(document, table(facts, rows))
    plot(picture, rows)
    over = [r for r in rows if not within(r)]
    print(f"{len(rows)} rows, {len(over)} over their bars")
    for r in over:
        print(f"    {r[1]}: {r[4]:.2f}, bar {r[5]:.1f}")


main()
