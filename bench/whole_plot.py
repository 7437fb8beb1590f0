"""Seconds by rows, both by powers of ten, as an SVG."""
import math

WIDTH, HEIGHT, EDGE = 560, 360, 60
COLOURS = ("#1f5fa8", "#c0562f", "#4f8a3c")


def plot(title, series):
    """Series by name: each a list of pairs of rows and seconds."""
    points = [point for found in series.values() for point in found]
    low = [math.floor(math.log10(min(point[axis] for point in points))) for axis in (0, 1)]
    high = [math.ceil(math.log10(max(point[axis] for point in points))) for axis in (0, 1)]
    high = [max(top, bottom + 1) for top, bottom in zip(high, low)]

    def place(rows, seconds):
        across = (math.log10(rows) - low[0]) / (high[0] - low[0])
        up = (math.log10(seconds) - low[1]) / (high[1] - low[1])
        return EDGE + across * (WIDTH - 2 * EDGE), HEIGHT - EDGE - up * (HEIGHT - 2 * EDGE)

    out = [f'<svg xmlns="http://www.w3.org/2000/svg" viewBox="0 0 {WIDTH} {HEIGHT}" font-family="monospace" font-size="12">']
    out.append(f'<rect width="{WIDTH}" height="{HEIGHT}" fill="white"/>')
    out.append(f'<text x="{WIDTH / 2}" y="24" text-anchor="middle">{title}: seconds by rows</text>')
    for power in range(low[0], high[0] + 1):
        x, y = place(10**power, 10 ** low[1])
        out.append(f'<line x1="{x:.1f}" y1="{EDGE}" x2="{x:.1f}" y2="{y:.1f}" stroke="#ddd"/>')
        out.append(f'<text x="{x:.1f}" y="{y + 18:.1f}" text-anchor="middle">{10**power:,}</text>')
    for power in range(low[1], high[1] + 1):
        x, y = place(10 ** low[0], 10.0**power)
        out.append(f'<line x1="{x:.1f}" y1="{y:.1f}" x2="{WIDTH - EDGE}" y2="{y:.1f}" stroke="#ddd"/>')
        out.append(f'<text x="{x - 6:.1f}" y="{y + 4:.1f}" text-anchor="end">{10.0**power:g}</text>')
    for (name, found), colour in zip(series.items(), COLOURS):
        if not found:
            continue
        places = [place(*point) for point in found]
        out.append(f'<polyline points="{" ".join(f"{x:.1f},{y:.1f}" for x, y in places)}" fill="none" stroke="{colour}" stroke-width="2"/>')
        out += [f'<circle cx="{x:.1f}" cy="{y:.1f}" r="3" fill="{colour}"/>' for x, y in places]
        x, y = places[-1]
        out.append(f'<text x="{x + 6:.1f}" y="{y + 4:.1f}" fill="{colour}">{name}</text>')
    out.append("</svg>")
    return "\n".join(out) + "\n"
