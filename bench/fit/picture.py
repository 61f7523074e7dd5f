"""Lines of measured points as a picture."""
WIDE, HIGH, LEFT, TOP = 300, 220, 62, 34
COLOURS = ["#1f5fa8", "#b0451b"]


def ticks(most):
    step = 10 ** len(str(int(most / 4))) / 10 if most >= 4 else 1
    while most / step > 5:
        step *= 2 if str(step)[0] != "2" else 2.5
    return [step * i for i in range(int(most / step) + 1)]


def fitted(points):
    """Least squares: the straight line nearest to the points."""
    n = len(points)
    mx, my = sum(x for x, _ in points) / n, sum(y for _, y in points) / n
    slope = sum((x - mx) * (y - my) for x, y in points) / sum((x - mx) ** 2 for x, _ in points)
    return slope, my - slope * mx


def panel(at, title, across, up, series):
    x_most = max(x for _, points in series for x, _ in points)
    y_most = max(y for _, points in series for _, y in points)
    px = lambda x: at + LEFT + x / x_most * WIDE
    py = lambda y: TOP + HIGH - y / y_most * HIGH
    out = [f'<text x="{at + LEFT}" y="18" font-weight="bold">{title}</text>']
    for t in ticks(x_most):
        out.append(f'<text x="{px(t):.1f}" y="{TOP + HIGH + 16}" text-anchor="middle">{t:g}</text>')
    for t in ticks(y_most):
        out.append(f'<path d="M{px(0):.1f} {py(t):.1f}H{px(x_most):.1f}" stroke="#ddd"/><text x="{at + LEFT - 6}" y="{py(t) + 4:.1f}" text-anchor="end">{t:g}</text>')
    out.append(f'<text x="{px(x_most / 2):.1f}" y="{TOP + HIGH + 34}" text-anchor="middle">{across}</text>')
    out.append(f'<text transform="translate({at + 14} {TOP + HIGH / 2}) rotate(-90)" text-anchor="middle">{up}</text>')
    for i, (name, points) in enumerate(series):
        slope, start = fitted(points)
        low = min(x for x, _ in points)
        out.append(f'<path d="M{px(low):.1f} {py(start + slope * low):.1f}L{px(x_most):.1f} {py(start + slope * x_most):.1f}" stroke="{COLOURS[i]}"/>')
        out += [f'<circle cx="{px(x):.1f}" cy="{py(y):.1f}" r="3.5" fill="{COLOURS[i]}"/>' for x, y in points]
        out.append(f'<text x="{at + LEFT + 8}" y="{TOP + 14 + 15 * i}" fill="{COLOURS[i]}">{name}: {start:.1f} + {slope:.2f} each</text>')
    return out


def write(path, panels):
    wide = len(panels) * (LEFT + WIDE + 24)
    out = [f'<svg xmlns="http://www.w3.org/2000/svg" viewBox="0 0 {wide} {TOP + HIGH + 46}" font-family="sans-serif" font-size="12">', f'<rect width="{wide}" height="{TOP + HIGH + 46}" fill="white"/>']
    for i, one in enumerate(panels):
        out += panel(i * (LEFT + WIDE + 24), *one)
    with open(path, "w", encoding="utf-8") as f:
        f.write("\n".join(out) + "\n</svg>\n")
