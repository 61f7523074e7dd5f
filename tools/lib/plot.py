"""A picture of a file and its fit, as SVG: quotes, curve, residuals, and the verdict in words.

It is 600 units wide and uses text of 17 units and more, so that a phone held upright shows it readable.
"""

import html
import math
import textwrap

import housefile
import marks
import words
from answer import variance, vol

WIDTH, HEIGHT = 600, 800
LEFT, RIGHT = 66, 578
INK, GREY, GRID, PAPER = "#1c2430", "#5b6675", "#e2e6eb", "#ffffff"
CURVE, BESIDE, RETRY, SECOND, CAPPED = "#1858b8", "#c4302b", "#e07b00", "#00707a", "#7b3fb5"
GOOD, BAD = "#16794a", "#b3261e"
FONT = "Helvetica, Arial, 'DejaVu Sans', sans-serif"
STEPS = 160  # straight pieces of a curve
FARTHEST = 1e100  # a quote beyond it has no place in a picture
# What a quote can be, and what the legend calls it.
KINDS = (
    ("retry", "sent more than once"),
    ("second", "second quote"),
    ("clash", "one number, two contents"),
    ("capped", "weight capped"),
    ("unusable", "not usable, at its k"),
)


def clean(text):
    """Text as XML takes it: escaped, and without control characters."""
    return html.escape("".join(c if c.isprintable() else "?" for c in text))


def number(x):
    """A coordinate: two decimals at most."""
    return f"{x:.2f}".rstrip("0").rstrip(".")


class Scale:
    """From values to units along one axis, with round marks."""

    def __init__(self, lo, hi, start, end, room=0.07):
        most = max(abs(lo), abs(hi))
        if hi - lo <= 1e-9 * most or hi - lo < 1e-200:  # one value: room around it
            pad = most * 0.1 if most > 1e-100 else 0.01
            lo, hi = lo - pad, hi + pad
        pad = (hi - lo) * room
        self.lo, self.hi = lo - pad, hi + pad
        self.start, self.end = start, end

    def __call__(self, x):
        return self.start + (x - self.lo) / (self.hi - self.lo) * (self.end - self.start)

    def ticks(self, most):
        """Round values inside the axis, at most that many."""
        span = self.hi - self.lo
        power = 10.0 ** math.floor(math.log10(span / most))
        step = next(power * f for f in (1, 2, 2.5, 5, 10, 20) if span / (power * f) <= most)
        first = math.ceil(self.lo / step)
        values = [(first + i) * step for i in range(most + 1)]
        return [0.0 if abs(v) < step / 2 else v for v in values if self.lo <= v <= self.hi], step


def label(x, step):
    """A mark in as many decimals as its step needs."""
    if x == 0:
        return "0"
    if not 1e-4 <= abs(x) < 1e6:
        return f"{x:.3g}"
    places = next((p for p in range(8) if abs(round(step, p) - step) < step * 1e-6), 8)
    return f"{x:.{places}f}".replace("-", "\N{MINUS SIGN}")


class Picture:
    """SVG elements in the order they are drawn."""

    def __init__(self, title):
        self.title = clean(title)
        self.parts = []

    def add(self, text):
        self.parts.append(text)

    def text(self, x, y, text, size=17, fill=INK, weight="normal", anchor="start"):
        self.add(
            f'<text x="{number(x)}" y="{number(y)}" font-size="{size}" fill="{fill}" font-weight="{weight}"'
            f' text-anchor="{anchor}">{clean(text)}</text>'
        )

    def paragraph(self, x, y, text, size=17, fill=INK, weight="normal"):
        """Text broken into lines; the place below it is handed back."""
        wide = int((RIGHT - x) / (size * (0.58 if weight == "normal" else 0.62)))
        for line in textwrap.wrap(text, wide) or [""]:
            self.text(x, y, line, size, fill, weight)
            y += size * 1.3
        return y

    def line(self, x1, y1, x2, y2, stroke=GRID, width=1.0, more=""):
        self.add(
            f'<line x1="{number(x1)}" y1="{number(y1)}" x2="{number(x2)}" y2="{number(y2)}"'
            f' stroke="{stroke}" stroke-width="{width:g}"{more}/>'
        )

    def done(self, height):
        head = [
            f'<svg xmlns="http://www.w3.org/2000/svg" viewBox="0 0 {WIDTH} {number(height)}" role="img" font-family="{FONT}">',
            f"<title>{self.title}</title>",
            f'<rect width="{WIDTH}" height="{number(height)}" fill="{PAPER}"/>',
        ]
        return "\n".join(head + self.parts + ["</svg>", ""])


def dot(picture, x, y, kind):
    """A quote: its shape says what it is, so that colour is not needed to tell."""
    x, y = number(x), number(y)
    if "capped" in kind:
        shape = f"M{x} {y}m0 -14l14 14l-14 14l-14 -14z"
        picture.add(f'<path class="capped" d="{shape}" fill="none" stroke="{CAPPED}" stroke-width="3"/>')
    if "unusable" in kind:
        picture.add(f'<path class="unusable" d="M{x} {y}m-8 -8l16 16m0 -16l-16 16" stroke="{BAD}" stroke-width="4"/>')
        return
    if "clash" in kind:
        picture.add(f'<path class="clash" d="M{x} {y}m-13 -13h26v26h-26z" fill="none" stroke="{BAD}" stroke-width="3"/>')
    if "second" in kind:
        picture.add(f'<path class="second" d="M{x} {y}m-17 -12v24m34 0v-24" stroke="{SECOND}" stroke-width="3.5"/>')
    if "retry" in kind:
        picture.add(f'<circle class="retry" cx="{x}" cy="{y}" r="13" fill="none" stroke="{RETRY}" stroke-width="3"/>')
    picture.add(f'<circle class="quote" cx="{x}" cy="{y}" r="6.5" fill="{INK}" stroke="{PAPER}" stroke-width="1.5"/>')


def axis_of_k(picture, scale, top, bottom, labels):
    values, step = scale.ticks(7)
    for value in values:
        x = scale(value)
        picture.line(x, top, x, bottom)
        if labels:
            picture.text(x, bottom + 23, label(value, step), anchor="middle", fill=GREY)


def axis_of_vol(picture, scale, most):
    """Marks in per cent along the left side."""
    values, step = scale.ticks(most)
    for value in values:
        y = scale(value)
        picture.line(LEFT, y, RIGHT, y)
        picture.text(LEFT - 9, y + 6, label(value, step), anchor="end", fill=GREY)


def curve(picture, fit, k_scale, v_scale, lo, hi, stroke, dashes=""):
    """The fitted volatility between the outermost quotes."""
    spots = []
    for i in range(STEPS + 1):
        k = lo + (hi - lo) * i / STEPS
        v = vol(variance(fit, k), fit["tau"])
        if v is not None and v < FARTHEST:
            spots.append(f"{number(k_scale(k))} {number(v_scale(v * 100))}")
    if not spots:
        return
    picture.add(
        f'<path class="curve" d="M{"L".join(spots)}" fill="none" stroke="{stroke}" stroke-width="3.5"'
        f' stroke-linejoin="round"{dashes}/>'
    )


def head(picture, name, house, answer):
    """Badge, verdict, file, and in words retries, second quotes and capped weights; the place below is handed back."""
    accepted = answer.number == 0
    badge = "FITTED" if accepted else f"REFUSED {answer.number}"
    wide = len(badge) * 15 + 28
    picture.add(f'<rect x="22" y="18" width="{wide}" height="38" rx="8" fill="{GOOD if accepted else BAD}"/>')
    picture.text(22 + wide / 2, 45, badge, 22, PAPER, "bold", "middle")
    tau = f"tau {house.tau:.4g} years" if house else ""
    picture.text(22 + wide + 14, 44, tau, 19, GREY)
    sentence = words.verdict(answer).split(": ", 1)[1]
    y = picture.paragraph(22, 88, sentence[0].upper() + sentence[1:], 22, INK, "bold")
    y = picture.paragraph(22, y, name if len(name) <= 90 else name[:88] + "..", 17, GREY)
    if house:
        for line in retries_in_words(house):
            y = picture.paragraph(22, y + 2, line, 19, RETRY, "bold")
        for line in seconds_in_words(house):
            y = picture.paragraph(22, y + 2, line, 19, SECOND, "bold")
    if answer.capped:
        y = picture.paragraph(22, y + 2, f"{words.plural(len(answer.capped), 'weight')} capped", 19, CAPPED, "bold")
    return y


def retries_in_words(house):
    sent = marks.resent(house)
    lines = [f"Quote {house.quotes[i].number} was sent {len(places)} times; it counts once" for i, places in sent.items()]
    if len(lines) > 2:
        most = max(map(len, sent.values()))
        return [f"{len(lines)} quotes were sent more than once (up to {most} times); each counts once"]
    return lines


def seconds_in_words(house):
    said = [i for places in marks.seconds(house).values() for i in places]
    if len(said) > 2:
        return [f"{len(said)} quotes say what another one says; all count"]
    return [f"Quotes {words.listed(house.quotes[i].number for i in said)} say the same; both count"] if said else []


def advice(picture, y, answer, why):
    """A refusal in plain words."""
    _, means, do = words.REFUSALS[answer.number]
    y = picture.paragraph(22, y, f"Why: {why or means}.", 19)
    return picture.paragraph(22, y + 6, f"What to do: {do}.", 19)


def legend(picture, y, kinds, fitted, beside):
    """Only what the picture shows, in rows that wrap; the place of the last row is handed back."""
    entries = []
    if fitted:
        entries.append(("line", CURVE, "fitted curve"))
    if beside:
        entries.append(("dashes", BESIDE, beside))
    entries.append(("dot", set(), "quote"))
    entries += [("dot", {kind}, text) for kind, text in KINDS if any(kind in seen for seen in kinds)]
    x = 22.0
    for form, what, text in entries:
        wide = 48 + len(text) * 9.6
        if x > 22 and x + wide > RIGHT:
            x, y = 22.0, y + 30
        if form == "dot":
            dot(picture, x + 15, y - 6, what)
        else:
            more = ' stroke-dasharray="9 6"' if form == "dashes" else ""
            picture.line(x, y - 6, x + 30, y - 6, what, 3.5, more)
        picture.text(x + 40, y, text)
        x += wide + 14
    return y


def draw(name, house, answer, why=None, beside=None, beside_label=None):
    """The whole picture. house is None for a malformed file; why says more about a refusal."""
    picture = Picture(f"{name}: {words.verdict(answer)}")
    y = head(picture, name, house, answer)
    accepted = answer.number == 0
    if not accepted:
        y = advice(picture, y + 8, answer, why)
    shown = drawable(house) if house else []
    if not shown:
        return picture.done(picture.paragraph(22, y + 24, "No quote has a place in a picture.", 19, GREY) + 10)
    lo, hi = bounds([house.quotes[i].k for i in shown])
    bottom = 512 if accepted else 668
    kinds = panel(picture, house, answer, shown, (lo, hi), y + 36, bottom, beside)
    if accepted:
        residuals(picture, house, answer, (lo, hi), bottom + 46, 660)
    picture.text((LEFT + RIGHT) / 2, (660 if accepted else bottom) + 50, "log moneyness k = ln(strike / forward)", anchor="middle")
    y = legend(picture, 748, kinds, accepted, beside and (beside_label or "the other curve"))
    return picture.done(max(HEIGHT, y + 22))


def drawable(house):
    """Positions of the records that have a place in the picture: retries fall onto their first."""
    vols = {i: vol(house.quotes[i].w, house.tau) for i in housefile.kept(house.quotes)}
    return [i for i, v in vols.items() if v is not None and v < FARTHEST and abs(house.quotes[i].k) < FARTHEST]


def bounds(values):
    return min(values), max(values)


def panel(picture, house, answer, shown, ends, top, bottom, beside):
    """Quotes and curves; what each quote is, is handed back for the legend."""
    vols = {i: vol(house.quotes[i].w, house.tau) * 100 for i in shown}
    heights = list(vols.values())
    fits = [a.fit for a in (answer, beside) if a and a.fit]
    for fit in fits:
        for i in range(STEPS + 1):
            v = vol(variance(fit, ends[0] + (ends[1] - ends[0]) * i / STEPS), fit["tau"])
            heights += [v * 100] if v is not None and v < FARTHEST else []
    k_scale = Scale(*ends, LEFT, RIGHT)
    v_scale = Scale(*bounds(heights), bottom, top, 0.09)
    axis_of_k(picture, k_scale, top, bottom, not answer.fit)
    axis_of_vol(picture, v_scale, 6)
    picture.text(LEFT, top - 10, "implied volatility, %")
    if beside and beside.fit:
        curve(picture, beside.fit, k_scale, v_scale, *ends, BESIDE, ' stroke-dasharray="9 6"')
    if answer.fit:
        curve(picture, answer.fit, k_scale, v_scale, *ends, CURVE)
    sent, kept = housefile.retries(house.quotes), housefile.kept(house.quotes)
    of_kind = {
        "retry": sent,
        "second": marks.seconds(house),
        "clash": marks.rivals(house),
        "capped": {kept[i] for i in answer.capped},
    }
    spots = {}  # quotes that lie on one spot are drawn once, with the marks and counts of all
    for i in shown:
        kind, counts = spots.setdefault((k_scale(house.quotes[i].k), v_scale(vols[i])), (set(), []))
        kind.update(name for name, places in of_kind.items() if i in places)
        if i in sent:
            counts.append(f"\N{MULTIPLICATION SIGN}{len(sent[i])}")
    for (x, y), (kind, counts) in spots.items():
        dot(picture, x, y, kind)
        if counts:
            over = y - 20 > top + 16
            picture.text(x, y - 19 if over else y + 34, " ".join(counts), 22, RETRY, "bold", "middle")
    kinds = [kind for kind, _ in spots.values()]
    for i, quote in enumerate(house.quotes):
        if not marks.usable(quote) and k_scale.lo <= quote.k <= k_scale.hi:  # no place on the scale of vols: at the foot
            dot(picture, k_scale(quote.k), bottom - 12, {"unusable"})
            kinds.append({"unusable"})
    return kinds


def residuals(picture, house, answer, ends, top, bottom):
    """Quote minus curve, in volatility points, one bar for each quote kept."""
    values = [point.residual * 100 for point in answer.points]
    k_scale = Scale(*ends, LEFT, RIGHT)
    reach = max([abs(v) for v in values if abs(v) < FARTHEST] or [0]) or 0.01
    scale = Scale(-reach, reach, bottom, top, 0.12)
    axis_of_k(picture, k_scale, top, bottom, True)
    axis_of_vol(picture, scale, 4)
    picture.text(LEFT, top - 10, "quote minus curve, vol points")
    picture.line(LEFT, scale(0), RIGHT, scale(0), GREY, 1.5)
    sent, kept = housefile.retries(house.quotes), housefile.kept(house.quotes)
    for i, (point, value) in enumerate(zip(answer.points, values)):
        if abs(value) < FARTHEST and abs(point.k) < FARTHEST:
            x = k_scale(point.k)
            colour = CAPPED if i in answer.capped else RETRY if kept[i] in sent else INK
            picture.line(x, scale(0), x, scale(value), colour, 5)
