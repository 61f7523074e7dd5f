"""The refusals in plain words: what happened, and what to do."""

# number: (in a few words, what it means, what to do)
REFUSALS = {
    1: (
        "a setting is out of range",
        "grid or min_observations is below 5, another setting is not a finite number above 0, or sigma_lo is not below sigma_hi",
        "correct the setting, or leave the settings out: the defaults always pass",
    ),
    2: ("tau is not a time", "the time to expiry is not a finite number above 0", "give tau in years: 0.25 for three months"),
    3: (
        "too few quotes",
        "too few quotes are left once retries are dropped",
        "wait for more quotes; copies of one quote count once",
    ),
    4: ("one strike only", "the quotes lie at one k, or too far apart to measure", "add quotes at other strikes"),
    5: (
        "the weights do not scale",
        "beside the largest weight the smallest comes out as 0",
        "give weights that are closer to each other",
    ),
    6: (
        "no curve at all",
        "in one pass of the search no point gave numbers to compare",
        "look for a w that is far too large, and for settings far from the defaults",
    ),
    7: (
        "the best curve is on the edge of the search",
        "the true best may lie outside: these quotes do not settle the shape of the smile",
        "add quotes in the wings; look for flat data or a stale quote",
    ),
    8: (
        "the curve found is not a valid slice",
        "rounded to its bounds, the curve leaves the domain or no longer fits as well",
        "look for variances close to 0 (w below 1e-8)",
    ),
    9: (
        "the quotes lie too far from any curve",
        "the root mean square distance in volatility is above what is allowed",
        "look for a stale or mistyped quote; else raise max_rmse_vol",
    ),
    10: (
        "a quote is not usable",
        "a k, w or weight is not a finite number, a w is below 0, or a weight is not above 0",
        "take the quote out or correct it",
    ),
    11: ("a setting is too large", "grid is above 255, or refinements or max_recentres above 1,000", "lower the setting"),
    43: (
        "not a house file",
        "the bytes are too short, too long, or a count in them is not allowed",
        "make the file again; a copy may have been cut off",
    ),
    44: (
        "one number with two contents",
        "two records have one quote number, but k, w or weight differ (house show names both): the queue that sends the quotes is broken",
        "find out which of the two is right; take the other out, or give it a number of its own",
    ),
}


def shown(text):
    """A field as a message quotes it: short, on one line."""
    text = "".join(c if c.isprintable() else "?" for c in text.strip())
    return text if len(text) <= 40 else text[:40] + ".."


def plural(count, one, many=None):
    return f"{count:,} {one if count == 1 else many or one + 's'}"


def listed(items):
    """k; k and w; k, w and weight."""
    *most, last = map(str, items)
    return f"{', '.join(most)} and {last}" if most else last


def short(x):
    """A float in about six digits, however large or small it is."""
    return f"{x:.6f}" if x == 0 or 1e-4 <= abs(x) < 1e4 else f"{x:.6g}"


def percent(v):
    """A volatility in per cent, '-' where there is none."""
    if v is None:
        return "-"
    return f"{v:.2%}" if v < 100 else f"{v * 100:.4g}%"


def points(x):
    """A volatility in volatility points: 0.0123 is 1.23."""
    return f"{x * 100:.2f}" if abs(x) < 100 else f"{x * 100:.4g}"


def refused(answer):
    """One sentence for a refusal, with its values."""
    number = answer.number
    short = REFUSALS[number][0]
    if number == 3:
        return f"{short}: {answer.x} left, {answer.y} needed"
    if number == 9:
        rmse = f"{points(answer.x)} vol points" if answer.x == answer.x else "not a number"
        return f"{short}: {rmse}, {points(answer.y)} allowed"
    return short


def verdict(answer):
    """The answer in one line."""
    if answer.number:
        return f"REFUSED {answer.number}: {refused(answer)}"
    return f"FITTED: {plural(answer.kept, 'quote')}, {points(answer.margins['rmse_vol'])} vol points rmse"
