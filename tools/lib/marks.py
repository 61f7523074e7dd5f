"""What a dealer should see in a file before it is fitted: retries, second quotes, clashes, odd quotes, refusals that need no search."""

import math

from answer import vol
from housefile import SETTINGS, alike, clashes, content, differing, first_clash, firsts, kept, retries
from words import listed, percent, plural

FAR = 3.0  # a volatility this many times the median, or this fraction of it, is marked


def median(values):
    """As the fit takes it: the middle one, or lo + 0.5 (hi - lo)."""
    ordered = sorted(values)
    half = len(ordered) // 2
    if len(ordered) % 2:
        return ordered[half]
    lo, hi = ordered[half - 1], ordered[half]
    return lo + 0.5 * (hi - lo)


def usable(quote):
    """Check 10."""
    return (
        math.isfinite(quote.k)
        and math.isfinite(quote.w)
        and quote.w >= 0
        and math.isfinite(quote.weight)
        and quote.weight > 0
    )


def cap_of(house, places):
    """The largest weight that counts in full, None where it can't be said."""
    weights = [house.quotes[i].weight for i in places]
    return house.settings["max_weight_ratio"] * median(weights) if weights else None


def early(house):
    """(number, words) of the refusal that is certain before the search, or None. The order is the fit's."""
    s = house.settings
    if s["grid"] > 255 or s["refinements"] > 1000 or s["max_recentres"] > 1000:
        return 11, "a setting is too large"
    bad = [i for i, quote in enumerate(house.quotes) if not usable(quote)]
    if bad:
        return 10, f"{plural(len(bad), 'quote')} not usable, first record {bad[0]}"
    two = first_clash(house.quotes)
    if two:
        return 44, f"number {house.quotes[two[0]].number} has two contents: {apart(house, two)}"
    floats = [s[name] for name, count, _ in SETTINGS if not count]
    in_range = all(math.isfinite(x) and x > 0 for x in floats) and s["sigma_lo"] < s["sigma_hi"]
    if s["grid"] < 5 or s["min_observations"] < 5 or not in_range:
        return 1, "a setting is out of range"
    if not (math.isfinite(house.tau) and house.tau > 0):
        return 2, f"tau {house.tau!r} is not a time"
    places = kept(house.quotes)
    if len(places) < s["min_observations"]:
        return 3, f"too few quotes: {len(places)} left, {s['min_observations']} needed"
    ks = [house.quotes[i].k for i in places]
    span = max(ks) - min(ks)
    if not (math.isfinite(span) and span > 0):
        return 4, "the quotes lie at one k, or too far apart to measure"
    cap = cap_of(house, places)
    capped = [min(house.quotes[i].weight, cap) for i in places]
    largest = max(capped)
    scaled = [x / largest if largest > 0 else math.nan for x in capped]
    if not all(math.isfinite(x) and x > 0 for x in scaled):
        return 5, "the weights do not scale"
    return None


def of_quote(quote):
    """Why check 10 refuses a quote, in words."""
    words = []
    for name in ("k", "w", "weight"):
        if not math.isfinite(getattr(quote, name)):
            words.append(f"{name} is not a finite number")
    if quote.w < 0:
        words.append("w is below 0")
    if quote.weight <= 0:
        words.append("weight is not above 0")
    return words


def apart(house, places):
    """In what records of one number differ."""
    return f"records {places_in_words(places)} differ in {listed(differing([house.quotes[i] for i in places]))}"


def seconds(house):
    """Each usable content that stands there under more than one number: {first: [first, second quote, ..]}."""
    return alike(house.quotes, [i for i in kept(house.quotes) if usable(house.quotes[i])], content)


def rivals(house):
    """For each record that clashes those it is named with: the number's first record; for that one, all others."""
    found = {}
    for first, *others in clashes(house.quotes).values():
        found[first] = others
        found.update((i, [first]) for i in others)
    return found


def resent(house):
    """Each quote that was sent more than once: {first: [first, retry, ..]}; not those of a number that clashes, of which none can be said to count."""
    clashing = rivals(house)
    return {first: places for first, places in retries(house.quotes).items() if first not in clashing}


def clash(house, i, others):
    """The mark of a record whose number stands in these others with another content."""
    records = "record" if len(others) == 1 else "records"
    names = listed(differing([house.quotes[j] for j in (i, *others)]))
    return f"CLASH with {records} {places_in_words(others)}: number {house.quotes[i].number} again, but another {names}: will be refused as 44"


def marks(house):
    """For each record the list of its marks in words; retries have one, the quotes kept may have several."""
    quotes = house.quotes
    first = firsts(quotes)
    against = rivals(house)
    before = {i: places[0] for places in seconds(house).values() for i in places[1:]}
    found = [[] for _ in quotes]
    good = [i for i, quote in enumerate(quotes) if i == first[i] and usable(quote)]
    ks = sorted(quotes[i].k for i in good)
    vols = {i: vol(quotes[i].w, house.tau) for i in good}
    positive = [v for v in vols.values() if v]
    middle = median(positive) if len(positive) >= 5 else None
    cap = cap_of(house, good)
    spots = {}
    for i, quote in enumerate(quotes):
        if i != first[i]:
            found[i].append(f"RETRY of record {first[i]}: dropped")
            continue
        if i in against:
            found[i].append(clash(house, i, against[i]))
        if not usable(quote):
            found[i] += [f"{why}: will be refused as 10" for why in of_quote(quote)]
            continue
        if quote.weight > cap:
            ratio = house.settings["max_weight_ratio"]
            found[i].append(f"weight is over {ratio:g} times the median: capped at {cap:g}")
        if quote.w == 0:
            found[i].append("w = 0: no volatility quoted")
        elif middle and vols[i] and not middle / FAR <= vols[i] <= middle * FAR:
            found[i].append(f"vol {percent(vols[i])} beside a median of {percent(middle)}")
        if len(ks) >= 5 and alone(ks, quote.k):
            found[i].append("k is far from all others")
        if i in before:
            found[i].append(f"SECOND QUOTE: record {before[i]} says the same under number {quotes[before[i]].number}; both count")
        elif quote.k in spots and i not in against:
            other = quotes[spots[quote.k]]
            same = "the same k and w" if other.w == quote.w else "the same k"
            found[i].append(f"{same} as record {spots[quote.k]}: both count")
        spots.setdefault(quote.k, i)
    return found


def alone(ks, k):
    """At an end, and further from its neighbour than all the others lie apart from each other."""
    if k == ks[0] and ks[1] - k > ks[-1] - ks[1]:
        return True
    return k == ks[-1] and k - ks[-2] > ks[-2] - ks[0]


def sent(house):
    """One line for each number that stands for more than one quote, and one for each quote that stands there more than once."""
    lines = []
    for first, places in clashes(house.quotes).items():
        lines.append(
            f"NUMBER {house.quotes[first].number} HAS {len(places)} CONTENTS: {apart(house, places)};"
            " the queue is broken, and the fit refuses such a file as 44"
        )
    for first, places in resent(house).items():
        lines.append(
            f"QUOTE {house.quotes[first].number} WAS SENT {len(places)} TIMES: records {places_in_words(places)};"
            f" the first counts, {plural(len(places) - 1, 'retry is', 'retries are')} dropped"
        )
    return lines


def places_in_words(places):
    """0, 3 to 8 and 11."""
    runs = []
    for i in places:
        if runs and i == runs[-1][1] + 1:
            runs[-1][1] = i
        else:
            runs.append([i, i])
    return listed(text for a, b in runs for text in (range(a, b + 1) if b < a + 2 else [f"{a} to {b}"]))
