"""house plot: what the picture holds, and how a browser shows it."""

import base64
import collections
import json
import math
import os
import random
import re
import stat
import xml.etree.ElementTree as ElementTree

import browser
import housefile
import plot
from support import NO_SETTINGS, SAMPLES, SIX, Case, answer_to, expiry, records

SVG = "{http://www.w3.org/2000/svg}"
HOUSE_OF_SIX = NO_SETTINGS + expiry(0.25) + records(*SIX)
NINE = [SIX[0], SIX[1], *[SIX[2]] * 9, *SIX[3:]]
HOUSE_OF_NINE = NO_SETTINGS + expiry(0.25) + records(*NINE)
PHONE = 360  # width of a phone's screen


class Plot(Case):
    def svg(self, house, answer, *words):
        return self.house("plot", self.put("day.house", house), "--answer", self.put("answer.txt", answer), *words).decode()

    def parts(self, text):
        """The picture as an element, and its texts."""
        root = ElementTree.fromstring(text)
        return root, [element.text or "" for element in root.iter(f"{SVG}text")]

    def count(self, root, name):
        return sum(element.get("class") == name for element in root.iter())

    def test_a_fitted_file(self):
        root, texts = self.parts(self.svg(HOUSE_OF_SIX, answer_to(SIX)))
        self.assertEqual(root.get("viewBox"), "0 0 600 800")
        for text in ("FITTED", "6 quotes, 0.50 vol points rmse", "day.house", "tau 0.25 years", "implied volatility, %", "log moneyness k = ln(strike / forward)", "quote minus curve, vol points", "fitted curve", "quote"):
            self.assertIn(text, texts)
        self.assertEqual(self.count(root, "curve"), 1)
        self.assertEqual(self.count(root, "quote"), 6 + 1)  # and the one of the legend
        self.assertEqual([self.count(root, kind) for kind, _ in plot.KINDS], [0] * 5)

    def test_the_curve_is_where_the_fit_says(self):
        """a 0.01, b 0.1, rho -0.25, m 0, sigma 0.5: w(-0.5) = 0.01 + 0.1 (0.125 + sqrt 0.5), over tau 0.25 a vol of 0.6109."""
        text = self.svg(HOUSE_OF_SIX, answer_to(SIX))
        spots = [tuple(map(float, spot.split())) for spot in re.search(r'class="curve" d="M([^"]+)"', text).group(1).split("L")]
        dots = [(float(x), float(y)) for x, y in re.findall(r'class="quote" cx="([\d.]+)" cy="([\d.]+)"', text)][:6]
        ks, vols = [q[1] for q in SIX], [math.sqrt(q[2] / 0.25) for q in SIX]
        self.assertAlmostEqual(spots[0][0], dots[0][0], delta=0.02)
        self.assertAlmostEqual(spots[-1][0], dots[-1][0], delta=0.02)
        per_vol = (dots[5][1] - dots[0][1]) / (vols[5] - vols[0])
        for k, spot in ((ks[0], spots[0]), (ks[-1], spots[-1])):
            expected = math.sqrt((0.01 + 0.1 * (-0.25 * k + math.sqrt(k * k + 0.25))) / 0.25)
            self.assertAlmostEqual(spot[1], dots[0][1] + (expected - vols[0]) * per_vol, delta=0.1)

    def test_retries_and_capped_quotes_are_marked(self):
        root, texts = self.parts(self.svg(HOUSE_OF_NINE, answer_to(SIX, read=14, capped=(2, 4))))
        self.assertIn("Quote 12 was sent 9 times; it counts once", texts)
        self.assertIn("2 weights capped", texts)
        self.assertIn("×9", texts)
        self.assertEqual([self.count(root, kind) for kind, _ in plot.KINDS], [1 + 1, 0, 0, 2 + 1, 0])  # each once more in the legend
        self.assertEqual(self.count(root, "quote"), 6 + 3)

    def test_many_retries_are_told_in_one_line(self):
        quotes = [q for q in SIX for _ in range(3)]
        _, texts = self.parts(self.svg(NO_SETTINGS + expiry(0.25) + records(*quotes), answer_to(SIX, read=18)))
        self.assertIn("6 quotes were sent more than once (up to 3", " ".join(texts))

    def test_second_quotes_are_marked_and_named(self):
        """Two dealers say the same; the quotes of both came twice and more: one spot, with the marks and counts of both."""
        quotes = [*SIX, (50, *SIX[2][1:])]
        root, texts = self.parts(self.svg(NO_SETTINGS + expiry(0.25) + records(*quotes, SIX[2], *[quotes[6]] * 2), answer_to(quotes, read=10)))
        self.assertIn("Quotes 12 and 50 say the same; both count", texts)
        self.assertIn("second quote", texts)
        self.assertIn("×2 ×3", texts)
        self.assertEqual([self.count(root, kind) for kind, _ in plot.KINDS], [1 + 1, 1 + 1, 0, 0, 0])
        self.assertEqual(self.count(root, "quote"), 6 + 3)

    def test_many_second_quotes_are_told_in_one_line(self):
        for more, count in (([(50, *SIX[2][1:]), (51, *SIX[2][1:])], 3), ([(50, *SIX[2][1:]), (51, *SIX[4][1:])], 4)):
            quotes = [*SIX, *more]
            _, texts = self.parts(self.svg(NO_SETTINGS + expiry(0.25) + records(*quotes), answer_to(quotes)))
            self.assertIn(f"{count} quotes say what another one says; all count", texts)

    def test_a_clash_is_marked_and_named(self):
        n, k, w, weight = SIX[2]
        for other, what, spots in (((k, 0.07, weight), "w", 2), ((k, w, 2.0), "weight", 1)):
            root, texts = self.parts(self.svg(NO_SETTINGS + expiry(0.25) + records(*SIX, (n, *other)), "read 7 kept 7\nrefused 44 0 0\n"))
            whole = " ".join(texts)
            self.assertIn("One number with two contents", texts)
            self.assertIn(f"Why: number 12 has two contents: records 2 and 6 differ in {what}. What to do: find out which", whole)
            self.assertIn("one number, two contents", texts)
            self.assertEqual([self.count(root, kind) for kind, _ in plot.KINDS], [0, 0, spots + 1, 0, 0])
            self.assertEqual(self.count(root, "quote"), 5 + spots + 2)

    def test_no_retry_of_a_clash_is_said_to_count(self):
        quotes = [*SIX, (12, -0.1, 0.07, 1.0), SIX[2], SIX[5]]
        root, texts = self.parts(self.svg(NO_SETTINGS + expiry(0.25) + records(*quotes), "read 9 kept 9\nrefused 44 0 0\n"))
        self.assertEqual([text for text in texts if "counts once" in text], ["Quote 15 was sent 2 times; it counts once"])
        self.assertEqual((self.count(root, "retry"), self.count(root, "clash")), (2 + 1, 2 + 1))

    def test_refusals_show_the_quotes_and_say_why(self):
        root, texts = self.parts(self.svg(HOUSE_OF_SIX, "read 6 kept 6\nsearch 1 0 0 441 28224 987654\nrefused 7 0 0\n"))
        self.assertEqual((self.count(root, "curve"), self.count(root, "quote")), (0, 7))
        whole = " ".join(texts)
        self.assertIn("REFUSED 7", texts)
        self.assertIn("The best curve is on the edge of the search", whole)
        self.assertIn("What to do: add quotes in the wings", whole)

    def test_an_unusable_quote_is_left_out_and_named(self):
        house = NO_SETTINGS + expiry(0.25) + records(*SIX, (20, 0.4, math.nan, 1.0), (21, math.inf, -1.0, 1.0))
        root, texts = self.parts(self.svg(house, "read 8 kept 8\nrefused 10 0 0\n"))
        self.assertEqual((self.count(root, "quote"), self.count(root, "unusable")), (7, 1 + 1))
        self.assertIn("Why: 2 quotes not usable, first record 6.", texts)

    def test_unusable_quotes_that_agree_are_no_second_quotes(self):
        house = NO_SETTINGS + expiry(0.25) + records(*SIX, (20, 0.4, 0.05, 0.0), (21, 0.4, 0.05, 0.0))
        root, texts = self.parts(self.svg(house, "read 8 kept 8\nrefused 10 0 0\n"))
        self.assertEqual((self.count(root, "second"), self.count(root, "unusable")), (0, 2 + 1))
        self.assertNotIn("both count", " ".join(texts))

    def test_a_malformed_file(self):
        _, texts = self.parts(self.svg(HOUSE_OF_SIX[:-1], "refused 43 0 0\n"))
        self.assertIn("REFUSED 43", texts)
        self.assertIn("Why: it ends after 211 bytes, inside quote 5 of 6.", texts)

    def test_another_curve_beside(self):
        self.put("old.txt", answer_to(NINE))
        root, texts = self.parts(self.svg(HOUSE_OF_NINE, answer_to(SIX, read=14), "--beside", "old.txt", "--beside-label", "as fresh", "--title", "a < b & \"c\""))
        self.assertEqual(self.count(root, "curve"), 2)
        self.assertIn("as fresh", texts)
        self.assertIn('a < b & "c"', texts)
        self.put("old.txt", "refused 43 0 0\n")
        self.assertEqual(self.refused("plot", "day.house", "--answer", "answer.txt", "--beside", "old.txt"), "old.txt: refused, so it has no curve to draw beside")

    def test_an_answer_to_another_file_is_refused(self):
        self.put("day.house", HOUSE_OF_SIX)
        for text, why in (
            (answer_to([(0, 9.0, 0.1, 1.0)] * 6), "the quotes differ"),
            (answer_to(SIX, read=7), "the quotes differ"),
            ("read 5 kept 5\nrefused 4 0 0\n", "the quotes differ"),
            ("refused 43 0 0\n", "one of the two is malformed"),
        ):
            self.put("answer.txt", text)
            self.assertEqual(self.refused("plot", "day.house", "--answer", "answer.txt"), f"answer.txt: not the answer to day.house: {why}")

    def test_it_runs_the_fit(self):
        self.put("day.house", HOUSE_OF_SIX)
        self.put("answer.txt", answer_to(SIX))
        fake = os.path.join(self.folder, self.put("fake", "#!/bin/sh\n[ \"$(cat | wc -c)\" -eq 212 ] && cat answer.txt\n"))
        os.chmod(fake, stat.S_IRWXU)
        self.assertIn("FITTED", self.house("plot", "day.house", "--fit", fake).decode())
        self.assertEqual(self.house("plot", "day.house", "--fit", fake), self.house("plot", "-", "--fit", fake, "--title", "day.house", given=HOUSE_OF_SIX))
        self.put("fake", "#!/bin/sh\nexit 3\n")
        self.assertEqual(self.refused("plot", "day.house", "--fit", fake), f"{fake}: no answer (exit status 3)")
        self.assertEqual(self.refused("plot", "day.house", "--fit", "./nothere"), "./nothere: No such file or directory")

    def test_no_numbers_make_it_stumble(self):
        chance = random.Random(8)
        odd = [0.0, -0.0, 5e-324, 1e-310, 1e-12, 1.0, 0.25, 3.0, 1e99, 1e200, 1.7e308, -1.7e308, math.inf, math.nan]
        for _ in range(60):
            quotes = [(chance.choice((i, 7)), *[chance.choice(odd) for _ in range(3)]) for i in range(chance.randrange(8))]
            quotes = list({tuple(map(str, q)): q for q in quotes}.values())
            data = NO_SETTINGS + expiry(chance.choice(odd)) + records(*quotes)
            for text in (*(f"read {len(quotes)} kept {len(quotes)}\nrefused {number} 0 0\n" for number in (10, 44)), answer_to(quotes, tau=chance.choice(odd))):
                ElementTree.fromstring(self.svg(data, text))


SCRIPT = """
const out = [];
for (const svg of document.querySelectorAll('svg')) {
  const frame = svg.getBoundingClientRect();
  const texts = [...svg.querySelectorAll('text')].filter(t => t.textContent).map(t => {
    const r = t.getBoundingClientRect();
    return {text: t.textContent, left: r.left - frame.left, right: r.right - frame.left, top: r.top - frame.top, bottom: r.bottom - frame.top,
            size: parseFloat(t.getAttribute('font-size')) * frame.width / svg.viewBox.baseVal.width};
  });
  out.push({width: frame.width, height: frame.height, texts});
}
document.body.innerHTML = '';
document.body.append(Object.assign(document.createElement('pre'), {textContent: btoa(unescape(encodeURIComponent(JSON.stringify(out))))}));
"""


class InABrowser(Case):
    """As a phone shows it: no text is cut off, lies on another, or is too small; and the marks are in colour."""

    ANSWERS = {
        "too-few.house": "read 9 kept 1\nrefused 3 1 5\n",
        "malformed.house": "refused 43 0 0\n",
        "bad-quote.house": "read 7 kept 7\nrefused 10 0 0\n",
        "no-span.house": "read 6 kept 6\nrefused 4 0 0\n",
        "grid-edge.house": "read 8 kept 8\nsearch 13 0 12 5733 334782 13706029\nrefused 7 0 0\n",
        "clash.house": "read 8 kept 8\nrefused 44 0 0\n",
    }

    def pictures(self):
        made = {}
        for name, text in self.ANSWERS.items():
            made[name] = self.house("plot", os.path.join(SAMPLES, name), "--answer", self.put("a.txt", text)).decode()
        self.put("nine.house", HOUSE_OF_NINE)
        self.put("a.txt", answer_to(SIX, read=14, capped=(2, 4)))
        self.put("b.txt", answer_to(NINE, a=0.02))
        words = ("--beside", "b.txt", "--beside-label", "as the old fitter", "--title", "a title that is rather longer than most of the titles that one sees")
        made["nine"] = self.house("plot", "nine.house", "--answer", "a.txt", *words).decode()
        # all that a fitted file can show, under the longest numbers: the legend takes a third row
        longest = [(2**64 - 1 - i, *quote[1:]) for i, quote in enumerate([*SIX, SIX[3]])]
        self.put("all.house", NO_SETTINGS + expiry(0.25) + records(*longest, *longest[:1], *longest[6:] * 8))
        self.put("a.txt", answer_to(longest, read=16, capped=(2, 4)))
        made["all"] = self.house("plot", "all.house", "--answer", "a.txt", *words).decode()
        with open(os.path.join(SAMPLES, "two-dealers.house"), "rb") as file:
            dealers = housefile.decode(file.read()).quotes
        made["two dealers"] = self.house("plot", os.path.join(SAMPLES, "two-dealers.house"), "--answer", self.put("a.txt", answer_to(dealers))).decode()
        return made

    def page(self, pictures, width):
        body = "".join(f'<div style="width:{width}px">{text}</div>' for text in pictures)
        return f'<!doctype html><meta charset="utf-8"><body style="margin:0">{body}'

    def test_texts(self):
        pictures = self.pictures()
        printed = browser.run(self.page(pictures.values(), PHONE) + f"<script>{SCRIPT}</script>", "--dump-dom")
        found = json.loads(base64.b64decode(re.search(r"<pre>([^<]+)</pre>", printed).group(1)))
        self.assertEqual(len(found), len(pictures))
        for name, seen in zip(pictures, found):
            for i, t in enumerate(seen["texts"]):
                self.assertGreaterEqual(t["size"], 10, (name, t))
                inside = t["left"] >= 0 and t["top"] >= 0 and t["right"] <= seen["width"] and t["bottom"] <= seen["height"]
                self.assertTrue(inside, (name, t))
                for other in seen["texts"][:i]:
                    across = min(t["right"], other["right"]) - max(t["left"], other["left"])
                    down = min(t["bottom"], other["bottom"]) - max(t["top"], other["top"])
                    self.assertFalse(across > 1 and down > 4, (name, t, other))

    def test_colours(self):
        pictures = self.pictures()
        for name, least in (
            ("nine", {plot.CURVE: 500, plot.BESIDE: 300, plot.RETRY: 200, plot.CAPPED: 200, plot.GOOD: 2000, plot.INK: 500, plot.PAPER: 300000}),
            ("two dealers", {plot.SECOND: 500, plot.GOOD: 2000}),
            ("clash.house", {plot.BAD: 3000}),
        ):
            rows = browser.pixels(self.page([pictures[name]], 600), 600, 800)
            seen = collections.Counter(pixel for row in rows for pixel in row)
            for colour, most in least.items():
                self.assertGreater(seen[tuple(bytes.fromhex(colour[1:]))], most, (name, colour))
