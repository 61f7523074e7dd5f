"""house show: what is in a file, marked in words."""

import math
import os
import random
import struct

from support import NO_SETTINGS, SAMPLES, SIX, Case, expiry, records, settings


class Show(Case):
    def show(self, *parts, words=()):
        return self.house("show", self.put("day.house", b"".join(parts)), *words).decode()

    def last(self, *parts):
        return self.show(*parts).strip().split("\n")[-1]

    def row(self, text, record):
        """The line of a record."""
        return next(line for line in text.split("\n") if line.strip().startswith(f"{record} "))

    def test_nine_copies_show_at_a_glance(self):
        text = self.show(NO_SETTINGS, expiry(0.25), records(*[(7, 0.0, 0.25, 1.0)] * 9))
        lines = text.split("\n")
        self.assertEqual(lines[0], "day.house: 9 records, tau 0.25 years, default settings")
        self.assertEqual(lines[2], "QUOTE 7 WAS SENT 9 TIMES: records 0 to 8; the first counts, 8 retries are dropped")
        self.assertEqual(lines[4], "record  number         k         w      vol  weight")
        self.assertEqual(lines[5], "     0       7  0.000000  0.250000  100.00%       1")
        self.assertEqual(lines[6], "     1       7  0.000000  0.250000  100.00%       1   RETRY of record 0: dropped")
        self.assertEqual(lines[15], "The fit refuses this file as 3: too few quotes: 1 left, 5 needed. What to do: wait for more quotes; copies of one quote count once.")

    def test_make_then_show_gives_the_numbers_back(self):
        rows = [(i + 1, round(-0.4 + 0.1 * i, 2), 0.04 + 0.013 * i, 1 + i / 7) for i in range(9)]
        csv = "number,k,w,weight\n" + "".join(f"{n},{k!r},{w!r},{t!r}\n" for n, k, w, t in rows)
        house = self.house("make", self.put("a.csv", csv), "--tau", "0.3")
        self.assertEqual(house, NO_SETTINGS + expiry(0.3) + records(*rows))
        text = self.show(house, words=("--exact",))
        for i, (n, k, w, t) in enumerate(rows):
            cells = self.row(text, i).split()
            self.assertEqual((cells[:4], cells[5]), ([str(i), str(n), repr(k), repr(w)], repr(t)))

    def mark(self, text, record):
        """What stands after the six columns of a record's line."""
        return " ".join(self.row(text, record).split()[6:])

    def test_retries_go_by_the_number_and_the_bits(self):
        text = self.show(NO_SETTINGS, expiry(1.0), records(*SIX, SIX[2], SIX[5], SIX[2], (0, 0.0, 0.04, 1.0), (2**64 - 1, 0.3, 0.05, 1.0), (0, 0.0, 0.04, 1.0), (2**64 - 1, 0.3, 0.05, 1.0)))
        for line in (
            "QUOTE 12 WAS SENT 3 TIMES: records 2, 6 and 8; the first counts, 2 retries are dropped",
            "QUOTE 15 WAS SENT 2 TIMES: records 5 and 7; the first counts, 1 retry is dropped",
            "QUOTE 0 WAS SENT 2 TIMES: records 9 and 11; the first counts, 1 retry is dropped",
            "QUOTE 18446744073709551615 WAS SENT 2 TIMES: records 10 and 12; the first counts, 1 retry is dropped",
        ):
            self.assertIn(f"\n{line}\n", text)
        self.assertEqual([self.mark(text, i) for i in (5, 6, 7, 8, 11)], ["", *(f"RETRY of record {i}: dropped" for i in (2, 5, 2, 9))])
        self.assertIn("8 quotes go into the fit.", text)

    def test_one_content_under_two_numbers_is_a_second_quote(self):
        text = self.show(NO_SETTINGS, expiry(1.0), records(*SIX, (50, *SIX[2][1:]), (50, *SIX[2][1:]), (51, *SIX[2][1:])))
        self.assertEqual([self.mark(text, i) for i in (2, 6, 7, 8)], [
            "",
            "SECOND QUOTE: record 2 says the same under number 12; both count",
            "RETRY of record 6: dropped",
            "SECOND QUOTE: record 2 says the same under number 12; both count",
        ])
        self.assertIn("8 quotes go into the fit.", text)

    def test_other_contents_at_one_k_are_no_second_quotes(self):
        k, w = SIX[2][1:3]
        text = self.show(NO_SETTINGS, expiry(1.0), records(*SIX, (50, k, w, 2.0), (51, k, 0.07, 1.0), (52, 0.0, 0.04, 1.0), (53, -0.0, 0.04, 1.0), (54, k, 0.07, 1.0)))
        self.assertEqual([self.mark(text, i) for i in range(6, 11)], [
            "the same k and w as record 2: both count",
            "the same k as record 2: both count",
            "",
            "the same k and w as record 8: both count",
            "SECOND QUOTE: record 7 says the same under number 51; both count",
        ])
        self.assertIn("11 quotes go into the fit.", text)

    def test_a_clash_names_both_records_and_what_differs(self):
        n, k, w, weight = SIX[2]
        for other, what in (
            ((k, 0.07, weight), "w"),
            ((0.45, w, weight), "k"),
            ((k, w, 2.0), "weight"),
            ((0.45, 0.07, weight), "k and w"),
            ((0.45, 0.07, 2.0), "k, w and weight"),
        ):
            with self.subTest(what=what):
                text = self.show(NO_SETTINGS, expiry(1.0), records(*SIX, (n, *other)))
                self.assertIn(f"\nNUMBER 12 HAS 2 CONTENTS: records 2 and 6 differ in {what}; the queue is broken, and the fit refuses such a file as 44\n", text)
                self.assertEqual(self.mark(text, 2), f"CLASH with record 6: number 12 again, but another {what}: will be refused as 44")
                self.assertEqual(self.mark(text, 6), f"CLASH with record 2: number 12 again, but another {what}: will be refused as 44")
                self.assertEqual(text.strip().split("\n")[-1], f"The fit refuses this file as 44: number 12 has two contents: records 2 and 6 differ in {what}."
                                 " What to do: find out which of the two is right; take the other out, or give it a number of its own.")

    def test_the_sign_of_a_zero_makes_a_clash(self):
        for quotes, what in (
            ([(7, 0.0, 0.04, 1.0), (7, -0.0, 0.04, 1.0)], "k (+0 and -0)"),
            ([(7, 0.05, -0.0, 1.0), (7, 0.05, 0.0, 1.0)], "w (+0 and -0)"),
            ([(7, 0.0, 0.04, 1.0), (7, -0.0, 0.05, 1.0), (7, 0.0, 0.05, 1.0)], "k (+0 and -0) and w"),
        ):
            text = self.show(NO_SETTINGS, expiry(1.0), records(*SIX, *quotes))
            self.assertIn(f"NUMBER 7 HAS {len(quotes)} CONTENTS: records 6 {'and 7' if len(quotes) == 2 else 'to 8'} differ in {what};", text)

    def test_clashes_among_many_records(self):
        """Number 13, records 3 to 7: a content, another, each of them again, a third. Number 10 stands before it, but clashes after it."""
        k, w, weight = SIX[3][1:]
        more = [(13, k, 0.08, weight), SIX[3], (13, k, 0.08, weight), (13, 0.33, w, weight)]
        text = self.show(NO_SETTINGS, expiry(1.0), records(*SIX[:4], *more, (10, 0.45, 0.05, 1.0), (60, 0.33, w, weight)))
        self.assertIn("\n\nNUMBER 10 HAS 2 CONTENTS: records 0 and 8 differ in k and w; ", text)
        self.assertIn("\nNUMBER 13 HAS 3 CONTENTS: records 3, 4 and 7 differ in k and w; ", text)
        self.assertNotIn("QUOTE 13 WAS SENT", text)
        self.assertEqual([self.mark(text, i) for i in range(3, 10)], [
            "CLASH with records 4 and 7: number 13 again, but another k and w: will be refused as 44",
            "CLASH with record 3: number 13 again, but another w: will be refused as 44",
            "RETRY of record 3: dropped",
            "RETRY of record 4: dropped",
            "CLASH with record 3: number 13 again, but another k: will be refused as 44",
            "CLASH with record 0: number 10 again, but another k and w: will be refused as 44",
            "SECOND QUOTE: record 7 says the same under number 13; both count",
        ])
        self.assertIn("The fit refuses this file as 44: number 13 has two contents: records 3 and 4 differ in w. ", text)

    def test_what_is_not_usable_is_no_second_quote(self):
        text = self.show(NO_SETTINGS, expiry(1.0), records(*SIX, (20, 0.1, 0.05, 0.0), (21, 0.1, 0.05, 0.0), (21, 0.1, 0.05, 1.0)))
        self.assertEqual([self.mark(text, i) for i in (6, 7, 8)], [
            "weight is not above 0: will be refused as 10",
            "CLASH with record 8: number 21 again, but another weight: will be refused as 44; weight is not above 0: will be refused as 10",
            "CLASH with record 7: number 21 again, but another weight: will be refused as 44",
        ])
        self.assertIn("The fit refuses this file as 10: ", text)

    def test_marks(self):
        text = self.show(NO_SETTINGS, expiry(1.0), records(*SIX, (20, 0.6, 0.05, 10.5), (21, 3.0, 0.05, 1.0), (22, 0.1, 0.0, 1.0), (23, 0.2, 9.0, 10.0)))
        self.assertTrue(self.row(text, 6).endswith("   weight is over 10 times the median: capped at 10"))
        self.assertTrue(self.row(text, 7).endswith("   k is far from all others"))
        self.assertTrue(self.row(text, 8).endswith("; the same k as record 3: both count") or self.row(text, 8).endswith("w = 0: no volatility quoted"))
        self.assertTrue(self.row(text, 9).endswith("   vol 300.00% beside a median of 24.49%"), self.row(text, 9))

    def test_a_weight_at_the_cap_is_not_marked(self):
        text = self.show(NO_SETTINGS, expiry(1.0), records(*[(i, i / 10, 0.04, t) for i, t in enumerate((1.0, 1.0, 1.0, 1.0, 10.0))]))
        self.assertNotIn("capped", text)

    def test_settings_are_listed(self):
        text = self.show(settings(grid=9), expiry(1.0), records(*SIX))
        self.assertIn("its own settings", text)
        self.assertIn("  grid = 9  (default 21)\n  refinements = 12\n", text)

    def test_certain_refusals_in_the_order_of_the_fit(self):
        bad = (9, math.nan, 0.04, 1.0)
        few = records(*SIX[:4])
        for expected, parts in (
            ("11: a setting is too large", (settings(grid=256), expiry(math.nan), records(bad))),
            ("11: a setting is too large", (settings(refinements=1001), expiry(1.0), records(*SIX))),
            ("10: 1 quote not usable, first record 0", (settings(grid=4), expiry(math.nan), records(bad))),
            ("10: 2 quotes not usable, first record 6", (NO_SETTINGS, expiry(1.0), records(*SIX, (1, 0.0, -0.1, 1.0), (2, 0.0, 0.1, 0.0)))),
            ("10: 1 quote not usable, first record 7", (NO_SETTINGS, expiry(1.0), records(*SIX, (15, 0.0, 0.04, 1.0), bad))),
            ("44: number 15 has two contents: records 5 and 6 differ in k and w", (settings(grid=4), expiry(math.nan), records(*SIX, (15, 0.0, 0.04, 1.0)))),
            ("44: number 7 has two contents: records 0 and 1 differ in k", (NO_SETTINGS, expiry(1.0), records((7, 0.0, 0.25, 1.0), (7, -0.1, 0.25, 1.0)))),
            ("1: a setting is out of range", (settings(grid=4), expiry(math.nan), few)),
            ("1: a setting is out of range", (settings(sigma_lo=10.0), expiry(1.0), records(*SIX))),
            ("1: a setting is out of range", (settings(a_min=math.nan), expiry(1.0), records(*SIX))),
            ("2: tau nan is not a time", (NO_SETTINGS, expiry(math.nan), few)),
            ("2: tau -1.0 is not a time", (NO_SETTINGS, expiry(-1.0), few)),
            ("3: too few quotes: 4 left, 5 needed", (NO_SETTINGS, expiry(1.0), few)),
            ("3: too few quotes: 0 left, 5 needed", (NO_SETTINGS, expiry(1.0), records())),
            ("4: the quotes lie at one k, or too far apart to measure", (NO_SETTINGS, expiry(1.0), records(*[(i, 0.1, 0.04 + i / 100, 1.0) for i in range(5)]))),
            ("4: the quotes lie at one k, or too far apart to measure", (NO_SETTINGS, expiry(1.0), records(*[(i, k, 0.04, 1.0) for i, k in enumerate((-1.7e308, 1.7e308, 0.0, 1.0, 2.0))]))),
            ("5: the weights do not scale", (NO_SETTINGS, expiry(1.0), records(*[(i, i / 10, 0.04, 5e-324 if i < 2 else 1e300) for i in range(6)]))),
        ):
            with self.subTest(expected=expected):
                self.assertTrue(self.last(*parts).startswith(f"The fit refuses this file as {expected}. What to do: "), self.last(*parts))

    def test_unusable_quotes_say_why(self):
        text = self.show(NO_SETTINGS, expiry(1.0), records((1, math.inf, 0.04, 1.0), (2, 0.0, -0.04, 1.0), (3, 0.1, 0.04, math.nan), (4, 0.2, 0.04, -0.0)))
        for record, why in enumerate(("k is not a finite number", "w is below 0", "weight is not a finite number", "weight is not above 0")):
            self.assertTrue(self.row(text, record).endswith(f"   {why}: will be refused as 10"), text)

    def test_malformed_files(self):
        good = NO_SETTINGS + expiry(0.25) + records(*SIX)
        for data, why in (
            (b"", "it ends after 0 bytes, inside the count of settings"),
            (good[:7], "it ends after 7 bytes, inside the count of expiries"),
            (good[:15], "it ends after 15 bytes, inside tau"),
            (good[:-1], "it ends after 211 bytes, inside quote 5 of 6"),
            (good + b"\0\0", "2 bytes too many after the last quote"),
            (struct.pack("<I", 2) + good[4:], "the count of settings is 2; it may be 0 or 1"),
            (NO_SETTINGS + struct.pack("<I", 2) + bytes(100), "the count of expiries is 2; it must be 1"),
            (NO_SETTINGS + expiry(1.0) + struct.pack("<I", 257) + bytes(32 * 257), "the count of quotes is 257; at most 256 fit"),
            (settings()[:50], "it ends after 50 bytes, inside the setting a_min"),
        ):
            with self.subTest(why=why):
                self.assertEqual(self.refused("show", self.put("bad.house", data)), f"bad.house: not a house file: {why}; the fit refuses it as 43")
        self.assertEqual(self.refused("show", "-", given=b"\1"), "standard input: not a house file: it ends after 1 bytes, inside the count of settings; the fit refuses it as 43")

    def test_the_dealer(self):
        text = self.house("show", os.path.join(SAMPLES, "dealer.house")).decode()
        self.assertIn("QUOTE 104 WAS SENT 9 TIMES: records 3 to 11; the first counts, 8 retries are dropped", text)
        self.assertIn("7 quotes go into the fit.", text)

    def test_two_dealers_and_a_clash(self):
        text = self.house("show", os.path.join(SAMPLES, "two-dealers.house")).decode()
        self.assertEqual(self.mark(text, 4), "SECOND QUOTE: record 3 says the same under number 904; both count")
        self.assertIn("8 quotes go into the fit.", text)
        text = self.house("show", os.path.join(SAMPLES, "clash.house")).decode()
        self.assertIn("NUMBER 804 HAS 2 CONTENTS: records 3 and 7 differ in w; the queue is broken", text)

    def test_no_bytes_make_it_stumble(self):
        chance = random.Random(20)
        odd = [0.0, -0.0, 5e-324, 1e-310, 1.0, 0.25, 1e100, 1.7e308, -1.7e308, math.inf, -math.inf, math.nan]
        for _ in range(20):
            quotes = [(chance.choice((chance.getrandbits(64), 7)), *[chance.choice(odd) for _ in range(3)]) for _ in range(chance.randrange(12))]
            data = NO_SETTINGS + expiry(chance.choice(odd)) + records(*quotes)
            self.house("show", "-", given=data)
