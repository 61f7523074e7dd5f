"""house read: the fit's text in decimal and as JSON."""

import json
import math

from support import SIX, Case, answer_to, digits


class Read(Case):
    def read(self, text, *words):
        return self.house("read", *words, given=text).decode()

    def json(self, text):
        return json.loads(self.read(text, "--json"))

    def test_accepted_in_decimal(self):
        text = self.read(answer_to(SIX, read=9, capped=(2, 5)))
        lines = text.split("\n")
        self.assertEqual(lines[0], "FITTED: 6 quotes, 0.50 vol points rmse")
        self.assertEqual(lines[1], "9 records read, 6 kept, 3 retries dropped")
        self.assertEqual(lines[2], "search      13 passes, 0 recentres, 12 shrinks, 5,733 cells, 51,534 faces, 1,234,567 updates")
        self.assertIn("rho         -0.25\n", text)
        self.assertIn("lee_margin        1.875\n", text)
        self.assertIn("at a bound  a_min (a is at its lower bound)\n", text)
        self.assertIn("capped      position 2, position 5\n", text)
        self.assertIn("       2  -0.100000  0.060000  0.059000  48.99%      48.58%    0.250000   capped\n", text)

    def test_accepted_as_json(self):
        out = self.json(answer_to(SIX, capped=(1,), active="1000001"))
        self.assertEqual(out["verdict"], "fitted")
        self.assertEqual((out["read"], out["kept"]), (6, 6))
        self.assertEqual(out["fit"], {"tau": 0.25, "a": 0.01, "b": 0.1, "rho": -0.25, "m": 0.0, "sigma": 0.5})
        self.assertEqual(out["search"], {"passes": 13, "recentres": 0, "shrinks": 12, "cells": 5733, "faces": 51534, "updates": 1234567})
        self.assertEqual(out["margins"]["rmse_vol"], 0.005)
        self.assertEqual((out["active"], out["capped"]), (["flat slice", "a_max"], [1]))
        self.assertEqual(out["points"][3], {"k": SIX[3][1], "w": SIX[3][2], "fitted": SIX[3][2] - 0.001, "residual": 0.0025})

    def test_refusals(self):
        for text, words in (
            ("read 9 kept 1\nrefused 3 1 5\n", "REFUSED 3: too few quotes: 1 left, 5 needed\n9 records read, 1 kept, 8 retries dropped\n"),
            ("read 2 kept 1\nrefused 3 1 5\n", "REFUSED 3: too few quotes: 1 left, 5 needed\n2 records read, 1 kept, 1 retry dropped\n"),
            ("refused 43 0 0\n", "REFUSED 43: not a house file\nwhy "),
            ("read 8 kept 8\nrefused 44 0 0\n", "REFUSED 44: one number with two contents\n8 records read, 8 kept\nwhy         two records have one quote number, but "),
            ("read 7 kept 7\nsearch 1 0 0 441 28224 987654\nrefused 7 0 0\n", "REFUSED 7: the best curve is on the edge of the search\n7 records read, 7 kept\n"),
            (f"read 7 kept 7\nsearch 1 0 0 441 28224 987654\nrefused 9 {digits(0.0356)} {digits(0.02)}\n", "REFUSED 9: the quotes lie too far from any curve: 3.56 vol points, 2.00 allowed\n"),
            (f"read 7 kept 7\nsearch 1 0 0 441 28224 987654\nrefused 9 7ff8000000000000 {digits(0.02)}\n", "REFUSED 9: the quotes lie too far from any curve: not a number, 2.00 allowed\n"),
        ):
            self.assertTrue(self.read(text).startswith(words), self.read(text))
        for number in (1, 2, 4, 5, 10, 11, 44):
            text = self.read(f"read 7 kept 7\nrefused {number} 0 0\n")
            self.assertTrue(text.startswith(f"REFUSED {number}: "))
            self.assertIn("\nwhat to do  ", text)

    def test_refusals_as_json(self):
        out = self.json("read 9 kept 1\nrefused 3 1 5\n")
        self.assertEqual((out["verdict"], out["number"], out["observed"], out["required"]), ("refused", 3, 1, 5))
        out = self.json(f"read 7 kept 7\nsearch 1 0 0 441 28224 987654\nrefused 9 7ff8000000000000 {digits(0.02)}\n")
        self.assertEqual((out["rmse_vol"], out["max_rmse_vol"], out["search"]["faces"], out["search"]["updates"]), (None, 0.02, 28224, 987654))
        self.assertEqual(self.json("refused 43 0 0\n")["read"], None)
        out = self.json("read 8 kept 8\nrefused 44 0 0\n")
        self.assertEqual((out["number"], out["read"], out["kept"], out["words"]), (44, 8, 8, "one number with two contents"))
        self.assertTrue(out["do"].startswith("find out which of the two is right"))
        out = self.json("read 0 kept 0\nrefused 3 0 18446744073709551615\n")
        self.assertEqual(out["required"], 2**64 - 1)

    def test_floats_come_back_to_the_last_bit(self):
        values = (0.1, 1 / 3, math.pi, 5e-324, 1.7976931348623157e308, -0.0)
        text = "read 0 kept 0\nfit " + " ".join(map(digits, values)) + "\n" + "\n".join(answer_to([]).split("\n")[2:])
        out = self.json(text)
        self.assertEqual(list(map(digits, out["fit"].values())), list(map(digits, values)))

    def test_what_is_not_an_answer(self):
        good = answer_to(SIX)
        for text, why in (
            ("", "line 1: the text ends where 'read' should stand"),
            ("hello\n", "line 1: 'hello' where 'read' should stand"),
            ("read 6 kept 6\n", "line 2: the text ends where 'fit' should stand"),
            ("read six kept 6\n", "line 1: 'six' is not a count"),
            ("read 6 left 6\n", "line 1: 'kept' should stand after the number read"),
            (good.replace("fit 3fd", "fit 3FD"), "line 2: '3FD0000000000000' is not 16 hex digits"),
            (good.replace(" 51534 1234567", " 51534"), "line 3: 'search' has 5 values, wanted are 6"),  # as a program without updates prints it
            (good.replace(" 51534 1234567", " 51534 1234567 0"), "line 3: 'search' has 7 values, wanted are 6"),
            (good.replace(" 1234567", " -1"), "line 3: '-1' is not a count"),
            ("read 7 kept 7\nsearch 1 0 0 441 28224\nrefused 7 0 0\n", "line 2: 'search' has 5 values, wanted are 6"),
            ("read 7 kept 7\nsearch 1 0 0 441 28224 987654 0\nrefused 7 0 0\n", "line 2: 'search' has 7 values, wanted are 6"),
            (good.replace("active 0", "active 2"), "line 5: '2000010' is not seven digits 0 or 1"),
            (good.replace("capped 0", "capped 1"), "line 6: the count of capped quotes and the positions after it differ"),
            (good.replace("capped 0", "capped 1 6"), "line 6: a position that is not below 6"),
            (good[: good.rindex("point")], "line 12: 5 points where 6 quotes were kept"),
            (good + "more\n", "line 13: 'more' after the end of the answer"),
            ("refused 45 0 0\n", "line 1: 45 is not a refusal of the program"),
            ("refused 44 0 0\n", "line 1: a refusal 44 does not stand here"),
            ("read 1 kept 1\nsearch 1 0 0 441 28224 987654\nrefused 44 0 0\n", "line 3: a refusal 44 does not stand here"),
            ("refused 3 1 5\n", "line 1: a refusal 3 does not stand here"),
            ("read 1 kept 1\nrefused 7 0 0\n", "line 2: a refusal 7 does not stand here"),
            ("read 1 kept 1\nrefused 3 1 5\nrefused 3 1 5\n", "line 3: 'refused 3 1 5' after the end of the answer"),
        ):
            with self.subTest(why=why):
                self.assertEqual(self.refused("read", given=text), f"standard input: not an answer of the fit: {why}")
        self.assertEqual(self.refused("read", given=b"read \xff"), "standard input: not text (byte 5 is not UTF-8)")
        self.assertEqual(self.refused("read", "nothere.txt"), "nothere.txt: No such file or directory")
