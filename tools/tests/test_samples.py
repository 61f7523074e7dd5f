"""samples/: the files are what their CSV files make, and the program answers as samples/README.md says."""

import math
import os
import random
import re
import struct
import subprocess
import unittest

import answer as answers
import housefile
import marks
from machine import PROGRAM
from support import SAMPLES, Case, expiry, records, settings

TABLE = re.compile(r"\| `([a-z-]+\.house)` \| .* \| (fitted|refused (\d+)) \|")


def told():
    """What samples/README.md says of each file: 0 for fitted, else the refusal."""
    with open(os.path.join(SAMPLES, "README.md"), encoding="utf-8") as file:
        return {m.group(1): int(m.group(3) or 0) for m in map(TABLE.match, file) if m}


def content(name):
    with open(os.path.join(SAMPLES, name), "rb") as file:
        return file.read()


def sent_again(chance, quote):
    """A retry of a quote, a second quote that says the same, or its number with another content."""
    again = list(quote)
    how = chance.choice(("retry", "retry", "second", "clash"))
    if how == "second":
        again[0] = chance.choice((0, 100, 101, 2**64 - 1))
    if how == "clash":
        again[chance.randrange(1, 4)] = chance.choice((0.0, -0.0, -0.1, 0.04, 0.05))
    return again


class Samples(Case):
    def test_made_again_they_are_the_same_bytes(self):
        done = self.run_tool(os.path.join(SAMPLES, "make"), "--check")
        self.assertEqual((done.returncode, done.stdout), (0, b"samples: the same bytes\n"), done)

    def test_each_has_a_line(self):
        self.assertEqual(sorted(told()), sorted(name for name in os.listdir(SAMPLES) if name.endswith(".house")))

    def test_nine_copies_by_hand(self):
        self.assertEqual(content("too-few.house"), struct.pack("<I", 0) + expiry(0.25) + records(*[(7, 0.0, 0.25, 1.0)] * 9))
        self.assertEqual(content("malformed.house"), content("smile.house")[:-8])

    def test_the_dealer_before_and_after(self):
        nine, once = content("dealer.house")[20:], content("dealer-once.house")[20:]
        stale = once[96:128]
        self.assertEqual(nine, once[:96] + stale * 9 + once[128:])

    def test_two_dealers_and_a_clash(self):
        dealers, clash = (housefile.decode(content(name)).quotes for name in ("two-dealers.house", "clash.house"))
        self.assertEqual((dealers[3].number, dealers[4].number), (904, 951))
        self.assertEqual(content("two-dealers.house")[20 + 32 * 3 + 8 : 20 + 32 * 4], content("two-dealers.house")[20 + 32 * 4 + 8 : 20 + 32 * 5])
        self.assertEqual((clash[3].number, clash[3].k, clash[3].weight), (clash[7].number, clash[7].k, clash[7].weight))
        self.assertNotEqual(clash[3].w, clash[7].w)


@unittest.skipUnless(os.access(PROGRAM, os.X_OK), "the program is not built (./fit builds it)")
class Answers(Case):
    def answer_to(self, data):
        return subprocess.run([PROGRAM], input=data, capture_output=True, check=True, timeout=60).stdout.decode()

    def answer(self, name):
        return self.answer_to(content(name))

    def test_verdicts(self):
        for name, number in told().items():
            last = self.answer(name).strip().split("\n")[-1].split(" ")
            self.assertEqual(int(last[1]) if last[0] == "refused" else 0, number, name)

    def test_the_printed_example_of_the_rules(self):
        self.assertEqual(self.answer("too-few.house"), "read 9 kept 1\nrefused 3 1 5\n")

    def test_nine_copies_change_nothing(self):
        nine, once = self.answer("dealer.house").split("\n", 1), self.answer("dealer-once.house").split("\n", 1)
        self.assertEqual((nine[0], once[0]), ("read 15 kept 7", "read 7 kept 7"))
        self.assertEqual(nine[1], once[1])

    def test_two_dealers_both_count(self):
        """One quote more, at one spot: the curve is another than without it."""
        two, data = self.answer("two-dealers.house").split("\n"), content("two-dealers.house")
        one = self.answer_to(data[:16] + struct.pack("<I", 7) + data[20 : 20 + 32 * 4] + data[20 + 32 * 5 :]).split("\n")
        self.assertEqual((two[0], one[0]), ("read 8 kept 8", "read 7 kept 7"))
        self.assertEqual(two[1].split(" ")[0], "fit")
        self.assertNotEqual(two[1], one[1])

    def test_a_clash_is_refused_before_anything_is_dropped(self):
        data = content("clash.house")
        self.assertEqual(self.answer_to(data), "read 8 kept 8\nrefused 44 0 0\n")
        self.assertEqual(self.answer_to(data[:16] + struct.pack("<I", 9) + data[20:] + data[-32:]), "read 9 kept 9\nrefused 44 0 0\n")

    def test_show_foretells_the_program(self):
        """What house show says of retries, second quotes, clashes, capped weights and certain refusals is what the program answers."""
        chance = random.Random(3)
        odd = [0.0, -0.0, -0.1, 5e-324, 0.04, 1e300, math.inf, math.nan]
        seen = set()
        for _ in range(80):
            quotes = [[i, i / 10, 0.04 + i / 100, 1.0] for i in range(chance.choice((4, 6, 6, 6)))]
            for _ in range(chance.choice((0, 0, 1, 4))):
                chance.choice(quotes)[chance.randrange(1, 4)] = chance.choice(odd)
            for _ in range(chance.choice((0, 1, 3))):
                quotes.append(sent_again(chance, chance.choice(quotes)))
            given = settings(**chance.choice(({}, {"grid": 9}, {"grid": 4}, {"grid": 256}, {"a_min": -1.0}, {"min_observations": 6})))
            data = given + expiry(chance.choice((0.25, 0.25, 0.25, math.nan))) + records(*quotes)
            house, answer = housefile.decode(data), answers.parse(self.answer_to(data))
            foretold, kept = marks.early(house), housefile.kept(house.quotes)
            self.assertEqual(foretold and foretold[0], answer.number if answer.number in (1, 2, 3, 4, 5, 10, 11, 44) else None, data)
            self.assertEqual(answer.kept, len(quotes if answer.number in (10, 11, 44) else kept), data)
            if answer.number == 0:
                self.assertEqual([i for i, place in enumerate(kept) if house.quotes[place].weight > marks.cap_of(house, kept)], answer.capped)
            found = {"retry": housefile.retries(house.quotes), "second": marks.seconds(house), "clash": housefile.clashes(house.quotes)}
            seen.update((foretold and foretold[0], what) for what, places in found.items() if places)
        self.assertLessEqual({(None, "retry"), (None, "second"), (11, "clash"), (10, "clash"), (44, "clash"), (44, "retry")}, seen)

    def test_pictures_of_all(self):
        for name in told():
            text = self.house("plot", os.path.join(SAMPLES, name), "--fit", PROGRAM).decode()
            self.assertIn("<title>" + name, text)
