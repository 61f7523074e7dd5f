"""house make: bytes against bytes written out by hand, and every error with its line."""

import math
import random
import struct

import csvquotes
from support import HOUSE, NO_SETTINGS, Case, expiry, records, settings

K_FORM = "number,k,w,weight\n"
VOL_FORM = "number,strike,forward,vol,weight\n"


class Make(Case):
    def make(self, csv, *words):
        return self.house("make", self.put("quotes.csv", csv), *(words or ("--tau", "0.25")))

    def error(self, csv, *words):
        return self.refused("make", self.put("quotes.csv", csv), *(words or ("--tau", "0.25")))

    def test_nine_copies_of_the_rules(self):
        made = self.make(K_FORM + "7,0,0.25,1\n" * 9)
        nine = bytes.fromhex("0700000000000000 0000000000000000 000000000000d03f 000000000000f03f") * 9
        self.assertEqual(made, bytes.fromhex("00000000 01000000 000000000000d03f 09000000") + nine)

    def test_k_and_w(self):
        made = self.make(K_FORM + "1,-0.5,0.04,1\n18446744073709551615,2.5e-1,0,3.5\n")
        self.assertEqual(made, NO_SETTINGS + expiry(0.25) + records((1, -0.5, 0.04, 1.0), (2**64 - 1, 0.25, 0.0, 3.5)))

    def test_strike_forward_vol(self):
        made = self.make(VOL_FORM + "3,110,100,0.2,2\n", "--tau", "0.5")
        self.assertEqual(made, NO_SETTINGS + expiry(0.5) + records((3, math.log(1.1), 0.2 * 0.2 * 0.5, 2.0)))

    def test_columns_in_any_order_with_others_left_out(self):
        self.put("quotes.csv", "weight,venue,w,k,number\n1,XEUR,0.04,0.5,9\n")
        done = self.run_tool(HOUSE, "make", "quotes.csv", "--tau", "1")
        self.assertEqual(done.stdout, NO_SETTINGS + expiry(1.0) + records((9, 0.5, 0.04, 1.0)))
        self.assertEqual(done.stderr, b"house: quotes.csv: left out: venue\n")

    def test_spreadsheet_habits(self):
        plain = NO_SETTINGS + expiry(0.25) + records((1, 0.5, 0.04, 1.0))
        self.assertEqual(self.make("\ufeff" + K_FORM.replace("\n", "\r\n") + "1,0.5,0.04,1\r\n\r\n"), plain)
        self.assertEqual(self.make("Number;K;W;Weight\n1;0.5;0.04;1"), plain)
        self.assertEqual(self.make("number\tk\tw\tweight\n1\t0.5\t0.04\t1\n"), plain)
        self.assertEqual(self.make('# a note\n\n"number", k, w, weight\n"1", 0.5 ,0.04, +1e0\n'), plain)

    def test_settings(self):
        made = self.make(K_FORM, "--tau", "1", "--setting", "grid=9", "--setting", "max_rmse_vol=0.05")
        self.assertEqual(made, settings(grid=9, max_rmse_vol=0.05) + expiry(1.0) + records())
        self.assertEqual(len(made), 4 + 88 + 12 + 4)

    def test_default_settings_are_those_of_the_rules(self):
        made = self.make(K_FORM, "--tau", "1", "--setting", "grid=21")
        self.assertEqual(made, settings() + expiry(1.0) + records())

    def test_256_quotes_and_not_one_more(self):
        rows = [f"{i},{i},0.25,1\n" for i in range(257)]
        self.assertEqual(len(self.make(K_FORM + "".join(rows[:256]))), 20 + 32 * 256)
        self.assertEqual(self.error(K_FORM + "".join(rows)), "quotes.csv line 258: more than 256 quotes; a house file holds at most 256")

    def test_from_standard_input_to_a_file(self):
        self.house("make", "-", "--tau", "0.25", "-o", "day.house", given=K_FORM + "1,0.5,0.04,1\n")
        with open(f"{self.folder}/day.house", "rb") as file:
            self.assertEqual(file.read(), NO_SETTINGS + expiry(0.25) + records((1, 0.5, 0.04, 1.0)))

    def test_unchecked_writes_what_will_be_refused(self):
        made = self.make(K_FORM + "1,nan,-1,0\n", "--tau", "-1", "--unchecked")
        self.assertEqual(made[4:16], expiry(-1.0))
        number, k, w, weight = struct.unpack("<Qddd", made[20:])
        self.assertEqual((number, math.isnan(k), w, weight), (1, True, -1.0, 0.0))

    def test_vol_in_per_cent_is_noted(self):
        self.put("quotes.csv", VOL_FORM + "1,100,100,21.5,1\n")
        done = self.run_tool(HOUSE, "make", "quotes.csv", "--tau", "1")
        self.assertEqual(done.returncode, 0)
        self.assertEqual(done.stderr, b"house: quotes.csv line 2: vol 21.5 means 2150 %; is 0.215 meant?\n")

    def test_errors_name_the_line(self):
        good = "1,100,100,0.2,1\n"
        for row, message in (
            ("2,100,100,abc,1", "line 7: vol 'abc' is not a number"),
            ("2,100,100,,1", "line 7: vol is empty"),
            ("2,100,100,20%,1", "line 7: vol '20%' is not a number: write 0.2 for 20%"),
            ("2,100,100,nan,1", "line 7: vol 'nan' is not a finite number"),
            ("2,100,100,1e999,1", "line 7: vol '1e999' is too large"),
            ("2,100,100,1e200,1", "line 7: vol 1e200 is too large"),
            ("2,100,100,-0.2,1", "line 7: vol -0.2 is below 0"),
            ("2,0,100,0.2,1", "line 7: strike 0 is not above 0"),
            ("2,100,-1,0.2,1", "line 7: forward -1 is not above 0"),
            ("2,1e300,1e-300,0.2,1", "line 7: strike 1e+300 over forward 1e-300 is out of range"),
            ("2,100,100,0.2,0", "line 7: weight 0 is not above 0"),
            ("2,100,100,0.2,1_0", "line 7: weight '1_0' is not a number"),
            ("-2,100,100,0.2,1", "line 7: number '-2' is not a whole number from 0 to 18446744073709551615"),
            ("18446744073709551616,100,100,0.2,1", "line 7: number '18446744073709551616' is not a whole number from 0 to 18446744073709551615"),
            ("2,100,100,0.2", "line 7: 4 columns where the first line has 5"),
            ("2,100,100,0,2,1", "line 7: 6 columns where the first line has 5"),
            ('2,100,100,"0.2,1', "line 7: a quotation mark is not closed"),
        ):
            with self.subTest(row=row):
                self.assertEqual(self.error(VOL_FORM + good * 5 + row + "\n"), "quotes.csv " + message)
        self.assertEqual(self.error(K_FORM + "1,inf,0.2,1\n"), "quotes.csv line 2: k 'inf' is not a finite number")
        self.assertEqual(self.error(K_FORM + "1,0,-0.2,1\n"), "quotes.csv line 2: w -0.2 is below 0")

    def test_one_number_with_two_contents(self):
        """Refused as the fit would, unless unchecked. A copy is a retry, however it is written."""
        rows = "4,0.1,0.04,1\n5,0,0.04,1\n\n# a note\n4,.10,4e-2,1.0\n5,-0,0.04,1\n4,0.1,0.05,1\n"
        self.assertEqual(self.error(K_FORM + rows), "quotes.csv line 7: number 5 stands in line 3 with other values")
        self.assertEqual(self.error(VOL_FORM + "4,100,100,0.2,1\n5,110,100,0.2,1\n4,100,100,0.2,2\n"), "quotes.csv line 4: number 4 stands in line 2 with other values")
        made = self.make(K_FORM + rows, "--tau", "0.25", "--unchecked")
        self.assertEqual(made, NO_SETTINGS + expiry(0.25) + records((4, 0.1, 0.04, 1.0), (5, 0.0, 0.04, 1.0), (4, 0.1, 0.04, 1.0), (5, -0.0, 0.04, 1.0), (4, 0.1, 0.05, 1.0)))
        self.assertEqual(len(self.make(K_FORM + "4,0.1,0.04,1\n5,0.1,0.04,1\n4,0.1,0.04,1\n")), 20 + 32 * 3)

    def test_no_text_makes_it_stumble(self):
        chance = random.Random(1)
        odd = ['"', "'", "\0", "\r", "\n", ",", ";", "\t", "#", "nan", "1e400", "--", "\u00bd", "\u0663", "1__0", "0x10", "\ufeff", "\u2028", "\x1c", "20%", "9" * 30]
        for _ in range(400):
            text = chance.choice((K_FORM + "1,0.1,0.04,1\n", VOL_FORM + "1,100,100,0.2,1\n2,110,100,0.21,1\n"))
            for _ in range(chance.randrange(1, 4)):
                at = chance.randrange(len(text) + 1)
                text = text[:at] + chance.choice(odd) + text[at + chance.choice((0, 0, 1, 3)) :]
            try:
                csvquotes.read(text, "quotes.csv", 0.25, chance.random() < 0.3)
            except csvquotes.BadInput as error:
                self.assertTrue(str(error).isprintable(), repr(str(error)))

    def test_wrong_columns(self):
        self.assertEqual(self.error("1,0,0.25,1\n"), "quotes.csv line 1: the first line must name the columns: number, k, w, weight; or number, strike, forward, vol, weight")
        self.assertEqual(self.error("number,k,weight\n"), "quotes.csv line 1: no column w; wanted are number, k, w, weight")
        self.assertEqual(self.error("number,strike,vol\n"), "quotes.csv line 1: no column forward and no column weight; wanted are number, strike, forward, vol, weight")
        self.assertEqual(self.error("number,k,k,w,weight\n"), "quotes.csv line 1: column k stands there twice")
        self.assertTrue(self.error("").startswith("quotes.csv: empty; "))
        self.assertEqual(self.error(b"number,k\xff\n"), "quotes.csv: not text (byte 8 is not UTF-8)")

    def test_wrong_words(self):
        self.assertEqual(self.error(K_FORM, "--tau", "soon"), "--tau 'soon' is not a number")
        self.assertEqual(self.error(K_FORM, "--tau", "0"), "--tau 0 is not above 0")
        self.assertEqual(self.error(K_FORM, "--tau", "nan"), "--tau 'nan' is not a finite number")
        self.assertTrue(self.error(K_FORM, "--tau", "1", "--setting", "size=3").startswith("--setting 'size=3': write NAME=VALUE with one of grid, "))
        self.assertTrue(self.error(K_FORM, "--tau", "1", "--setting", "grid").startswith("--setting 'grid': write NAME=VALUE"))
        self.assertTrue(self.error(K_FORM, "--tau", "1", "--setting", "grid=9.5").startswith("--setting grid '9.5' is not a whole number"))
        self.assertEqual(self.refused("make", "nothere.csv", "--tau", "1"), "nothere.csv: No such file or directory")
        self.assertEqual(self.refused("make", ".", "--tau", "1"), ".: Is a directory")
        self.assertTrue(self.refused("make", "quotes.csv").startswith("the following arguments are required: --tau"))
        self.assertTrue(self.refused("mend").startswith("argument COMMAND: invalid choice: 'mend'"))
