"""Tables of loggers and records."""

import csv
import io
import random
import unittest

import dowelbrook
from dowelbrook.tables import Table, Unmixing, read_loggers
from dowelbrook.typed import InputError

LOGGERS = "name,m,w0,w1,w2\nnorth,10,1,2,0\nsouth,10,1,0,2\nghost,10,1,1,0\nhigh,10,1,12,0\n"


def unmixed(records, loggers=LOGGERS):
    """The table of counts, and the tally."""
    known = read_loggers(Table(io.StringIO(loggers, newline=""), "loggers"))
    out = io.StringIO(newline="")
    tally = Unmixing(known, Table(io.StringIO(records, newline=""), "records")).run(out.write, lambda _: None)
    return out.getvalue(), tally


def rows(records, loggers=LOGGERS):
    text, _ = unmixed(f"id,logger,r0,r1,r2\n{records}", loggers)
    return list(csv.reader(io.StringIO(text, newline="")))[1:]


class Counting(unittest.TestCase):
    def test_in_order(self):
        text, tally = unmixed("id,logger,r0,r1,r2\n7,north,1,2,5\n8,south,1,0,7\n9,north,0,0,0\n")
        self.assertEqual(
            text,
            "id,logger,refused,count 0,count 1,count 2\n7,north,,1,0,5\n8,south,,1,0,5\n9,north,,0,0,0\n",
        )
        self.assertEqual(tally, (3, 0, 0))

    def test_every_row_is_what_the_library_unmixes(self):
        drawn = random.Random(3)
        patterns = {"a": [1, 2, 0, 4], "b": [2, 3, 0, 0], "c": [4, 3]}
        loggers = "name;m;w;x;y;z\n" + "".join(f"{name};9;{';'.join(map(str, p))}\n" for name, p in patterns.items())
        records = [(name, [drawn.randrange(10) for _ in patterns[name]]) for name in drawn.choices("abc", k=400)]
        text = "id;logger;r;s;t;u\n"
        for at, (name, readings) in enumerate(records):
            blank = " " * drawn.randrange(2)
            text += f"{at};{blank}{name};{';'.join(blank + str(reading) for reading in readings)}\n"
        made = list(csv.reader(io.StringIO(unmixed(text, loggers)[0], newline=""), delimiter=";"))[1:]
        for at, (name, readings) in enumerate(records):
            self.assertEqual((made[at][0], made[at][1].strip(), len(made[at])), (str(at), name, 7))
            try:
                counts = dowelbrook.unmix(patterns[name], readings, 9)
                self.assertEqual(made[at][2:], ["", *map(str, counts), *[""] * (4 - len(counts))])
            except dowelbrook.Refusal as refusal:
                self.assertEqual(made[at][2], f"{refusal}".replace(" is", f" of line {at + 2} is"))
                self.assertEqual(made[at][3:], [""] * 4)

    def test_factor_lists_are_worked_out(self):
        moduli = 2, 12, 30_030, 510_510, 524_288, 999_983, 1_000_000
        loggers = "name,m,w0\n" + "".join(f"n{m},{m},1\n" for m in moduli)
        made = rows("".join(f"1,n{m},1\n" for m in moduli), loggers)
        self.assertEqual(made, [["1", f"n{m}", "", "1"] for m in moduli])

    def test_progress_is_told(self):
        told = []
        known = read_loggers(Table(io.StringIO(LOGGERS), "loggers"))
        records = io.StringIO("id,logger,r0,r1,r2\n" + "1,north,1,2,5\n" * 3000)
        Unmixing(known, Table(records, "records")).run(len, told.append)
        self.assertEqual(told, [1024, 2048])

    def test_a_logger_is_inverted_once(self):
        inverted, calls = [], dowelbrook.logger.inverted
        dowelbrook.logger.inverted = lambda *given: inverted.append(given) or calls(*given)
        try:
            rows("1,north,1,2,5\n" * 50)
        finally:
            dowelbrook.logger.inverted = calls
        self.assertEqual(len(inverted), 4)


class Refused(unittest.TestCase):
    """What a record is refused for stands in its row."""

    def check(self, record, words):
        made = rows(f"1,north,1,2,5\n{record}\n3,north,1,2,5\n")
        self.assertEqual(made[1][2:], [words, "", "", ""])
        self.assertEqual([made[0][3:], made[2][3:]], [["1", "0", "5"]] * 2)

    def test_entries_and_lengths(self):
        self.check("2,north,1,2,12", "refused 6: reading 2 of line 3 is 12, not below the modulus 10")
        self.check("2,north,1,2", "refused 3: line 3 has 2 readings, but logger north has 3 weights")
        self.check("2,north", "refused 3: line 3 has 0 readings, but logger north has 3 weights")

    def test_loggers_that_cannot_be_inverted(self):
        ghost = "refused 9: logger ghost has no inverse modulo 10: it shares a factor with x^3 - 1 modulo the prime 2"
        self.check("2,ghost,1,2,5", ghost)
        self.check("2,high,1,2,5", "refused 6: weight 1 of logger high is 12, not below the modulus 10")

    def test_a_wrong_cell_comes_before_a_refusal(self):
        with self.assertRaisesRegex(InputError, "^records, line 2, column 4 .r1.: 'x' is not a whole number"):
            rows("2,ghost,1,x,5\n")

    def test_a_row_that_needs_a_second_look_is_not_refused(self):
        self.assertEqual(unmixed("id,logger,r0,r1,r2\n1,north ,1,2 ,5\n")[1], (1, 0, 0))

    def test_the_tally_has_the_first_number(self):
        _, tally = unmixed("id,logger,r0,r1,r2\n1,north,1,2,5\n2,ghost,1,2,5\n3,north,1,2,12\n")
        self.assertEqual(tally, (3, 2, 9))


class Unreadable(unittest.TestCase):
    """What is no cell of its column is an error that names line and column."""

    def check(self, words, records, loggers=LOGGERS):
        with self.assertRaises(InputError) as caught:
            unmixed(records, loggers)
        self.assertEqual(str(caught.exception), words)

    def record(self, words, record):
        self.check(f"records, line 3, {words}", f"id,logger,r0,r1,r2\n1,north,1,2,5\n{record}\n2,north,1,2,5\n")

    def test_empty_cells(self):
        self.record("column 4 (r1): the cell is empty", "2,north,1,,5")
        self.record("column 5 (r2): the cell is empty", "2,north,1,2,")
        self.record("column 3 (r0): the cell is empty", "2,north,  ,2,5")
        self.record("column 1 (id): the cell is empty", ",north,1,2,5")
        self.record("column 1 (id): the cell is empty", "  ,north,1,2,5")
        self.record("column 1 (id): the cell is empty", "\t,north,1,2,5")
        self.record("column 2 (logger): the cell is empty", "2,,1,2,5")
        self.record("column 2 (logger): the cell is missing", "2")

    def test_cells_that_are_no_numbers(self):
        for cell in "x", "1.0", "-1", "+1", "1e3", "0x1", "1_0", "\u0663", "nan", "4294967296", "9" * 5000, "1 2":
            self.record(f"column 4 (r1): {cell!r} is not a whole number from 0 to 4294967295", f"2,north,1,{cell},5")

    def test_cells_without_a_heading(self):
        self.record("column 6: there is no heading for this cell", "2,north,1,2,5,7")
        self.check(
            "records, line 2, column 5: there is no heading for this cell",
            "id,logger,r0,r1\n1,north,1,2,5\n",
        )

    def test_unknown_loggers(self):
        self.record("column 2 (logger): there is no logger 'west'", "2,west,1,2,5")
        self.record("column 2 (logger): there is no logger 'n\\xf6rd'", "2,n\udcf6rd,1,2,5")

    def test_quotes_that_do_not_close(self):
        for record in '2,"north,1,2,5', '2,north,1,2,"5"x', '2,"north,1,2,5\n' + "3,north,1,2,5\n" * 20_000:
            with self.assertRaisesRegex(InputError, "^records, line 3: this row cannot be read; is a quote open. [(]"):
                rows(f"1,north,1,2,5\n{record}")

    def test_no_header(self):
        three = "a header line of three columns or more is wanted"
        self.check(f"records, line 1: {three}", "")
        self.check(f"records, line 1: {three}", "id,logger\n")
        self.check(f"loggers, line 1: {three}", "id,logger,r0\n", "")
        names = "a header line is wanted, with a letter in a heading above the numbers"
        for record in "1,north,1,2,5", "1,North,1,2,5", "1,north,1.5,-2,5", "1,north,1,,5", "1,north,1, 2,5":
            self.check(f"records, line 1: {names}", f"{record}\n2,north,1,2,5\n")
        self.check(f"loggers, line 1: {names}", "", "north,10,1,2,0\n")

    def test_a_logger_may_be_named_as_its_column(self):
        self.assertEqual(rows("1,logger,1,2,5\n", LOGGERS.replace("north", "logger"))[0][3:], ["1", "0", "5"])

    def test_tables_of_loggers(self):
        def check(words, rows):
            self.check(f"loggers, line 3, {words}", "id,logger,r0\n", f"name,m,w0,w1,w2\nnorth,10,1,2,0\n{rows}\n")

        check("column 4 (w1): the cell is empty", "south,10,1,,2")
        check("column 2 (m): the cell is empty", "south,,1,2,0")
        check("column 2 (m): 'ten' is not a whole number from 0 to 4294967295", "south,ten,1,2,0")
        check("column 5 (w2): '2.5' is not a whole number from 0 to 4294967295", "south,10,1,2,2.5")
        check("column 1 (name): there are two loggers 'north'", "north,10,1,2,0")
        check("column 6: there is no heading for this cell", "south,10,1,2,0,0")

    def test_text_of_two_bytes_a_letter(self):
        self.check("records, line 1: this is no text in UTF-8", "id,logger,r0\n".encode("utf-16-le").decode("latin-1"))
        self.check("records, line 3: this is no text in UTF-8", "id,logger,r0,r1,r2\n7,north,1,2,5\n7\0,north,1,2,5\n")


class Forms(unittest.TestCase):
    """Delimiters, line ends, quotes."""

    def test_the_first_delimiter_of_tab_semicolon_and_comma(self):
        for between, other in ("\t", ";,"), (";", ","):
            header = between.join([f"id{other}day", "logger", "r0", "r1", "r2"])
            made = unmixed(f"{header}\n{between.join(['7', 'north', '1', '2', '5'])}\n")[0]
            self.assertEqual(made.splitlines()[1], between.join(["7", "north", "", "1", "0", "5"]))

    def test_names_of_loggers_with_blanks_around_them(self):
        made = rows("1,north,1,2,5\n", LOGGERS.replace("north", "north "))
        self.assertEqual(made, [["1", "north", "", "1", "0", "5"]])

    def test_delimiters(self):
        plain = unmixed("id,logger,r0,r1,r2\n7,north,1,2,5\n")[0]
        for delimiter in ";", "\t":
            table = "id,logger,r0,r1,r2\n7,north,1,2,5\n".replace(",", delimiter)
            self.assertEqual(unmixed(table)[0], plain.replace(",", delimiter))
            self.assertEqual(unmixed(table, LOGGERS.replace(",", delimiter))[0], plain.replace(",", delimiter))

    def test_the_delimiter_is_looked_for_outside_quotes(self):
        plain = unmixed("id,logger,r0,r1,r2\n7,north,1,2,5\n")[0]
        self.assertEqual(unmixed('"id; day",logger,r0,r1,r2\n7,north,1,2,5\n')[0], plain.replace("id", "id; day"))

    def test_blanks_before_quotes(self):
        self.assertEqual(rows('7, "north", 1, "2", 5\n')[0], ["7", "north", "", "1", "0", "5"])

    def test_line_ends_and_lines_with_nothing_on_them(self):
        plain = unmixed("id,logger,r0,r1,r2\n7,north,1,2,5\n8,north,1,2,5\n")
        self.assertEqual(unmixed("id,logger,r0,r1,r2\r\n7,north,1,2,5\r\n\r\n8,north,1,2,5\r\n\r\n"), plain)
        self.assertEqual(unmixed("id,logger,r0,r1,r2\n7,north,1,2,5\n8,north,1,2,5"), plain)

    def test_lines_are_counted_past_cells_of_two_lines(self):
        made = rows('"7\n7",north,1,2,5\n\n8,north,1,2,10\n')
        self.assertEqual(made[0][0], "7\n7")
        self.assertEqual(made[1][2], "refused 6: reading 2 of line 5 is 10, not below the modulus 10")

    def test_quoted_cells_come_out_as_they_went_in(self):
        self.assertEqual(rows("07,north,01,002," + "0" * 5000 + "5\n")[0], ["07", "north", "", "1", "0", "5"])
        self.assertEqual(rows(" 7 ,north,1,2,5\n")[0][0], "7 ")
        self.assertIn('\n" 7 ",north,,1', unmixed('id,logger,r0,r1,r2\n" 7 ",north,1,2,5\n')[0])
        for cell in "a\rb", "a,b", 'say "7"', "a\nb", "a\r\nb", "7%d", "caf\u00e9", "\udce9":
            text = io.StringIO(newline="")
            csv.writer(text, quoting=csv.QUOTE_ALL).writerow([cell, "north", 1, 2, 5])
            self.assertEqual(rows(text.getvalue())[0], [cell, "north", "", "1", "0", "5"])
        loggers = LOGGERS.replace("north", '"no, 50%"')
        self.assertEqual(rows('1,"no, 50%",1,2,5\n', loggers)[0][1:], ["no, 50%", "", "1", "0", "5"])


if __name__ == "__main__":
    unittest.main()
