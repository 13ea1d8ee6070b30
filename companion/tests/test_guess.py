"""Guessed schemas, and what would be refused."""
import os
import tempfile
import unittest

from support import TOP, daq

from daq.guess import Guesses, guess_schema, records_of

SCHEMAS = (
    ("a\n1\n2\n", "a:int"), ("a,b\n1.50,\n2,x\n", "a:dec1,b:text?"), ("a\n2024-02-29\n2024-02-30\n", "a:text"), ("a\n0001-01-01\n", "a:date"),
    ("a,b\n,\n,1\n", "a:text?,b:int?"), ("a\n+.5\n-1.\n.\n", "a:text"), ("a\n1.0000000001\n", "a:text"), ("a\n9223372036854775807\n", "a:int"),
    ("a\n9223372036854775808\n", "a:text"), ("a\n922337203685477580.71\n", "a:text"), ('a,b\n"1,5",2\n\n3,4\n', "a:text,b:int"),
    ("a\n00012\n1" + "0" * 60 + "\n", "a:text"), ("a\n\u0663\n", "a:text"), ("\ufeffa\n1.10\n-2.00\n", "a:dec1"), ("a\n" + "9" * 5000 + "\n", "a:skip"),
    ("a,b\n1,2024-02-29\nNA,NULL\n", "a:text,b:text"), ("a\nNA\n", "a:text"), ("a\n007\n", "a:int"))
EXAMPLES = {
    "clocks": "area:text,city:text,day:date,ahead:int,step:int", "gaps": "v:int?,w:int?", "p": "price:int", "shop": "price:int,qty:int,city:text",
    "packages": "package:text,section:text,priority:text,kib:int,source:text?",
    "zones": "country:text,area:text,zone:text,latitude:dec4,longitude:dec4,part:text?"}


class Schemas(unittest.TestCase):
    def written(self, text):
        with tempfile.NamedTemporaryFile("w", suffix=".csv", encoding="utf-8", newline="", delete=False) as file:
            file.write(text)
        self.addCleanup(os.remove, file.name)
        return file.name

    def guesses(self, text):
        return Guesses(records_of(self.written(text)))

    def test_the_narrowest_type_that_all_fields_have(self):
        for text, schema in SCHEMAS:
            with self.subTest(text[:40]):
                self.assertEqual(guess_schema(self.written(text)), schema)
        for name, schema in EXAMPLES.items():
            with self.subTest(name):
                self.assertEqual(guess_schema(TOP / "examples" / (name + ".csv")), schema)

    def test_what_would_be_refused(self):
        long = "a\n" + "x" * 256 + "\n"
        for text, number, told in ((long, 1, "at least one"), ("a:b\n1\n", 1, "a name has"), ("a,a\n1,2\n", 2, "has this name"),
                                   (",".join("c%d" % place for place in range(65)) + "\n", 65, "at most 64")):
            with self.subTest(text[:20]):
                (found, why), = self.guesses(text).refusals()
                self.assertEqual(found, number)
                self.assertIn(told, why)
        self.assertEqual(self.guesses("a\n" + "\u20ac" * 85 + "\n").refusals(), [])

    def test_what_is_skipped(self):
        many = "a,b\n" + "".join("%d,x%d\n" % (number, number) for number in range(65_537))
        for text, schema, told in ((many, "a:int,b:skip", "more than 65,536"), ("b,a\n1," + "x" * 256 + "\n", "b:int,a:skip", "more than 255 bytes")):
            with self.subTest(text[:20]):
                guesses = self.guesses(text)
                (found, why), = guesses.skipped()
                self.assertEqual((guesses.schema, found, guesses.refusals()), (schema, 2, []))
                self.assertIn(told, why)
        asked = Guesses([["a", "b"], ["1", "NA"], ["2", "3"]], ["b"])
        self.assertEqual((asked.schema, asked.advice(), asked.skipped()), ("a:int,b:skip", [], []))

    def test_advice(self):
        for text, told in (("a\n1\nNA\n", "load --null NA gives it the type int?"),
                           ("a\n2024-02-29\nNULL\n-\n", "all but - and NULL is date"), ("a\n1.0000000001\n", "10 decimals"),
                           ("a\n007\n", "zeros in front")):
            with self.subTest(text):
                (number, why), = self.guesses(text).advice()
                self.assertEqual(number, 1)
                self.assertIn(told, why)
        self.assertEqual(self.guesses("a,b\n1,x\nNA,NA\nz,y\n").advice(), [])

    def test_names_that_no_schema_takes(self):
        for text in ("a:b\n1\n", 'a,"b,c"\n1,2\n', "pr\u00e4is\n1\n", '"a""b"\n1\n', ",a\n1,2\n", "a,a\n1,2\n", "", "a" * 65 + "\n1\n"):
            with self.subTest(text[:20]), self.assertRaises(daq.TableError):
                guess_schema(self.written(text))

    def test_files_that_cannot_be_read(self):
        with self.assertRaises(daq.FileError):
            guess_schema("/nowhere/my.csv")
        with tempfile.NamedTemporaryFile(suffix=".csv") as file:
            file.write(b"a\n\xff\n")
            file.flush()
            with self.assertRaises(daq.TableError):
                guess_schema(file.name)


if __name__ == "__main__":
    unittest.main()
