"""CSVs that are written anew before they are loaded."""
import os
import unittest

from support import INFO, FakeTest, daq

GIVEN = 'key;price;city;note\n1;"1,5";Oslo;NA\n\n2;;"Ro;me";"two\nlines"\n3;NA;NULL;-\n'


class Rewritten(FakeTest):
    def loaded(self, text=GIVEN, **settings):
        """What the program is given: the CSV and the schema."""
        with open(self.path("my.csv"), "w", encoding="utf-8", newline="") as file:
            file.write(text)
        line = "loaded 3 rows, 3 columns, 8 planes, 195 bytes\n"
        self.scene(load={"made": "new", "out": line, "log": self.path("log"), "copy": self.path("copy")}, info={"out": INFO})
        daq.load(self.path("my.csv"), self.path("my.daq"), **settings)
        with open(self.path("copy"), encoding="utf-8", newline="") as file:
            return file.read(), self.logged()["words"][3]

    def test_columns_nulls_and_delimiters(self):
        text, schema = self.loaded(skip=["key"], null=["NA", "NULL"], delimiter=";")
        self.assertEqual(text, 'price,city,note\n"1,5",Oslo,\n,Ro;me,"two\nlines"\n,,-\n')
        self.assertEqual(schema, "price:text?,city:text?,note:text?")
        self.assertEqual(sorted(os.listdir(self.folder)), ["copy", "daq", "log", "my.csv", "my.daq", "scene"])

    def test_a_schema_of_the_columns_that_are_left(self):
        for text, skip, given, made in (("a,b\n1,x\n", "b", "a:dec2", "a:dec2,b:skip"), ("a,b,c\n1,x,2\n", ["a", "c"], "b:text", "a:skip,b:text,c:skip"),
                                        ("a,b\n1,x\n", "b", None, "a:int,b:skip"), ("a,b\n1,x\n", "b", "a:int,b:int", "a:int,b:skip,b:int")):
            with self.subTest(made):
                self.assertEqual(self.loaded(text, skip=skip, schema=given), (text, made))

    def test_a_name_that_no_schema_takes_is_left_out(self):
        self.assertEqual(self.loaded("a,b:c\n1,x\n", skip="b:c", schema="a:dec2"), ("a\n1\n", "a:dec2"))
        self.assertEqual(self.loaded("a,b,b\n1,x,y\n", skip="b"), ("a\n1\n", "a:int"))

    def test_a_null_of_one_column_is_a_record(self):
        self.assertEqual(self.loaded("a\n1\nNA\n", null="NA"), ('a\n1\n""\n', "a:int?"))

    def test_what_needs_no_change_is_not_copied(self):
        self.loaded("a\n1\n")
        self.assertEqual(self.logged()["words"][1], self.path("my.csv"))

    def test_faults(self):
        for text, settings, kind in (("a,b\n1\n", {"skip": "a", "null": "NA"}, daq.TableError), ("a,b\n1,2\n", {"skip": "c"}, daq.TableError),
                                     ("a\n1\n", {"delimiter": ";;"}, ValueError), ("", {"null": "NA"}, daq.TableError)):
            with self.subTest(text), self.assertRaises(kind):
                self.loaded(text, **settings)
        self.assertNotIn("my.daq", os.listdir(self.folder))
        with self.assertRaises(daq.TableError) as raised:
            self.loaded("a,b\n1,2\n3\n", skip="a", null="NA")
        self.assertEqual(raised.exception.record, 3)


if __name__ == "__main__":
    unittest.main()
