"""Tests of errors and of wrong arguments, over the installed module."""

import copy
import datetime
import pathlib
import pickle
import re
import unittest

from found import timefd
from timefd import Format, Language, Name

DAY = datetime.date(2026, 11, 23)


def raised(call, *arguments):
    """The error that a call raises."""
    try:
        call(*arguments)
    except Exception as error:
        return error
    raise AssertionError(f"{call} raised nothing of {arguments}")


class WrongTypes(unittest.TestCase):
    def test_what_is_no_moment(self):
        for moment in (None, "2026-11-23", 1700000000, datetime.timedelta(1), datetime.timezone.utc, DAY.timetuple()):
            for call in (Format("[year]").format, lambda it: timefd.format("[year]", it)):
                self.assertRegex(str(raised(call, moment)), f"^a moment has to be a date, time or datetime .*{type(moment).__name__}")
                self.assertRaises(TypeError, call, moment)

    def test_what_is_no_text(self):
        for text in (b"[year]", None, 5, bytearray(b"x")):
            rows = [(timefd.check, text), (timefd.parse, text), (Format, text), (timefd.format, text, DAY), (timefd.read, text, "x")]
            rows += [(timefd.read, "x", text), (Format("x").read, text), (Format("x").read_date, text)]
            rows += [(timefd.convert, text, Language.VERSION_1, Language.VERSION_2)]
            for call, *arguments in rows:
                self.assertRegex(str(raised(call, *arguments)), f"^a text has to be a str, not <class '{type(text).__name__}'>$")
                self.assertRaises(TypeError, call, *arguments)

    def test_what_is_no_language(self):
        for language in (None, "strftime", 3.0):
            self.assertRaises(TypeError, timefd.check, "x", language)
        for language in (0, 5, -1, 2**32 + 3, 2**64):
            for call in (timefd.check, timefd.parse, Format):
                self.assertRaises((ValueError, OverflowError), call, "x", language)
        for language in (0, 5, -1, 2**32 + 3):
            self.assertEqual(str(raised(timefd.check, "x", language)), f"{language} is no language: take one of timefd.Language")
        self.assertEqual(str(raised(timefd.convert, "x", 1, 7)), "7 is no language: take one of timefd.Language")

    def test_half_a_character(self):
        for call in (timefd.check, lambda it: timefd.read("x", it)):
            self.assertRaises(UnicodeEncodeError, call, "\ud800")


class Characters(unittest.TestCase):
    def test_of_a_fault(self):
        rows = [("né le [mnth]", "mnth"), ("[mnth]", "mnth"), ("😀é[day", "["), ("[hour padding:zreo]é", "zreo"), ("é[", "[")]
        for text, wanted in rows:
            fault = raised(timefd.check, text)
            self.assertEqual(text[slice(*fault.character_span)], wanted)
            self.assertEqual(text.encode()[slice(*fault.span)], wanted.encode())
            self.assertEqual((fault.text, fault.character_index), (text, text.index(wanted)))

    def test_of_what_does_not_read(self):
        error = raised(timefd.read, "é😀[month]", "é😀1x")
        self.assertEqual((error.index, error.character_index, error.moment), (6, 2, "é😀1x"))


class Names(unittest.TestCase):
    def test_names_are_those_in_brackets(self):
        rows = [
            ("[year]", "the component `year` shows nothing: the value has no date"),
            ("[month repr:short]", "the component `month` shows nothing: the value has no date"),
            ("[week_number]", "the component `week_number` shows nothing: the value has no date"),
            ("[unix_timestamp]", "the component `unix_timestamp` shows nothing: the value has no date"),
            ("[offset_hour]", "the component `offset_hour` shows nothing: the value has no offset from UTC"),
        ]
        for text, wanted in rows:
            self.assertEqual(str(raised(timefd.format, text, datetime.time(5))), wanted)
        self.assertEqual(str(raised(timefd.read, "[hour]", "x")), "the component `hour` was expected at byte 0")

    def test_parts_are_named_as_in_c(self):
        header = (pathlib.Path(__file__).resolve().parents[3] / "examples/timefd_names.h")
        if not header.exists():
            self.skipTest("SKIPPED: the words of timefd_names.h, which lies in the repository")
        rows = re.findall(r'case TIMEFD_PART_(\w+): return "(.*)";', header.read_text())
        self.assertEqual([(it.name, it.words) for it in timefd.Part], rows)

    def test_each_name_begins_a_bracket(self):
        more = {"ignore": " count:1"}
        for name in Name:
            (component,) = timefd.parse(f"[{name.in_brackets}{more.get(name.in_brackets, '')}]")
            self.assertEqual(component.name.in_brackets, name.in_brackets)

    def test_a_name_is_a_number(self):
        self.assertIs(Name(24), Name.HOUR_24)
        self.assertEqual((Name.HOUR_24, Name.HOUR_24.value, Name.HOUR_24.in_brackets), (24, 24, "hour"))
        self.assertRaises(ValueError, Name, 38)


class Errors(unittest.TestCase):
    def errors(self):
        yield raised(timefd.check, "é[mnth]")
        yield raised(timefd.format, "[hour]", DAY)
        yield raised(timefd.read, "[hour]", "x")
        yield raised(timefd.read, "[minute]", "05")
        yield raised(timefd.read, "", "")
        yield raised(timefd.read, "[year]-[ordinal]", "-0001-001")
        yield raised(timefd.read, "[year]-[ordinal] [offset_hour]", "2026-001 00")
        yield raised(timefd.read, "[offset_hour]", "+25")
        yield raised(timefd.convert, "x", Language.VERSION_3, Language.STRFTIME)
        yield raised(Format("[hour]:[minute]").read_date, "05:00")

    def test_all_are_of_one_class(self):
        for error in self.errors():
            self.assertIsInstance(error, timefd.Error)
            self.assertIsInstance(error, ValueError)

    def test_copies(self):
        for error in self.errors():
            for it in (copy.copy(error), pickle.loads(pickle.dumps(error))):
                self.assertEqual((type(it), str(it), vars(it)), (type(error), str(error), vars(error)))

    def test_values_that_datetime_has_not(self):
        found = [str(it) for it in self.errors()]
        self.assertEqual(found[4], "nothing of a date was read")
        self.assertEqual(found[5], "the year -1 was read, and datetime has those from 1 to 9999")
        self.assertEqual(found[7], "an offset of +25 hours was read, and datetime has those of less than 24")
        self.assertRegex(found[8], "^no conversion leads from VERSION_3 to STRFTIME: ")

    def test_a_value_of_a_class_of_ones_own(self):
        class Odd(datetime.date):
            month = 300

        self.assertEqual(str(raised(timefd.format, "[month]", Odd(2026, 1, 1))), "the month of the moment is out of its range")

    def test_an_offset_of_half_a_second(self):
        zone = datetime.timezone(datetime.timedelta(seconds=1.5))
        self.assertIsInstance(raised(timefd.format, "[hour]", datetime.time(5, tzinfo=zone)), timefd.Error)


if __name__ == "__main__":
    unittest.main()
