"""Tests of what no doctest shows, over the installed module:   python -m unittest discover -s bindings/python/tests"""

import dataclasses
import datetime
import doctest
import pathlib
import re
import unittest

from found import timefd
from timefd import Component, Compound, First, Language, Literal, Name, Optional, Padding, TrailingInput
from timefd import calls, formats, library, moments, nodes, warning

HERE = pathlib.Path(__file__).resolve()
# A source archive has the header among the sources.
HEADER = next(it for it in (HERE.parents[1] / "source/timefd.h", HERE.parents[3] / "examples/timefd.h") if it.exists())


def defined(text):
    """Each number that a text of C defines, by its name."""
    return {name: int(number) for name, number in re.findall(r"^#define TIMEFD_(\w+) (\d+)u", text, re.M)}


def load_tests(loader, tests, pattern):
    for module in (timefd, calls, formats, moments, warning):
        tests.addTests(doctest.DocTestSuite(module, extraglobs={"Language": Language, "datetime": datetime}))
    return tests


class Numbers(unittest.TestCase):
    def test_the_numbers_are_those_of_the_header(self):
        numbers = defined(HEADER.read_text())
        ours = {"VERSION": library.VERSION, "FALSE": 1, "TRUE": 2, "ONE_OR_MORE": 10}
        ours |= {f"PADDING_{it.name}": it for it in Padding}
        ours |= {it.name: it for kind in (Language, TrailingInput, nodes._Kind) for it in kind}
        self.assertLessEqual(ours.items(), numbers.items())

    def test_the_components_are_all_of_the_header(self):
        begin, end = "/* The components.", "/* The values of modifiers."
        components = HEADER.read_text().split(begin)[1].split(end)[0]
        self.assertEqual({it.name: it.value for it in Name}, defined(components))

    def test_the_faults_are_all_of_the_header(self):
        faults = {f"FAULT_{it.name}": it.value for it in timefd.FaultKind}
        numbers = defined(HEADER.read_text()).items()
        self.assertEqual(faults, {name: number for name, number in numbers if name.startswith("FAULT_")})

    def test_the_warnings_are_all_of_the_header(self):
        warnings = {f"WARNING_{it.name}": it.value for it in timefd.Warning}
        numbers = defined(HEADER.read_text()).items()
        self.assertEqual(warnings, {name: number for name, number in numbers if name.startswith("WARNING_")})

    def test_the_reasons_and_parts_are_all_of_the_header(self):
        begin, end = "/* Why a part of a date", "/* What is said of a date that is read."
        numbers = defined(HEADER.read_text().split(begin)[1].split(end)[0])
        ours = {it.name: it.value for it in timefd.Unread} | {f"PART_{it.name}": it.value for it in timefd.Part}
        self.assertEqual(ours, numbers)

    def test_the_rows_have_the_fields_of_the_header(self):
        fields = re.findall(r"^TIMEFD_FIELD\(timefd_node, (\w+),", HEADER.read_text(), re.M)
        self.assertEqual([it.name for it in dataclasses.fields(nodes._Row)], fields)


class Formats(unittest.TestCase):
    def test_a_moment_with_an_offset(self):
        zone = datetime.timezone(-datetime.timedelta(minutes=30))
        moment = datetime.datetime(2026, 11, 23, 5, 36, 7, 12345, zone)
        text = "[weekday] [hour]:[minute]:[second].[subsecond digits:6] [offset_hour sign:mandatory]:[offset_minute]"
        self.assertEqual(timefd.format(text, moment), "Monday 05:36:07.012345 -00:30")

    def test_a_component_that_shows_nothing(self):
        with self.assertRaises(timefd.NothingShown) as caught:
            timefd.format("[month] [hour]", datetime.date(2026, 11, 23))
        self.assertEqual(caught.exception.component, Name.HOUR_24)
        self.assertEqual(str(caught.exception), "the component `hour` shows nothing: the value has no time of day")

    def test_a_text_that_is_refused(self):
        with self.assertRaises(timefd.InvalidDescription):
            timefd.format("[mnth]", datetime.date(2026, 11, 23))

    def test_a_long_text(self):
        self.assertEqual(timefd.format("x" * 500, datetime.time()), "x" * 500)


class Dates(unittest.TestCase):
    def test_values(self):
        west = datetime.timezone(-datetime.timedelta(minutes=30))
        rows = [
            ("[year]-[month]-[day]", "2026-11-23", datetime.date(2026, 11, 23)),
            ("[hour]:[minute]:[second].[subsecond]", "05:36:07.0123456", datetime.time(5, 36, 7, 12345)),
            ("[hour]:[minute] [offset_hour]:[offset_minute]", "05:00 -00:30", datetime.time(5, tzinfo=west)),
            ("[offset_hour]:[offset_minute]", "-00:30", west),
            ("[unix_timestamp]", "0", datetime.datetime(1970, 1, 1, tzinfo=datetime.timezone.utc)),
            ("[year]-[ordinal] [hour]:[minute]", "2026-327 05:00", datetime.datetime(2026, 11, 23, 5)),
        ]
        for text, moment, value in rows:
            self.assertEqual(timefd.read(text, moment), value)

    def test_parts_that_do_not_read(self):
        rows = [
            ("é[month]", "é1x", timefd.Unread.READS_NOTHING, Name.MONTH_NUMERICAL, 2),
            ("[day] [day]", "23 24", timefd.Unread.READS_ANOTHER_VALUE, Name.DAY, 3),
            ("[day]/", "23-", timefd.Unread.ANOTHER_TEXT, None, 2),
            ("[day]", "231", timefd.Unread.TEXT_FOLLOWS, None, 2),
        ]
        for text, moment, why, component, index in rows:
            with self.assertRaises(timefd.NotRead) as caught:
                timefd.read(text, moment)
            error = caught.exception
            self.assertEqual((error.why, error.component, error.index), (why, component, index))
        self.assertEqual(str(error), "nothing may follow at byte 2")

    def test_no_moments(self):
        with self.assertRaises(timefd.NoMoment) as caught:
            timefd.read("[month]-[day]", "11-23")
        self.assertEqual((caught.exception.part, caught.exception.is_missing), (timefd.Part.YEAR, True))
        with self.assertRaises(timefd.NoMoment) as caught:
            timefd.read("[weekday] [year]-[month]-[day]", "Tuesday 2026-11-23")
        self.assertEqual(str(caught.exception), "the weekday disagrees with what else was read")

    def test_values_that_datetime_has_not(self):
        for text, moment in (("", ""), ("[year]-[ordinal]", "-0001-001"), ("[year]-[ordinal] [offset_hour]", "2026-001 00")):
            with self.assertRaises(ValueError):
                timefd.read(text, moment)

    def test_a_text_that_is_refused(self):
        with self.assertRaises(timefd.InvalidDescription):
            timefd.read("[mnth]", "11")


class Nodes(unittest.TestCase):
    def test_a_tree(self):
        due, day, rest = timefd.parse("due [day][optional format:false [ at [first [[hour]] [[period]]]]]")
        self.assertEqual(due, Literal("due ", 4))
        self.assertEqual(day, Component(Name.DAY, 2, padding=Padding.ZERO))
        self.assertIsInstance(rest, Optional)
        self.assertFalse(rest.format)
        at, first = rest.member.members
        self.assertEqual(at.text, " at ")
        self.assertIsInstance(first, First)
        self.assertEqual([it.name for it in first.members], [Name.HOUR_24, Name.PERIOD])

    def test_texts_of_no_part_and_of_one(self):
        self.assertEqual(timefd.parse(""), ())
        self.assertEqual([it.name for it in timefd.parse("[day]")], [Name.DAY])
        for language in Language:
            self.assertEqual(timefd.parse("", language), ())
            self.assertEqual(timefd.parse("x", language), (Literal("x", 1),))

    def test_a_specification_that_stands_for_several(self):
        (date,) = timefd.parse("%F", Language.STRFTIME)
        self.assertIsInstance(date, Compound)
        self.assertEqual(len(date.members), 5)

    def test_more_than_the_first_buffers_hold(self):
        text = "[day]ä" * 1000
        found = timefd.parse(text)
        self.assertEqual(len(found), 2000)
        self.assertEqual("".join(it.text for it in found if isinstance(it, Literal)), "ä" * 1000)
        self.assertEqual(timefd.check(text), 4000)

    def test_modifiers(self):
        (second,) = timefd.parse("[subsecond digits:3]")
        self.assertEqual(second.digits, 3)
        (ignore,) = timefd.parse("[ignore count:9]")
        self.assertEqual(ignore.ignored, 9)
        (period,) = timefd.parse("[period case:lower]")
        self.assertIs(period.is_uppercase, False)
        (end,) = timefd.parse("[end trailing_input:discard]")
        self.assertIs(end.trailing_input, TrailingInput.DISCARD)


class Faults(unittest.TestCase):
    def test_each_call_raises_the_fault(self):
        for call in (timefd.check, timefd.parse):
            with self.assertRaises(timefd.InvalidDescription) as raised:
                call("ä [mnth]")
            self.assertEqual(raised.exception.index, 4)
            self.assertEqual(str(raised.exception), "invalid component name `mnth` at byte index 4")
        with self.assertRaises(timefd.InvalidDescription):
            timefd.convert("[mnth]", Language.VERSION_1, Language.VERSION_3)

    def test_a_fault_is_told_whole(self):
        rows = [
            ("ä [mnth]", Language.VERSION_3, timefd.FaultKind.UNKNOWN_NAME, (4, 8), "month"),
            ("[hour padding:zreo]", Language.VERSION_2, timefd.FaultKind.INVALID_MODIFIER, (14, 18), "zero"),
            ("due [day", Language.VERSION_3, timefd.FaultKind.UNCLOSED_BRACKET, (4, 5), None),
            ("%Y %Q", Language.STRFTIME, timefd.FaultKind.UNKNOWN_NAME, (4, 5), None),
        ]
        for text, language, kind, span, nearest in rows:
            with self.assertRaises(timefd.InvalidDescription) as raised:
                timefd.check(text, language)
            fault = raised.exception
            self.assertEqual((fault.kind, fault.span, fault.nearest), (kind, span, nearest))
        self.assertEqual(str(timefd.FaultKind.UNKNOWN_NAME), "unknown-name")

    def test_a_long_sentence(self):
        name = "x" * 5000
        with self.assertRaises(timefd.InvalidDescription) as raised:
            timefd.check(f"[{name}]")
        self.assertIn(name, str(raised.exception))

    def test_languages_that_are_none(self):
        self.assertRaises(ValueError, timefd.check, "x", 5)
        self.assertRaises(ValueError, timefd.convert, "x", Language.VERSION_3, Language.VERSION_2)
        self.assertRaises(ValueError, timefd.convert, "x", Language.VERSION_3, Language.STRFTIME)


class Conversions(unittest.TestCase):
    def test_to_each_later_version(self):
        self.assertEqual(timefd.convert("[[[day]]", Language.VERSION_1, Language.VERSION_2), r"\[[day]\]")
        self.assertEqual(timefd.convert("[[[Day]]", Language.VERSION_1, Language.VERSION_3), r"\[[day]\]")
        self.assertEqual(timefd.convert("x" * 1000, Language.VERSION_2, Language.VERSION_3), "x" * 1000)

    def test_from_strftime(self):
        self.assertEqual(timefd.convert("%d/%m/%y", Language.STRFTIME, Language.VERSION_3), "[day]/[month]/[year repr:last_two]")
        self.assertEqual(timefd.convert("100%%", Language.STRFTIME, Language.VERSION_3), "100%")
        self.assertRaises(timefd.InvalidDescription, timefd.convert, "%Q", Language.STRFTIME, Language.VERSION_3)

    def test_the_normal_form(self):
        for text in ("[optional\n[ [day padding:zero] ]]", "[optional [ [day] ]]"):
            self.assertEqual(timefd.convert(text, Language.VERSION_3, Language.VERSION_3), "[optional [ [day] ]]")


if __name__ == "__main__":
    unittest.main()
