"""Tests of `Format`, over the installed module."""

import copy
import datetime
import pickle
import threading
import unittest

from found import timefd
from timefd import Format, Language

DAY = datetime.date(2026, 11, 23)
WEST = datetime.timezone(-datetime.timedelta(minutes=30))


class Writes(unittest.TestCase):
    def test_in_each_language(self):
        rows = [
            ("[[[day]/[month]", Language.VERSION_1, "[23/11"),
            (r"\[[Day]/[month]", Language.VERSION_2, "[23/11"),
            (r"\[[day]/[month]", Language.VERSION_3, "[23/11"),
            ("[%d/%m", Language.STRFTIME, "[23/11"),
            ("", Language.VERSION_3, ""),
            ("", Language.STRFTIME, ""),
            ("né le [day]", Language.VERSION_3, "né le 23"),
            ("[first [[day]] [[month]]][optional [/[month]]]", Language.VERSION_3, "23/11"),
            ("%F %a", Language.STRFTIME, "2026-11-23 Mon"),
        ]
        for text, language, wanted in rows:
            self.assertEqual(Format(text, language).format(DAY), wanted, text)

    def test_the_longest_text_is_known(self):
        rows = [("[weekday]", Language.VERSION_3, 9), ("%A", Language.STRFTIME, 9), ("é", Language.VERSION_3, 2)]
        rows += [("", Language.VERSION_1, 0), ("[optional [[day]]]", Language.VERSION_3, 2)]
        for text, language, wanted in rows:
            self.assertEqual(Format(text, language).max_bytes, wanted, text)

    def test_a_long_text(self):
        self.assertEqual(Format("é" * 500 + "[day]").format(DAY), "é" * 500 + "23")

    def test_what_is_suspect(self):
        rows = [
            ("[day].[month].[year]", Language.VERSION_3, []),
            ("%Y-%m-%d", Language.VERSION_3, ["no-component", "other-language"]),
            ("[year]", Language.STRFTIME, ["no-component", "other-language"]),
            ("[hour repr:12]", Language.VERSION_2, ["hour-without-period"]),
        ]
        for text, language, wanted in rows:
            self.assertEqual([str(it) for it in Format(text, language).warnings], wanted, text)

    def test_a_component_that_shows_nothing(self):
        with self.assertRaisesRegex(timefd.NothingShown, "^the component `offset_hour` shows nothing: the value has no offset from UTC$"):
            Format("[offset_hour]").format(datetime.time(5))

    def test_several_threads(self):
        written = []
        format = Format("[year]-[month]-[day]")
        threads = [threading.Thread(target=lambda: written.extend(format.format(DAY) for _ in range(100))) for _ in range(4)]
        for it in threads:
            it.start()
        for it in threads:
            it.join()
        self.assertEqual(written, ["2026-11-23"] * 400)


class Reads(unittest.TestCase):
    def test_each_kind_of_value(self):
        rows = [
            ("[day].[month].[year]", "read_date", "23.11.2026", DAY),
            ("[hour]:[minute] [offset_hour]:[offset_minute]", "read_time", "05:00 -00:30", datetime.time(5, tzinfo=WEST)),
            ("[year]-[ordinal] [hour]:[minute]", "read_datetime", "2026-327 05:00", datetime.datetime(2026, 11, 23, 5)),
            ("[unix_timestamp]", "read_datetime", "0", datetime.datetime(1970, 1, 1, tzinfo=datetime.timezone.utc)),
            ("[offset_hour]:[offset_minute]", "read", "-00:30", WEST),
        ]
        for text, call, moment, wanted in rows:
            self.assertEqual(getattr(Format(text), call)(moment), wanted)

    def test_another_kind_of_value(self):
        rows = [
            ("[year]-[ordinal] [hour]:[minute]", "read_date", "2026-327 05:00", "shows a date with a time of day, and not a date$"),
            ("[year]-[ordinal]", "read_datetime", "2026-327", "shows a date, and not a date with a time of day$"),
            ("[hour]:[minute]", "read_date", "05:00", "shows a time of day, and not a date$"),
            ("[offset_hour]", "read_time", "+01", "shows an offset from UTC, and not a time of day$"),
        ]
        for text, call, moment, said in rows:
            with self.assertRaisesRegex(timefd.Error, f"^`{moment.replace('+', '[+]')}` {said}"):
                getattr(Format(text), call)(moment)

    def test_what_does_not_read(self):
        with self.assertRaises(timefd.NotRead):
            Format("[day]").read_date("x")
        with self.assertRaises(timefd.NoMoment):
            Format("%d/%m", Language.STRFTIME).read_date("23/11")


class Objects(unittest.TestCase):
    def test_a_bad_text(self):
        for language in Language:
            with self.assertRaises(timefd.InvalidDescription):
                Format("[mnth] %Q", language)

    def test_what_it_keeps(self):
        format = Format("%d", Language.STRFTIME)
        self.assertEqual((format.text, format.language, repr(format)), ("%d", Language.STRFTIME, "Format('%d', Language.STRFTIME)"))
        self.assertIs(Format("%d", 4).language, Language.STRFTIME)
        self.assertEqual(repr(Format("[day]")), "Format('[day]')")
        self.assertEqual(format.nodes, timefd.parse("%d", Language.STRFTIME))
        with self.assertRaises(AttributeError):
            format.text = "%m"

    def test_equal_ones(self):
        self.assertEqual(Format("x"), Format("x", Language.VERSION_3))
        self.assertEqual(len({Format("x"), Format("x"), Format("x", Language.STRFTIME)}), 2)
        self.assertNotEqual(Format("x"), "x")

    def test_copies(self):
        format = Format("[day]é")
        for it in (copy.copy(format), copy.deepcopy(format), pickle.loads(pickle.dumps(format))):
            self.assertEqual((it, it.format(DAY)), (format, "23é"))


if __name__ == "__main__":
    unittest.main()
