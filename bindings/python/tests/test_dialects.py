"""Formats of other languages. What each means was measured with the real program."""

import pickle
import unittest

import timefd
from timefd import Dialect, Reason

CONVERTED = [
    ("python", "%d.%m. %H:%M", "[day].[month]. [hour]:[minute]", 0, False),
    ("python", "%Y-%m-%d", "[year]-[month]-[day]", 1000, False),
    ("python", "%z", "[offset_hour sign:mandatory][offset_minute]", 0, True),
    ("c", "%-d %b %R", "[day padding:none] [month repr:short] [hour]:[minute]", 0, False),
    ("gnu", "%S.%3N", "[second].[subsecond digits:3]", 0, False),
    ("chrono", "%e%.3f", "[day padding:space].[subsecond digits:3]", 0, False),
    ("jiff", "%j, %I %p", "[ordinal], [hour repr:12] [period]", 0, False),
    ("ruby", "%S.%L", "[second].[subsecond digits:3]", 0, False),
    ("java", "d. 'um' HH", "[day padding:none]. um [hour]", 0, False),
    ("java", "dd.MM.yyyy", "[day].[month].[year]", 1, False),
    ("go", "2 Jan", "[day padding:none] [month repr:short]", 0, False),
    ("moment", "YYYY-MM-DD[T]HH", "[year]-[month]-[day]T[hour]", 0, False),
]

REFUSED = [
    ("python", "%Y %Z", Reason.ZONE_NAME, 3, 3),
    ("python", "%d %Q %Z", Reason.UNKNOWN_DIRECTIVE, 3, 3),
    ("java", "'é' QQ", Reason.QUARTER, 5, 4),
    ("java", "dd 'open", Reason.UNCLOSED_QUOTE, 3, 3),
    ("java", "dd f", Reason.UNKNOWN_LETTER, 3, 3),
]


class Formats(unittest.TestCase):
    def test_each_is_converted(self):
        for dialect, format, *wanted in CONVERTED:
            for it in (dialect, Dialect(dialect)):
                self.assertEqual(timefd.convert_format(it, format), tuple(wanted), (dialect, format))
        self.assertEqual(timefd.convert_format("python", "%d" * 1000).text, "[day]" * 1000)

    def test_each_is_refused(self):
        for dialect, format, reason, index, character_index in REFUSED:
            with self.assertRaises(timefd.FormatRefused) as raised:
                timefd.convert_format(dialect, format)
            error = raised.exception
            self.assertEqual((error.reason, error.index, error.character_index), (reason, index, character_index), format)
            self.assertEqual(str(pickle.loads(pickle.dumps(error))), str(error))

    def test_what_is_told(self):
        with self.assertRaises(timefd.Error) as raised:
            timefd.convert_format("python", "%Y %Z")
        sentence = "it writes the name of a time zone. Write the offset, or the name as a literal."
        self.assertEqual(str(raised.exception), f"at byte 3 of the format: {sentence}")
        self.assertEqual(str(Reason.Z_FOR_UTC), "z-for-utc")

    def test_what_is_no_dialect(self):
        with self.assertRaises(ValueError) as raised:
            timefd.convert_format("perl", "%d")
        names = "python, c, gnu, chrono, jiff, ruby, java, go, moment"
        self.assertEqual(str(raised.exception), f"'perl' is no dialect: take one of {names}")
        self.assertRaises(TypeError, timefd.convert_format, 107, "dd")
        self.assertRaises(TypeError, timefd.convert_format, "java", b"dd")


if __name__ == "__main__":
    unittest.main()
