//! The formats of standards, beside what Python writes of the same moments.

use timefd::Moment;
use timefd::presets::{
    ISO_8601_DATE, ISO_8601_DATE_TIME, ISO_8601_ORDINAL_DATE, ISO_8601_TIME, ISO_8601_WEEK_DATE,
    Preset, RFC_2822, RFC_3339,
};

/// A moment as Python's `isoformat`, `email.utils.format_datetime`, `strftime` and `isocalendar`
/// write it.
struct Row {
    rfc_3339: &'static str,
    rfc_2822: &'static str,
    ordinal: &'static str,
    week: &'static str,
}

const ROWS: &[Row] = &[
    Row {
        rfc_3339: "2026-11-23T05:06:07+01:00",
        rfc_2822: "Mon, 23 Nov 2026 05:06:07 +0100",
        ordinal: "2026-327",
        week: "2026-W48-1",
    },
    Row {
        rfc_3339: "2026-01-01T23:59:59-03:30",
        rfc_2822: "Thu, 01 Jan 2026 23:59:59 -0330",
        ordinal: "2026-001",
        week: "2026-W01-4",
    },
    Row {
        rfc_3339: "2021-01-03T00:00:00+00:00",
        rfc_2822: "Sun, 03 Jan 2021 00:00:00 +0000",
        ordinal: "2021-003",
        week: "2020-W53-7",
    },
];

#[test]
fn moments_are_written_and_read() {
    for row in ROWS {
        let moment: Moment = row.rfc_3339.parse().expect(row.rfc_3339);
        let (date, time) = (moment.date.map(Moment::from), moment.time.map(Moment::from));
        let local = Moment { offset_seconds: None, ..moment };
        let presets: [(Preset, &str, Option<Moment>); 7] = [
            (RFC_3339, row.rfc_3339, Some(moment)),
            (RFC_2822, row.rfc_2822, Some(moment)),
            (ISO_8601_DATE, &row.rfc_3339[..10], date),
            (ISO_8601_ORDINAL_DATE, row.ordinal, date),
            (ISO_8601_WEEK_DATE, row.week, date),
            (ISO_8601_TIME, &row.rfc_3339[11..19], time),
            (ISO_8601_DATE_TIME, &row.rfc_3339[..19], Some(local)),
        ];
        for (preset, text, shown) in presets {
            assert_eq!(preset.format(&moment).as_deref(), Ok(text), "{preset:?}");
            assert_eq!(preset.read(text).ok(), shown, "{text}");
        }
    }
}

/// Other texts that presets read, and what they are by RFC 3339.
const OTHERS: &[(Preset, &str, &str)] = &[
    (RFC_3339, "2026-11-23T05:06:07.5+01:00", "2026-11-23T05:06:07.5+01:00"),
    (RFC_2822, "23 Nov 2026 05:06 +0100", "2026-11-23T05:06:00+01:00"),
    (RFC_2822, "Sun, 1 Nov 2026 05:06:07 -0000", "2026-11-01T05:06:07+00:00"),
    (ISO_8601_DATE_TIME, "2026-11-23T05:06:07.000000001", "2026-11-23T05:06:07.000000001"),
];

#[test]
fn other_texts_are_read() {
    for (preset, text, expected) in OTHERS {
        assert_eq!(preset.read(text), Ok(expected.parse().expect(expected)), "{text}");
    }
    assert!(RFC_3339.read("2026-11-23T04:06:07Z").is_err(), "its offset would be lost");
    assert!(RFC_2822.read("Tue, 23 Nov 2026 05:06:07 +0100").is_err(), "it is a Monday");
}
