//! Dates and times written by a description that was read.

use alloc::string::String;
use core::error::Error;
use core::fmt;

use crate::description::FormatDescription;
use crate::format::{FormatError, Pattern};
use crate::moment::Moment;

impl FormatDescription<'_> {
    /// Writes the moment. The text of the description isn't read again.
    ///
    /// # Errors
    ///
    /// A number of the moment that is out of its range, the first component that shows nothing of the
    /// moment, or that memory ran out.
    ///
    /// ```
    /// use timefd::{Date, FormatDescription, Moment, Version};
    ///
    /// let description = FormatDescription::parse(Version::Three, "[day].[month].[year]")?;
    /// let day = Moment::from(Date::new(2026, 11, 23)?);
    /// assert_eq!(description.format(&day)?, "23.11.2026");
    /// # Ok::<(), Box<dyn std::error::Error>>(())
    /// ```
    pub fn format(&self, moment: &Moment) -> Result<String, FormatError> {
        self.written(moment)
    }

    /// Writes the moment to a text or a formatter, in one write: nothing of it where the moment
    /// can't be written.
    ///
    /// # Errors
    ///
    /// As those of [`format`](Self::format), or that of the output.
    ///
    /// ```
    /// use timefd::{FormatDescription, Moment, Time, Version};
    ///
    /// let description = FormatDescription::parse(Version::Three, "[hour]:[minute]")?;
    /// let mut text = String::from("at ");
    /// description.write_to(&Moment::from(Time::new(5, 6, 0, 0)?), &mut text)?;
    /// assert_eq!(text, "at 05:06");
    ///
    /// assert!(description.write_to(&Moment::default(), &mut text).is_err());
    /// assert_eq!(text, "at 05:06");
    /// # Ok::<(), Box<dyn std::error::Error>>(())
    /// ```
    pub fn write_to(
        &self,
        moment: &Moment,
        output: &mut (impl fmt::Write + ?Sized),
    ) -> Result<(), WriteError<fmt::Error>> {
        self.write_text(moment, |text| output.write_str(text))
    }

    /// Writes the moment to an output of bytes, in one `write_all`: nothing of it where the moment
    /// can't be written.
    ///
    /// # Errors
    ///
    /// As those of [`format`](Self::format), or that of the output.
    ///
    /// ```
    /// use timefd::{Date, FormatDescription, Language, Moment};
    ///
    /// let day = Moment::from(Date::new(2026, 11, 23)?);
    /// let mut file = Vec::new();
    /// FormatDescription::parse(Language::Strftime, "%F")?.write_to_io(&day, &mut file)?;
    /// assert_eq!(file, b"2026-11-23");
    /// # Ok::<(), Box<dyn std::error::Error>>(())
    /// ```
    #[cfg(feature = "std")]
    pub fn write_to_io(
        &self,
        moment: &Moment,
        output: &mut (impl std::io::Write + ?Sized),
    ) -> Result<(), WriteError<std::io::Error>> {
        self.write_bytes(moment, |bytes| output.write_all(bytes))
    }

    /// What `Display` shows as the moment. Where the moment can't be written that is
    /// [`fmt::Error`], of which `to_string` makes a panic: [`format`](Self::format) says why.
    ///
    /// ```
    /// use timefd::{Date, FormatDescription, Moment, Version};
    ///
    /// let description = FormatDescription::parse(Version::Three, "[day].[month].")?;
    /// let day = Moment::from(Date::new(2026, 11, 23)?);
    /// assert_eq!(format!("until {}", description.show(day)), "until 23.11.");
    /// # Ok::<(), Box<dyn std::error::Error>>(())
    /// ```
    #[must_use = "it writes nothing until it is shown"]
    pub fn show(&self, moment: Moment) -> Shown<'_> {
        Shown { description: self, moment }
    }
}

/// A moment as a description writes it, for `Display`. [`FormatDescription::show`] makes it.
#[derive(Debug, Clone, Copy)]
pub struct Shown<'a> {
    description: &'a FormatDescription<'a>,
    moment: Moment,
}

impl fmt::Display for Shown<'_> {
    fn fmt(&self, f: &mut fmt::Formatter<'_>) -> fmt::Result {
        self.description.write_text(&self.moment, |text| f.pad(text)).map_err(|_| fmt::Error)
    }
}

/// Why a moment is not written to an output.
#[derive(Debug, Clone, PartialEq, Eq)]
#[non_exhaustive]
pub enum WriteError<E> {
    /// The description doesn't write it, and nothing reached the output.
    Format(FormatError),
    /// The output failed.
    Output(E),
}

impl<E> From<FormatError> for WriteError<E> {
    fn from(error: FormatError) -> Self {
        Self::Format(error)
    }
}

impl<E: fmt::Display> fmt::Display for WriteError<E> {
    fn fmt(&self, f: &mut fmt::Formatter<'_>) -> fmt::Result {
        match self {
            Self::Format(error) => error.fmt(f),
            Self::Output(error) => error.fmt(f),
        }
    }
}

/// Its source is that of the error inside, whose sentence is its own.
impl<E: Error> Error for WriteError<E> {
    fn source(&self) -> Option<&(dyn Error + 'static)> {
        match self {
            Self::Format(error) => error.source(),
            Self::Output(error) => error.source(),
        }
    }
}
