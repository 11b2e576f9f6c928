use std::fmt;

/// Why a call did not do what was asked of it. The numbers are the statuses of the library.
#[derive(Clone, Copy, Debug, PartialEq, Eq, Hash)]
#[non_exhaustive]
pub enum Error {
    /// The input has no byte.
    Empty = 1,
    /// No version from the smallest one on holds the input.
    TooLong = 2,
    /// The input takes more than 16 symbols of the version.
    TooMany = 3,
    /// Memory was refused.
    Memory = 4,
    /// A number is out of its range, settings exclude each other, a module to mend is more than 2, or symbols to draw have several
    /// versions.
    Settings = 5,
    /// There are fewer modules than the square has.
    Room = 6,
    /// No version has the side.
    Side = 7,
    /// The format information is that of no level and mask, or too damaged.
    Format = 8,
    /// A block does not match its error correction codewords, or is too damaged to be mended.
    Check = 9,
    /// The data codewords cannot be parsed.
    Segments = 10,
    /// The text is no drawing of squares that begin as symbols do.
    NoDrawing = 11,
    /// The input is no GS1 data: a byte 1D comes directly before another or before `%`.
    Fields = 12,
}

impl Error {
    const ALL: [Error; 12] = [
        Error::Empty,
        Error::TooLong,
        Error::TooMany,
        Error::Memory,
        Error::Settings,
        Error::Room,
        Error::Side,
        Error::Format,
        Error::Check,
        Error::Segments,
        Error::NoDrawing,
        Error::Fields,
    ];

    /// Returns the error of a status; `None` for 0.
    ///
    /// # Panics
    ///
    /// If the library has no such status.
    pub(crate) fn of_status(status: u8) -> Option<Error> {
        let place = usize::from(status).checked_sub(1)?;
        Some(
            *Error::ALL
                .get(place)
                .unwrap_or_else(|| panic!("libqrproved has no status {status}")),
        )
    }

    /// Returns the number that the library has for it.
    #[must_use]
    pub fn status(self) -> u8 {
        self as u8
    }
}

impl fmt::Display for Error {
    fn fmt(&self, to: &mut fmt::Formatter<'_>) -> fmt::Result {
        to.write_str(match self {
            Error::Empty => "the input has no byte",
            Error::TooLong => "no version holds the input",
            Error::TooMany => "the input takes more than 16 symbols",
            Error::Memory => "memory was refused",
            Error::Settings => {
                "a number is out of range, settings exclude each other, or a byte is no module"
            }
            Error::Room => "there are fewer modules than the square has",
            Error::Side => "no version has this side",
            Error::Format => "the format information cannot be read",
            Error::Check => "a block is damaged",
            Error::Segments => "the data codewords cannot be parsed",
            Error::NoDrawing => "the text is no drawing of symbols",
            Error::Fields => "a byte 1D comes directly before another or before %",
        })
    }
}

impl std::error::Error for Error {}

/// Why [`encode_with_logo`](crate::encode_with_logo) makes no symbol.
#[derive(Clone, Copy, Debug, PartialEq, Eq, Hash)]
#[non_exhaustive]
pub enum LogoError {
    /// The input fits, but no symbol of it may have so large a logo. The number is the side of the largest logo that one may have,
    /// in modules.
    TooLarge(u8),
    /// The input is not encoded for another reason.
    Encode(Error),
}

impl fmt::Display for LogoError {
    fn fmt(&self, to: &mut fmt::Formatter<'_>) -> fmt::Result {
        match self {
            LogoError::TooLarge(0) => to.write_str("no symbol of this input may have a logo"),
            LogoError::TooLarge(side) => write!(
                to,
                "a symbol of this input may have a logo of at most {side} by {side} modules"
            ),
            LogoError::Encode(error) => error.fmt(to),
        }
    }
}

impl std::error::Error for LogoError {}

impl From<Error> for LogoError {
    fn from(error: Error) -> LogoError {
        LogoError::Encode(error)
    }
}

/// Why a number is no [`Version`](crate::Version), or a text no [`Level`](crate::Level). As an [`Error`] it is
/// [`Error::Settings`].
#[derive(Clone, Copy, Debug, PartialEq, Eq, Hash)]
#[non_exhaustive]
pub enum SettingError {
    /// The number is not from 1 to 40.
    Version,
    /// The text is not one of the letters L, M, Q and H.
    Level,
}

impl fmt::Display for SettingError {
    fn fmt(&self, to: &mut fmt::Formatter<'_>) -> fmt::Result {
        to.write_str(match self {
            SettingError::Version => "a version is from 1 to 40",
            SettingError::Level => "a level is L, M, Q or H",
        })
    }
}

impl std::error::Error for SettingError {}

impl From<SettingError> for Error {
    fn from(_: SettingError) -> Error {
        Error::Settings
    }
}

#[cfg(test)]
mod tests {
    use super::Error;

    #[test]
    fn each_error_has_its_status() {
        assert_eq!(Error::of_status(0), None);
        for status in 1..=12 {
            assert_eq!(Error::of_status(status).map(Error::status), Some(status));
        }
    }
}
