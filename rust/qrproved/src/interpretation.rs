use crate::{c, Content, Error};
use std::fmt;

/// What a symbol says of its bytes.
#[derive(Clone, Copy, Debug, Default, PartialEq, Eq, Hash)]
#[non_exhaustive]
pub enum Interpretation {
    /// Nothing.
    #[default]
    Default,
    /// By an ECI header with this number, from 0 to 999,999, which characters they are: 26 is UTF-8, 20 is Shift JIS, 3 is
    /// ISO/IEC 8859-1.
    Eci(u32),
    /// That they are GS1 data: fields with their application identifiers. The byte 1D separates a field of no predefined length
    /// from the next one.
    Gs1,
}

impl Interpretation {
    /// Returns how the UTF-8 of a text is interpreted: by ECI 26, unless the text is ASCII.
    #[must_use]
    pub fn of_text(text: &str) -> Interpretation {
        if text.is_ascii() {
            Interpretation::Default
        } else {
            Interpretation::Eci(UTF_8)
        }
    }

    /// Returns the number that C has for it.
    pub(crate) fn number(self) -> Result<c::Setting, Error> {
        match self {
            Interpretation::Default => Ok(c::INTERPRETATION_DEFAULT),
            Interpretation::Eci(number) if number < c::INTERPRETATION_DEFAULT => Ok(number),
            Interpretation::Eci(_) => Err(Error::Settings),
            Interpretation::Gs1 => Ok(c::INTERPRETATION_GS1),
        }
    }
}

/// An ECI header (Extended Channel Interpretation): from a byte of the data on, the bytes have this ECI.
#[derive(Clone, Copy, Debug, PartialEq, Eq, Hash)]
pub struct Eci {
    /// The number of bytes before it.
    pub begin: usize,
    /// From 0 to 999,999: 26 is UTF-8, 20 is Shift JIS, 3 is ISO/IEC 8859-1.
    pub number: u32,
}

/// The position of FNC1, which says what the data are. In both the byte 1D separates fields.
#[derive(Clone, Copy, Debug, PartialEq, Eq, Hash)]
pub enum Fnc1 {
    /// In first position: GS1 data.
    Gs1,
    /// In second position: data of the application with this indicator, a number from 0 to 99, or the ASCII code of a letter
    /// plus 100.
    Application(u8),
}

/// Why data are no text.
#[derive(Clone, Copy, Debug, PartialEq, Eq, Hash)]
#[non_exhaustive]
pub enum TextError {
    /// This crate does not read the characters of this ECI, but those of UTF-8 (26), ISO/IEC 8859-1 (1 and 3) and ASCII
    /// (27).
    Eci(u32),
    /// Some bytes are no characters of their ECI, or of UTF-8 if they have none.
    Characters(Option<u32>),
}

impl fmt::Display for TextError {
    fn fmt(&self, to: &mut fmt::Formatter<'_>) -> fmt::Result {
        match self {
            TextError::Eci(number) => write!(to, "the characters of ECI {number} are not read"),
            TextError::Characters(None) => to.write_str("the data are no UTF-8"),
            TextError::Characters(Some(number)) => {
                write!(to, "the data are no characters of ECI {number}")
            }
        }
    }
}

impl std::error::Error for TextError {}

impl Content {
    /// Returns the data as text, each byte by the ECI in effect, and by UTF-8 where there is none. ECI headers past the
    /// end of the data have no effect. A symbol of a series may begin or end within a character.
    ///
    /// If `kanji` is true, there is no ECI header and the data are no GS1 data, all bytes are Shift JIS, whose ECI is 20.
    ///
    /// # Errors
    ///
    /// [`TextError::Eci`] for an ECI other than 1, 3, 26 and 27, and with the number 20 for data of kanji mode;
    /// [`TextError::Characters`] for bytes that are no characters.
    pub fn text(&self) -> Result<String, TextError> {
        let is_shift_jis = self.kanji && self.ecis.is_empty() && self.fnc1 != Some(Fnc1::Gs1);
        if is_shift_jis && !self.data.is_empty() {
            return characters(Some(SHIFT_JIS), &self.data);
        }
        self.stretches()
            .filter(|(_, part)| !part.is_empty())
            .map(|(number, part)| characters(number, part))
            .collect()
    }

    /// Returns the data in parts, which the byte 1D separates. In GS1 data each begins with an application identifier; after a
    /// value of predefined length another follows without a separator, and this crate has no table to tell them apart.
    pub fn elements(&self) -> impl Iterator<Item = &[u8]> {
        self.data.split(|&byte| byte == SEPARATOR)
    }

    /// Returns the ECI in effect with the bytes, for each stretch that no ECI header divides. Since a caller can change
    /// the fields, a header may be past the end of the data, or its begin less than that of the header before it.
    fn stretches(&self) -> impl Iterator<Item = (Option<u32>, &[u8])> {
        let begins = std::iter::once(0).chain(self.ecis.iter().map(|it| it.begin));
        let ends = self.ecis.iter().map(|it| it.begin);
        let numbers = std::iter::once(None).chain(self.ecis.iter().map(|it| Some(it.number)));
        begins
            .zip(ends.chain(std::iter::once(self.data.len())))
            .zip(numbers)
            .map(|((begin, end), number)| {
                let end = end.min(self.data.len());
                (number, &self.data[begin.min(end)..end])
            })
    }
}

/// The byte that separates fields.
const SEPARATOR: u8 = 0x1D;
/// The ECI of UTF-8.
const UTF_8: u32 = 26;
/// The ECI of Shift JIS.
const SHIFT_JIS: u32 = 20;

/// Returns the characters of bytes that have this ECI, or none.
fn characters(number: Option<u32>, data: &[u8]) -> Result<String, TextError> {
    let is_right = match number {
        None | Some(UTF_8) => true,
        Some(1 | 3) => return Ok(data.iter().copied().map(char::from).collect()),
        Some(27) => data.is_ascii(),
        Some(other) => return Err(TextError::Eci(other)),
    };
    std::str::from_utf8(data)
        .ok()
        .filter(|_| is_right)
        .map(str::to_owned)
        .ok_or(TextError::Characters(number))
}
