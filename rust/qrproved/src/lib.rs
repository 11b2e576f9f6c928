//! QR Code symbols (ISO/IEC 18004:2015, QR Code Model 2) by the library `libqrproved`, whose calls are proved to meet their
//! contracts. This crate is not proved: it passes what it is given, and takes what comes back.
//!
//! ```
//! use qrproved::{draw, encode, mend, Drawing, Level, Options, Version};
//!
//! let symbol = encode(b"Shelf 12", Version::MIN, Level::M, &Options::default())?;
//! assert_eq!((symbol.version(), symbol.side()), (Version::MIN, 21));
//! assert!(symbol.is_dark(0, 0)); // the corner of a finder pattern
//!
//! let document = draw(&[symbol.clone()], Drawing::Svg, 4)?;
//! assert!(document.starts_with(b"<?xml"));
//!
//! let mended = mend(symbol.modules(), symbol.side())?;
//! assert_eq!(mended.content.data, b"Shelf 12");
//! assert!(mended.is_sound());
//! # Ok::<(), qrproved::Error>(())
//! ```
//!
//! Modules are bytes, row by row from the top left, 1 for a dark module and 0 for a light one, without the quiet zone of four
//! light modules that a drawing needs on each side.
//!
//! Calls may be made from any number of threads at once.
//!
//! # Panics
//!
//! Each function that calls the library panics if the linked library has another version than this crate, since its
//! calls may then take other arguments.

mod c;
mod error;
mod interpretation;

pub use error::{Error, LogoError, SettingError};
pub use interpretation::{Eci, Fnc1, Interpretation, TextError};

use std::fmt;
use std::str::FromStr;

/// A version of symbols, from 1 to 40: a symbol of version v has 17 + 4v modules on a side.
#[derive(Clone, Copy, Debug, PartialEq, Eq, PartialOrd, Ord, Hash)]
pub struct Version(u8);

impl Version {
    /// Version 1, of 21 modules on a side.
    pub const MIN: Version = Version(1);
    /// Version 40, of 177 modules on a side.
    pub const MAX: Version = Version(40);

    /// Returns the version of a number, or `None` if it is not from 1 to 40.
    #[must_use]
    pub fn new(number: u8) -> Option<Version> {
        (1..=40).contains(&number).then_some(Version(number))
    }

    /// Returns the number, from 1 to 40.
    #[must_use]
    pub fn number(self) -> u8 {
        self.0
    }

    /// Returns the modules on a side: 17 + 4 times the number.
    #[must_use]
    pub fn side(self) -> usize {
        17 + 4 * usize::from(self.0)
    }
}

/// As [`Version::new`], with an error.
///
/// ```
/// use qrproved::{SettingError, Version};
///
/// assert_eq!(Version::try_from(40), Ok(Version::MAX));
/// assert_eq!(Version::try_from(41), Err(SettingError::Version));
/// ```
impl TryFrom<u8> for Version {
    type Error = SettingError;

    fn try_from(number: u8) -> Result<Version, SettingError> {
        Version::new(number).ok_or(SettingError::Version)
    }
}

impl fmt::Display for Version {
    fn fmt(&self, to: &mut fmt::Formatter<'_>) -> fmt::Result {
        self.0.fmt(to)
    }
}

/// How much of a damaged symbol can be restored: about 7, 15, 25 or 30 % of the codewords.
#[derive(Clone, Copy, Debug, PartialEq, Eq, PartialOrd, Ord, Hash)]
pub enum Level {
    /// About 7 %.
    L,
    /// About 15 %.
    M,
    /// About 25 %.
    Q,
    /// About 30 %.
    H,
}

impl Level {
    const ALL: [Level; 4] = [Level::L, Level::M, Level::Q, Level::H];
}

/// Takes the letter of a level, capital or small.
///
/// ```
/// use qrproved::{Level, SettingError};
///
/// assert_eq!(("Q".parse(), "h".parse()), (Ok(Level::Q), Ok(Level::H)));
/// assert_eq!("LM".parse::<Level>(), Err(SettingError::Level));
/// ```
impl FromStr for Level {
    type Err = SettingError;

    fn from_str(text: &str) -> Result<Level, SettingError> {
        match text {
            "L" | "l" => Ok(Level::L),
            "M" | "m" => Ok(Level::M),
            "Q" | "q" => Ok(Level::Q),
            "H" | "h" => Ok(Level::H),
            _ => Err(SettingError::Level),
        }
    }
}

impl fmt::Display for Level {
    fn fmt(&self, to: &mut fmt::Formatter<'_>) -> fmt::Result {
        to.pad(match self {
            Level::L => "L",
            Level::M => "M",
            Level::Q => "Q",
            Level::H => "H",
        })
    }
}

/// Which modes the segments of an input may have.
#[derive(Clone, Copy, Debug, Default, PartialEq, Eq, Hash)]
#[non_exhaustive]
pub enum Rule {
    /// Numeric, alphanumeric and byte mode, whatever takes the least bits.
    #[default]
    Auto,
    /// The whole input in byte mode.
    BytesOnly,
    /// Also kanji mode, for pairs of bytes that are Shift JIS characters. An ECI beside it is 20, which is Shift JIS.
    WithKanji,
}

/// How the characters of a segment are written.
#[derive(Clone, Copy, Debug, PartialEq, Eq, Hash)]
pub enum Mode {
    /// Digits.
    Numeric,
    /// Digits, capital letters, space and `$%*+-./:`.
    Alphanumeric,
    /// Any bytes.
    Byte,
    /// Shift JIS characters, of two bytes each.
    Kanji,
}

/// How an input is encoded, beside its version and level. `Options::default()` asks for `boost`, and for no more.
#[derive(Clone, Copy, Debug, PartialEq, Eq, Hash)]
pub struct Options {
    pub rule: Rule,
    pub interpretation: Interpretation,
    /// Whether the symbol has the highest level, from the one that is asked for on, that fits the same version. A series has the
    /// level that is asked for.
    pub boost: bool,
}

/// A logo in the middle of a symbol: a square of whole modules, to which a light ring around the picture belongs.
#[derive(Clone, Copy, Debug, PartialEq, Eq, Hash)]
pub struct Logo {
    /// How many modules it has on a side.
    pub side: u8,
    /// The most that it may use up of the wrong codewords that can be corrected in a block, in percent, at most 75. The rest is left for
    /// dirt and wear.
    pub share: u8,
}

impl Logo {
    /// Returns a logo that uses up at most half of what can be corrected.
    #[must_use]
    pub fn of_side(side: u8) -> Logo {
        Logo { side, share: 50 }
    }
}

impl Options {
    /// Returns the default options, but with ECI 26, which is UTF-8, if the text is not ASCII.
    #[must_use]
    pub fn of_text(text: &str) -> Options {
        Options {
            interpretation: Interpretation::of_text(text),
            ..Options::default()
        }
    }

    /// Returns the options of GS1 data: byte mode if they have a `%`, and else the default rule. In alphanumeric mode a `%` of GS1
    /// data is written as `%%`, after which the reader zxing-cpp 1.4 loses bytes.
    #[must_use]
    pub fn of_gs1(data: &[u8]) -> Options {
        let rule = if data.contains(&b'%') {
            Rule::BytesOnly
        } else {
            Rule::Auto
        };
        Options {
            rule,
            interpretation: Interpretation::Gs1,
            ..Options::default()
        }
    }
}

impl Default for Options {
    fn default() -> Options {
        Options {
            rule: Rule::Auto,
            interpretation: Interpretation::Default,
            boost: true,
        }
    }
}

/// How modules are drawn, as the command `qrencode` draws them.
#[derive(Clone, Copy, Debug, PartialEq, Eq, Hash)]
#[non_exhaustive]
pub enum Drawing {
    /// Two `#` for a dark module, two spaces for a light one.
    Ascii,
    /// The other way round.
    AsciiInverse,
    /// A character of half blocks for two modules, one above the other, light on a dark terminal.
    Utf8,
    /// A document of its own, one unit of length for a module.
    Svg,
}

impl Drawing {
    const ALL: [Drawing; 4] = [
        Drawing::Ascii,
        Drawing::AsciiInverse,
        Drawing::Utf8,
        Drawing::Svg,
    ];
}

/// The format of a document for print, with its number in the header.
#[derive(Clone, Copy, Debug, PartialEq, Eq, Hash)]
#[non_exhaustive]
pub enum Document {
    /// An SVG document as [`draw`] makes it, with a width and a height in millimetres.
    Svg = 0,
    /// Encapsulated PostScript.
    Eps = 1,
    /// PDF 1.4, with a page for each symbol.
    Pdf = 2,
}

/// Label paper. Its lengths are in micrometres.
#[derive(Clone, Copy, Debug, PartialEq, Eq, Hash)]
pub struct Sheet {
    /// The width of the paper.
    pub width: u32,
    /// The height of the paper.
    pub height: u32,
    /// How far the first place is from the left edge of the paper.
    pub left: u32,
    /// How far it is from the upper edge.
    pub top: u32,
    /// How far the left edges of places side by side are from each other.
    pub across: u32,
    /// How far the upper edges of places one below the other are from each other.
    pub down: u32,
    /// How many places are side by side, from 1 to 100.
    pub columns: u32,
    /// How many are one below the other, from 1 to 100.
    pub rows: u32,
    /// How many places of the first sheet stay free, as labels that are used up.
    pub first: u32,
}

/// The format of an image, with its number in the header.
#[derive(Clone, Copy, Debug, PartialEq, Eq, Hash)]
#[non_exhaustive]
pub enum Format {
    /// Portable Network Graphics (ISO/IEC 15948), in grey with one bit a pixel.
    Png = 0,
    /// A raw bitmap of netpbm (P4).
    Pbm = 1,
    /// The command `GS v 0` of ESC/POS, the language of receipt printers.
    EscPos = 2,
    /// The command `BITMAP` of TSPL, the language of TSC's and many other label printers. It goes between the commands `SIZE`,
    /// `CLS` and `PRINT` of a label.
    Tspl = 3,
    /// A label in ZPL, the language of Zebra's and most other label printers, with the symbol as an image.
    Zpl = 4,
}

/// The colours of a PNG file, or of a PDF document. Each is the number `0xRRGGBBAA`: red, green and blue, and how opaque it is, from `0x00` for a
/// colour that is not seen to `0xFF`. Scanners need a dark colour on a light one.
#[derive(Clone, Copy, Debug, PartialEq, Eq, Hash)]
pub struct Colours {
    /// The colour of dark modules.
    pub dark: u32,
    /// The colour of light modules and of the margin.
    pub light: u32,
}

/// How an image is written.
#[derive(Clone, Copy, Debug, PartialEq, Eq, Hash)]
pub struct ImageOptions {
    /// The pixels of a module on each side, or the dots of a printer, from 1 to 100: 8.
    pub scale: u8,
    /// Light modules on each side, from 0 to 100: 4, which a scanner needs.
    pub margin: u8,
    /// The colours, or `None` for black on white. Only PNG has others: [`image`] refuses them in other formats.
    pub colours: Option<Colours>,
    /// How many pixels of the printed image a metre has, below 2^31, or 0 if the file is not to say it. Only PNG can say it.
    pub pixels_a_metre: u32,
    /// How far the image is from the left edge of the label, in dots, from 0 to 32,000. Only ZPL and TSPL can say it.
    pub left: u16,
    /// How far the image is from the upper edge of the label, in dots, from 0 to 32,000. Only ZPL and TSPL can say it.
    pub top: u16,
}

impl Default for ImageOptions {
    fn default() -> ImageOptions {
        ImageOptions {
            scale: 8,
            margin: 4,
            colours: None,
            pixels_a_metre: 0,
            left: 0,
            top: 0,
        }
    }
}

/// A symbol: its version, its level, its modules, and its mask if it is known.
#[derive(Clone, Debug, PartialEq, Eq, Hash)]
pub struct Symbol {
    version: Version,
    level: Level,
    mask: Option<u8>,
    modules: Vec<u8>,
}

impl Symbol {
    /// Returns the version that it has, which [`encode`] may have made higher than the one that was asked for.
    #[must_use]
    pub fn version(&self) -> Version {
        self.version
    }

    /// Returns the level that it has, which [`Options::boost`] may have made higher than the one that was asked for.
    #[must_use]
    pub fn level(&self) -> Level {
        self.level
    }

    /// Returns the mask, from 0 to 7; `None` for a symbol of [`encode_series`], since the library does not tell the
    /// masks of a series.
    #[must_use]
    pub fn mask(&self) -> Option<u8> {
        self.mask
    }

    /// Draws the symbol once more, under a mask from 0 to 7. [`encode`] takes the mask with the least penalty, which the standard
    /// asks for. With another one the symbol has the same content, but scanners may read it less well.
    ///
    /// ```
    /// use qrproved::{encode, read, Error, Level, Options, Version};
    ///
    /// let symbol = encode(b"Shelf 12", Version::MIN, Level::L, &Options::default())?.with_mask(3)?;
    /// assert_eq!(symbol.mask(), Some(3));
    /// assert_eq!(read(symbol.modules(), symbol.side())?.data, b"Shelf 12");
    /// # Ok::<(), Error>(())
    /// ```
    ///
    /// # Errors
    ///
    /// [`Error::Settings`] if the mask is above 7; [`Error::Memory`].
    pub fn with_mask(mut self, mask: u8) -> Result<Symbol, Error> {
        let side = setting(self.side())?;
        check_library();
        // SAFETY: the version was checked, the length is that of the modules, and only the call has them.
        let status = unsafe {
            c::qrproved_set_mask(
                self.modules.as_mut_ptr(),
                self.modules.len(),
                side,
                c::Setting::from(mask),
            )
        };
        match Error::of_status(status) {
            Some(error) => Err(error),
            None => Ok(Symbol {
                mask: Some(mask),
                ..self
            }),
        }
    }

    /// Returns the modules on a side, from 21 to 177.
    #[must_use]
    pub fn side(&self) -> usize {
        self.version.side()
    }

    /// Returns the modules, row by row: 1 for a dark module, 0 for a light one.
    #[must_use]
    pub fn modules(&self) -> &[u8] {
        &self.modules
    }

    /// Returns the first row of a logo of `logo` by `logo` modules, which is also its first column. With an even number the logo is
    /// half a module above the middle and half a module to the left of it.
    ///
    /// # Panics
    ///
    /// If the logo has more modules on a side than the symbol.
    #[must_use]
    pub fn logo_at(&self, logo: u8) -> usize {
        let side = self.side();
        assert!(
            usize::from(logo) <= side,
            "a logo of {logo} modules on a side is larger than the symbol"
        );
        (side - usize::from(logo)) / 2
    }

    /// Returns the rows of modules, from the top.
    #[must_use]
    pub fn rows(&self) -> impl ExactSizeIterator<Item = &[u8]> {
        self.modules.chunks_exact(self.side())
    }

    /// Returns whether the module at a row and a column, both from 0, is dark.
    ///
    /// # Panics
    ///
    /// If the row or the column is not below the side.
    #[must_use]
    pub fn is_dark(&self, row: usize, column: usize) -> bool {
        let side = self.side();
        assert!(
            row < side && column < side,
            "no module at row {row} and column {column}: the side is {side}"
        );
        self.modules[row * side + column] != 0
    }

    /// Returns the most dots that a module can have on each side if the symbol is at most `mm` millimetres wide with its margin, on
    /// a printer of `dpi` dots an inch, and how wide it then is in millimetres. The dots are what [`ImageOptions::scale`] takes.
    ///
    /// ```
    /// # use qrproved::{encode, Level, Options, Version};
    /// let symbol = encode(b"Shelf 12", Version::MIN, Level::M, &Options::default())?;
    /// let (dots, width) = symbol.printed_size(20.0, 203.0, 4)?;
    /// assert_eq!((dots, format!("{width:.3}")), (5, "18.143".to_string()));
    /// # Ok::<(), qrproved::Error>(())
    /// ```
    ///
    /// # Errors
    ///
    /// [`Error::Settings`] if not even modules of one dot are narrow enough, or if a number is not above 0 and at most 100,000.
    pub fn printed_size(&self, mm: f64, dpi: f64, margin: u8) -> Result<(u8, f64), Error> {
        if !(mm > 0.0 && mm <= MM_MAX && dpi > 0.0 && dpi <= MM_MAX) {
            return Err(Error::Settings);
        }
        let modules = (self.side() + 2 * usize::from(margin)) as f64;
        // (a width that was computed from dots has room for them, whatever was rounded)
        let most = (mm * dpi / MM_OF_INCH / modules + 1e-9).floor();
        let dots = most.min(f64::from(c::SCALE_MAX)) as u8;
        if dots == 0 {
            return Err(Error::Settings);
        }
        Ok((dots, MM_OF_INCH * modules * f64::from(dots) / dpi))
    }
}

/// Which symbol of a series it is.
#[derive(Clone, Copy, Debug, PartialEq, Eq, Hash)]
pub struct Header {
    /// Its position in the series, from 0.
    pub position: u8,
    /// How many symbols the series has, from 1 to 16.
    pub count: u8,
    /// The exclusive or of all bytes of the series.
    pub parity: u8,
}

/// What a symbol says.
#[derive(Clone, Debug, PartialEq, Eq, Hash)]
pub struct Content {
    /// The bytes that it holds.
    pub data: Vec<u8>,
    pub version: Version,
    /// Which symbol of its series it is; `None` for a plain symbol.
    pub header: Option<Header>,
    /// The ECI headers, which say what the bytes mean as characters. Bytes before the first of them have none.
    pub ecis: Vec<Eci>,
    /// Whether the data are GS1 data, or those of an application; `None` for others.
    pub fnc1: Option<Fnc1>,
    /// Whether a part of the data is in kanji mode, which is for Shift JIS.
    pub kanji: bool,
}

/// What a damaged symbol says, and how damaged it is.
#[derive(Clone, Debug, PartialEq, Eq, Hash)]
pub struct Mended {
    pub content: Content,
    pub level: Level,
    /// The mask, from 0 to 7.
    pub mask: u8,
    /// How many modules of the whole square are not those of the symbol, or not known.
    pub wrong_modules: u32,
    /// How many of the 30 modules of format information are wrong or not known.
    pub wrong_format_modules: u8,
    /// Of the two copies of the format information, how many modules are wrong or not known in the copy with fewer of them.
    pub wrong_format_least: u8,
    /// How many codewords were wrong in the block with the most of them, without those with a module that is not known.
    pub changed_most: u8,
    /// How many may be wrong in each block, from 2 to 15.
    pub changed_allowed: u8,
    /// The greatest e + 2w of a block, where e is the number of its codewords with a module that is not known, and w the number of
    /// its other codewords that were misread. It is at most twice `changed_allowed`.
    pub spent_most: u8,
    /// The w of the block that is worst for a scanner: of the first block with the greatest e + w.
    pub worst_misread: u8,
    /// The e of this block.
    pub worst_unknown: u8,
    /// How many of the codewords of `worst_unknown` are wrong if the modules that are not known are taken as dark.
    pub worst_unknown_wrong: u8,
}

/// What a drawing shows.
#[derive(Clone, Debug, PartialEq, Eq, Hash)]
pub struct Drawn {
    pub drawing: Drawing,
    /// The light modules on each side of a square.
    pub margin: u8,
    /// The modules on a side of each square, from 8 to 177.
    pub side: usize,
    /// The modules of 1 to 16 squares, as [`read`], [`mend`] and [`draw_squares`] take them.
    pub squares: Vec<Vec<u8>>,
}

/// A square that [`find`] found in a picture.
#[derive(Clone, Debug, PartialEq, Eq, Hash)]
pub struct Found {
    /// The modules on a side, from 21 to 177.
    pub side: usize,
    /// The modules, row by row, as [`mend`] takes them.
    pub modules: Vec<u8>,
    /// The column and the row of each corner in sixteenths of a pixel, from the upper left corner of the picture: of the first
    /// module, and then clockwise around the square.
    pub corners: [(u32, u32); 4],
    /// By how many quarter turns the symbol is turned clockwise, to the nearest one.
    pub quarter_turns: u8,
    /// Whether it is light on dark.
    pub is_inverse: bool,
    /// Whether it is mirrored: its first row goes from the first corner to the last.
    pub is_mirrored: bool,
    /// Whether it can be mended.
    pub is_read: bool,
}

impl Mended {
    /// Returns whether the square is the symbol, module by module.
    #[must_use]
    pub fn is_sound(&self) -> bool {
        self.wrong_modules == 0
    }

    /// Returns the share of the correction that is spent for a scanner, in the block that is worst for it: the sum of
    /// `worst_misread` and `worst_unknown`, divided by `changed_allowed`. A scanner takes a codeword with a module that is not
    /// known for a wrong one, so the share may be above 1. Then scanners do not read the symbol.
    #[must_use]
    pub fn spent(&self) -> f64 {
        f64::from(self.wrong_for_a_scanner()) / f64::from(self.changed_allowed)
    }

    /// Returns the share of the correction that is spent for [`mend`], from 0 to 1: a codeword with a module that is not known
    /// counts half.
    #[must_use]
    pub fn spent_here(&self) -> f64 {
        f64::from(self.spent_most) / (2.0 * f64::from(self.changed_allowed))
    }

    /// Returns whether a scanner that takes what is not known for wrong can read the symbol: [`Mended::spent`] is at most 1, and
    /// `wrong_format_least` at most 3. A scanner also has to find the symbol.
    #[must_use]
    pub fn is_scannable(&self) -> bool {
        self.wrong_for_a_scanner() <= u16::from(self.changed_allowed)
            && self.wrong_format_least <= c::WRONG_FORMAT_MAX
    }

    /// Returns the codewords of the worst block that a scanner takes for wrong.
    fn wrong_for_a_scanner(&self) -> u16 {
        u16::from(self.worst_misread) + u16::from(self.worst_unknown)
    }
}

/// Encodes an input as the symbol of the least version from `smallest` on that holds it.
///
/// # Errors
///
/// [`Error::Settings`] for an ECI above 999,999, and for one other than 20 beside [`Rule::WithKanji`]; [`Error::Empty`] for no byte;
/// [`Error::Fields`] if the input should be GS1 data and has a byte 1D directly before another or before `%`; [`Error::TooLong`]
/// if no version from `smallest` on holds the input; [`Error::Memory`].
pub fn encode(
    input: &[u8],
    smallest: Version,
    level: Level,
    options: &Options,
) -> Result<Symbol, Error> {
    let mut symbol = c::Symbol::default();
    let interpretation = options.interpretation.number()?;
    let modules = filled(c::SYMBOL_MAX, |modules, len| {
        // SAFETY: `filled` has checked the version, each length is that of its slice, and only the call has the buffers
        // and the struct to which it writes.
        let status = unsafe {
            c::qrproved_encode(
                input.as_ptr(),
                input.len(),
                c::Setting::from(smallest.0),
                level as c::Setting,
                options.rule as c::Setting,
                interpretation,
                c::Setting::from(options.boost),
                modules,
                len,
                &mut symbol,
            )
        };
        (status, usize::from(symbol.side).pow(2))
    })?;
    Ok(Symbol {
        version: Version(symbol.version),
        level: Level::ALL[usize::from(symbol.level)],
        mask: Some(symbol.mask),
        modules,
    })
}

/// Encodes an input as a symbol that may have a logo in its middle. The symbol has the least version, from `smallest` on, with which at
/// some level, from `lowest` on, the input fits and the logo is allowed, and the highest such level, whatever [`Options::boost`] is.
/// [`Symbol::logo_at`] says where the logo goes. With the logo, whatever it shows, the symbol is mended to exactly the input.
///
/// ```
/// use qrproved::{encode_with_logo, Level, Logo, LogoError, Options, Version};
///
/// let symbol = encode_with_logo(b"Shelf 12", Version::MIN, Level::L, &Options::default(), Logo::of_side(7))?;
/// assert_eq!(symbol.logo_at(7), (symbol.side() - 7) / 2);
/// # Ok::<(), LogoError>(())
/// ```
///
/// # Errors
///
/// [`LogoError::TooLarge`] if no symbol of the input may have the logo; [`LogoError::Encode`] as [`encode`], and with [`Error::Settings`]
/// for a logo of more than 177 modules on a side or a share above 75 %.
pub fn encode_with_logo(
    input: &[u8],
    smallest: Version,
    lowest: Level,
    options: &Options,
    logo: Logo,
) -> Result<Symbol, LogoError> {
    let mut symbol = c::Symbol::default();
    let mut largest = None;
    let interpretation = options.interpretation.number()?;
    let made = filled(c::SYMBOL_MAX, |modules, len| {
        let mut side = 0;
        // SAFETY: `filled` has checked the version, each length is that of its slice, and only the call has the buffer, the struct
        // and the number to which it writes.
        let status = unsafe {
            c::qrproved_encode_logo(
                input.as_ptr(),
                input.len(),
                c::Setting::from(smallest.0),
                lowest as c::Setting,
                options.rule as c::Setting,
                interpretation,
                c::Setting::from(logo.side),
                c::Setting::from(logo.share),
                modules,
                len,
                &mut symbol,
                &mut side,
            )
        };
        if status == c::LOGO {
            largest = Some(side);
            return (0, 0);
        }
        (status, usize::from(symbol.side).pow(2))
    })?;
    match largest {
        Some(side) => Err(LogoError::TooLarge(side)),
        None => Ok(Symbol {
            version: Version(symbol.version),
            level: Level::ALL[usize::from(symbol.level)],
            mask: Some(symbol.mask),
            modules: made,
        }),
    }
}

/// Encodes an input as a series of at most 16 symbols of one version and level, by structured append. An input that fits one
/// symbol is one plain symbol. Each symbol says the interpretation.
///
/// # Errors
///
/// As [`encode`], but in place of [`Error::TooLong`] [`Error::TooMany`], if the input takes more than 16 symbols.
pub fn encode_series(
    input: &[u8],
    version: Version,
    level: Level,
    options: &Options,
) -> Result<Vec<Symbol>, Error> {
    let mut series = c::Series::default();
    let interpretation = options.interpretation.number()?;
    // 16 symbols are the longest series.
    let most = 16 * version.side().pow(2);
    let modules = filled(most, |modules, len| {
        // SAFETY: `filled` has checked the version, each length is that of its slice, and only the call has the buffers
        // and the struct to which it writes.
        let status = unsafe {
            c::qrproved_encode_series(
                input.as_ptr(),
                input.len(),
                c::Setting::from(version.0),
                level as c::Setting,
                options.rule as c::Setting,
                interpretation,
                modules,
                len,
                &mut series,
            )
        };
        (
            status,
            usize::from(series.count) * usize::from(series.side).pow(2),
        )
    })?;
    Ok(modules
        .chunks_exact(version.side().pow(2))
        .map(|it| Symbol {
            version,
            level,
            mask: None,
            modules: it.to_vec(),
        })
        .collect())
}

/// Returns how many characters of a mode fit a symbol if all of them are in one segment. Each has one byte, and in kanji mode two.
/// Before the segment the symbol says the interpretation and, if `in_series` is true, has a structured append header.
///
/// ```
/// use qrproved::{room, Interpretation, Level, Mode, Version};
///
/// assert_eq!(room(Version::MAX, Level::L, Mode::Byte, Interpretation::Default, false), Ok(2953));
/// assert_eq!(room(Version::MAX, Level::L, Mode::Byte, Interpretation::Eci(26), false), Ok(2952));
/// ```
///
/// # Errors
///
/// [`Error::Settings`] for an ECI above 999,999, and for one other than 20 beside [`Mode::Kanji`].
pub fn room(
    version: Version,
    level: Level,
    mode: Mode,
    interpretation: Interpretation,
    in_series: bool,
) -> Result<u32, Error> {
    let interpretation = interpretation.number()?;
    check_library();
    let mut count = 0;
    // SAFETY: the version was checked, and only the call has the number to which it writes.
    let status = unsafe {
        c::qrproved_room(
            c::Setting::from(version.0),
            level as c::Setting,
            mode as c::Setting,
            interpretation,
            c::Setting::from(in_series),
            &mut count,
        )
    };
    Error::of_status(status).map_or(Ok(count), Err)
}

/// Reads a symbol that is as it was drawn: no errors are corrected. Each byte but 0 is a dark module, and bytes past the last
/// module are ignored.
///
/// # Errors
///
/// [`Error::Side`] if no version has the side, [`Error::Room`] if there are fewer modules than its square has,
/// [`Error::Format`] if the first copy of the format information belongs to no level and mask, [`Error::Check`] if a block does
/// not match its error correction codewords, [`Error::Segments`] if the data codewords cannot be parsed, [`Error::Memory`].
pub fn read(modules: &[u8], side: usize) -> Result<Content, Error> {
    let mut content = c::Content::default();
    let mut ecis = buffer(c::ECIS_MAX)?;
    let side = setting(side)?;
    let data = filled(c::BYTES_MAX, |bytes, len| {
        // SAFETY: `filled` has checked the version, each length is that of its slice, and only the call has the buffers
        // and the struct to which it writes.
        let status = unsafe {
            c::qrproved_read(
                modules.as_ptr(),
                modules.len(),
                side,
                bytes,
                len,
                ecis.as_mut_ptr(),
                ecis.len(),
                &mut content,
            )
        };
        (status, content.len as usize)
    })?;
    Ok(content_of(data, &ecis, &content))
}

/// Reads a symbol, mends its damage, and tells how damaged it is. Each module is 0 for light, 1 for dark, or 2 where it is not
/// known: its codeword takes half as much of the correction as a wrong one. Of the 30 modules of format information any six may
/// be wrong, or 13 not known. Bytes past the last module are ignored.
///
/// # Errors
///
/// As [`read`]; [`Error::Settings`] if a module is more than 2; [`Error::Format`] and [`Error::Check`] only if there is
/// more damage than can be mended.
pub fn mend(modules: &[u8], side: usize) -> Result<Mended, Error> {
    let mut mended = c::Mended::default();
    let mut ecis = buffer(c::ECIS_MAX)?;
    let side = setting(side)?;
    let data = filled(c::BYTES_MAX, |bytes, len| {
        // SAFETY: `filled` has checked the version, each length is that of its slice, and only the call has the buffers
        // and the struct to which it writes.
        let status = unsafe {
            c::qrproved_mend(
                modules.as_ptr(),
                modules.len(),
                side,
                bytes,
                len,
                ecis.as_mut_ptr(),
                ecis.len(),
                &mut mended,
            )
        };
        (status, mended.len as usize)
    })?;
    let content = c::Content {
        len: mended.len,
        eci_count: mended.eci_count,
        version: mended.version,
        has_header: mended.has_header,
        position: mended.position,
        last: mended.last,
        parity: mended.parity,
        fnc1: mended.fnc1,
        application: mended.application,
        has_kanji: mended.has_kanji,
    };
    Ok(Mended {
        content: content_of(data, &ecis, &content),
        level: Level::ALL[usize::from(mended.level)],
        mask: mended.mask,
        wrong_modules: mended.wrong_modules,
        wrong_format_modules: mended.wrong_format_modules,
        wrong_format_least: mended.wrong_format_least,
        changed_most: mended.changed_most,
        changed_allowed: mended.changed_allowed,
        spent_most: mended.spent_most,
        worst_misread: mended.worst_misread,
        worst_unknown: mended.worst_unknown,
        worst_unknown_wrong: mended.worst_unknown_wrong,
    })
}

/// Returns the drawing of symbols of one version: as text one after the other, as SVG one below the other. Each has `margin`
/// light modules on each side; a scanner needs 4.
///
/// # Errors
///
/// [`Error::Settings`] if there are not 1 to 16 symbols, or not all of one version, or if the margin is above 100;
/// [`Error::Memory`].
pub fn draw(symbols: &[Symbol], drawing: Drawing, margin: u8) -> Result<Vec<u8>, Error> {
    let first = symbols.first().ok_or(Error::Settings)?;
    if symbols.iter().any(|it| it.version != first.version) {
        return Err(Error::Settings);
    }
    let squares: Vec<_> = symbols.iter().map(Symbol::modules).collect();
    draw_squares(&squares, first.side(), drawing, margin)
}

/// Returns a document for print with symbols of one version. An SVG or EPS document has them one below the other, and a PDF has a
/// page for each. Each has `margin` light modules on each side; a scanner needs 4. A module is `micrometres` wide, from 1 to
/// 1,000,000.
///
/// # Errors
///
/// [`Error::Settings`] if there are not 1 to 16 symbols, or not all of one version, if the margin is above 100, or if `micrometres`
/// is out of its range; [`Error::Memory`].
pub fn document(
    symbols: &[Symbol],
    format: Document,
    margin: u8,
    micrometres: u32,
) -> Result<Vec<u8>, Error> {
    check_library();
    let (modules, side, count) = squares_of(symbols)?;
    let call = |text: *mut u8, len: usize| {
        let mut written = 0;
        // SAFETY: the version is checked, each length is that of its slice, or 0 beside a null pointer, and only the
        // call has `text` and `written`.
        let status = unsafe {
            c::qrproved_document(
                modules.as_ptr(),
                modules.len(),
                side,
                count,
                format as c::Setting,
                c::Setting::from(margin),
                micrometres,
                text,
                len,
                &mut written,
            )
        };
        (status, written)
    };
    measured(call)
}

/// Returns a PDF with a page for each of the symbols, as [`document`] does, in two colours. The dark one is opaque, and if the
/// lowest byte of the light one is `0x00`, light modules and the margin are not drawn.
///
/// # Errors
///
/// Those of [`document`], and [`Error::Settings`] if a colour is not opaque in another way.
pub fn document_in_colours(
    symbols: &[Symbol],
    colours: Colours,
    margin: u8,
    micrometres: u32,
) -> Result<Vec<u8>, Error> {
    check_library();
    let (modules, side, count) = squares_of(symbols)?;
    let call = |text: *mut u8, len: usize| {
        let mut written = 0;
        // SAFETY: the version is checked, each length is that of its slice, or 0 beside a null pointer, and only the
        // call has `text` and `written`.
        let status = unsafe {
            c::qrproved_pdf(
                modules.as_ptr(),
                modules.len(),
                side,
                count,
                c::Setting::from(margin),
                micrometres,
                colours.dark,
                colours.light,
                text,
                len,
                &mut written,
            )
        };
        (status, written)
    };
    measured(call)
}

/// Returns a PDF with 1 to 10,000 symbols of one version on sheets of label paper, as many as they need. The symbols follow one
/// another in rows, from the upper left place on. Each has `margin` light modules on each side; a scanner needs 4. A module is
/// `micrometres` wide, from 1 to 1,000,000.
///
/// # Errors
///
/// [`Error::Settings`] if there are not 1 to 10,000 symbols, or not all of one version, if a number is out of its range, if a symbol
/// with its margin is wider or higher than its place, or if a place is not on the paper; [`Error::Memory`].
pub fn sheets(
    symbols: &[Symbol],
    sheet: &Sheet,
    margin: u8,
    micrometres: u32,
) -> Result<Vec<u8>, Error> {
    check_library();
    let (modules, side, count) = squares_of(symbols)?;
    let paper = c::Sheet {
        width: sheet.width,
        height: sheet.height,
        left: sheet.left,
        top: sheet.top,
        across: sheet.across,
        down: sheet.down,
        columns: sheet.columns,
        rows: sheet.rows,
        first: sheet.first,
    };
    let call = |text: *mut u8, len: usize| {
        let mut written = 0;
        // SAFETY: the version is checked, each length is that of its slice, or 0 beside a null pointer, the call only reads
        // `paper`, and only the call has `text` and `written`.
        let status = unsafe {
            c::qrproved_sheets(
                modules.as_ptr(),
                modules.len(),
                side,
                count,
                c::Setting::from(margin),
                micrometres,
                &paper,
                text,
                len,
                &mut written,
            )
        };
        (status, written)
    };
    measured(call)
}

/// Returns the modules of symbols of one version, one symbol after the other, with their side and their number.
fn squares_of(symbols: &[Symbol]) -> Result<(Vec<u8>, c::Setting, c::Setting), Error> {
    let first = symbols.first().ok_or(Error::Settings)?;
    if symbols.iter().any(|it| it.version != first.version) {
        return Err(Error::Settings);
    }
    let modules = symbols.iter().flat_map(Symbol::modules).copied().collect();
    let count = symbols.len().try_into().map_err(|_| Error::Settings)?;
    Ok((modules, first.side() as c::Setting, count))
}

/// Calls `call` with no buffer, which tells how long the text is, and then with one that is as long.
fn measured(call: impl Fn(*mut u8, usize) -> (u8, usize)) -> Result<Vec<u8>, Error> {
    match call(std::ptr::null_mut(), 0) {
        (status, needed) if status == Error::Room.status() => filled(needed, call),
        (status, _) => Err(Error::of_status(status).unwrap_or(Error::Settings)),
    }
}

/// Returns the image of a symbol as a file.
///
/// ```
/// use qrproved::{encode, image, Format, ImageOptions, Level, Options, Version};
///
/// let symbol = encode(b"Shelf 12", Version::MIN, Level::M, &Options::default())?;
/// let file = image(&symbol, Format::Png, &ImageOptions::default())?;
/// assert!(file.starts_with(b"\x89PNG"));
/// # Ok::<(), qrproved::Error>(())
/// ```
///
/// # Errors
///
/// [`Error::Settings`] if a number of `options` is out of its range, or if there are colours and the format is not PNG;
/// [`Error::Memory`].
pub fn image(symbol: &Symbol, format: Format, options: &ImageOptions) -> Result<Vec<u8>, Error> {
    match options.colours {
        None => plain_image(symbol, format, options),
        Some(colours) if format == Format::Png => coloured_image(symbol, colours, options),
        Some(_) => Err(Error::Settings),
    }
}

fn coloured_image(
    symbol: &Symbol,
    colours: Colours,
    options: &ImageOptions,
) -> Result<Vec<u8>, Error> {
    check_library();
    let modules = symbol.modules();
    sized(modules, |image, len| {
        let mut written = 0;
        // SAFETY: the version is checked, each length is that of its slice, or 0 beside a null pointer, and only the
        // call has `image` and `written`.
        let status = unsafe {
            c::qrproved_png(
                modules.as_ptr(),
                modules.len(),
                symbol.side() as c::Setting,
                c::Setting::from(options.scale),
                c::Setting::from(options.margin),
                options.pixels_a_metre,
                colours.dark,
                colours.light,
                image,
                len,
                &mut written,
            )
        };
        (status, written)
    })
}

fn plain_image(symbol: &Symbol, format: Format, options: &ImageOptions) -> Result<Vec<u8>, Error> {
    check_library();
    let modules = symbol.modules();
    sized(modules, |image, len| {
        let mut written = 0;
        // SAFETY: the version is checked, each length is that of its slice, or 0 beside a null pointer, and only the
        // call has `image` and `written`.
        let status = unsafe {
            c::qrproved_image(
                modules.as_ptr(),
                modules.len(),
                symbol.side() as c::Setting,
                format as c::Setting,
                c::Setting::from(options.scale),
                c::Setting::from(options.margin),
                options.pixels_a_metre,
                c::Setting::from(options.left),
                c::Setting::from(options.top),
                image,
                len,
                &mut written,
            )
        };
        (status, written)
    })
}

/// Returns the file that `call` writes, with room that is enough for most files, or with as much as it asks for.
fn sized(modules: &[u8], call: impl Fn(*mut u8, usize) -> (u8, usize)) -> Result<Vec<u8>, Error> {
    // The library writes a PNG file in one run if there is surely room for it, which this is up to scale 8.
    match filled(4096 + 3 * modules.len(), &call) {
        Err(Error::Room) => filled(call(std::ptr::null_mut(), 0).1, call),
        done => done,
    }
}

/// Returns the drawing of squares that all have the side `side`, as [`draw`] returns that of symbols. A square need not
/// be a symbol. Each byte but 0 is a dark module, and bytes past the last module of a square are ignored.
///
/// So what [`parse_drawing`] returns is drawn in another type:
///
/// ```
/// use qrproved::{draw_squares, parse_drawing, Drawing};
/// # use qrproved::{draw, encode, Level, Options, Version};
/// # let symbols = [encode(b"Shelf 12", Version::MIN, Level::M, &Options::default())?];
/// # let text = draw(&symbols, Drawing::Ascii, 4)?;
///
/// let drawn = parse_drawing(&text)?;
/// let document = draw_squares(&drawn.squares, drawn.side, Drawing::Svg, drawn.margin)?;
/// # assert_eq!(document, draw(&symbols, Drawing::Svg, 4)?);
/// # Ok::<(), qrproved::Error>(())
/// ```
///
/// # Errors
///
/// [`Error::Settings`] if there are not 1 to 16 squares, if the side is not from 1 to 177, or if the margin is above
/// 100; [`Error::Room`] if a square has fewer modules than the side says; [`Error::Memory`].
pub fn draw_squares(
    squares: &[impl AsRef<[u8]>],
    side: usize,
    drawing: Drawing,
    margin: u8,
) -> Result<Vec<u8>, Error> {
    check_library();
    if side > c::SIDE_MAX {
        return Err(Error::Settings);
    }
    let modules = squares
        .iter()
        .map(|it| it.as_ref().get(..side * side).ok_or(Error::Room))
        .collect::<Result<Vec<_>, _>>()?
        .concat();
    let count = squares.len().try_into().map_err(|_| Error::Settings)?;
    let call = |text: *mut u8, len: usize| {
        let mut written = 0;
        // SAFETY: the version is checked, each length is that of its slice, or 0 beside a null pointer, and only the
        // call has `text` and `written`.
        let status = unsafe {
            c::qrproved_draw(
                modules.as_ptr(),
                modules.len(),
                side as c::Setting,
                count,
                drawing as c::Setting,
                c::Setting::from(margin),
                text,
                len,
                &mut written,
            )
        };
        (status, written)
    };
    match call(std::ptr::null_mut(), 0) {
        (status, needed) if status == Error::Room.status() => filled(needed, call),
        (status, _) => Err(Error::of_status(status).unwrap_or(Error::Settings)),
    }
}

/// Returns what a drawing shows, of any type: the one list of squares of which `text` is the drawing, byte for byte as [`draw`] and
/// the command draw symbols, with any margin. It does not look whether a square is a symbol, as [`read`] does.
///
/// # Errors
///
/// [`Error::NoDrawing`] if `text` is no such drawing, as after a change of its line ends; [`Error::Memory`].
pub fn parse_drawing(text: &[u8]) -> Result<Drawn, Error> {
    let mut drawn = c::Drawn::default();
    let modules = filled(c::SERIES_MAX, |modules, len| {
        // SAFETY: `filled` has checked the version, each length is that of its slice, and only the call has the buffers
        // and the struct to which it writes.
        let status = unsafe {
            c::qrproved_parse_drawing(text.as_ptr(), text.len(), modules, len, &mut drawn)
        };
        let area = usize::from(drawn.side).pow(2);
        (status, usize::from(drawn.count) * area)
    })?;
    let side = usize::from(drawn.side);
    Ok(Drawn {
        drawing: Drawing::ALL[usize::from(drawn.drawing)],
        margin: drawn.margin,
        side,
        squares: modules
            .chunks_exact(side * side)
            .map(<[u8]>::to_vec)
            .collect(),
    })
}

/// Finds the symbols of a picture in grey, at most 64. The picture has a byte for each pixel, from 0 for black to 255 for white, and
/// each row begins `stride` bytes after the one above. With `unread`, squares that look like symbols and that [`mend`] does not read
/// are found too, after the others.
///
/// # Errors
///
/// [`Error::Settings`] if the width or the height is 0 or above 32,767, or `stride` is less than the width; [`Error::Room`] if
/// there are fewer pixels than the rows take; [`Error::Memory`].
pub fn find(
    pixels: &[u8],
    width: u32,
    height: u32,
    stride: u32,
    unread: bool,
) -> Result<Vec<Found>, Error> {
    let mut found = [c::Found::default(); c::FOUND_MAX];
    let mut count = 0;
    let modules = filled(c::FOUND_MAX * c::SYMBOL_MAX, |modules, len| {
        // SAFETY: `filled` has checked the version, each length is that of its slice, and only the call has the buffers
        // and the number to which it writes.
        let status = unsafe {
            c::qrproved_find(
                pixels.as_ptr(),
                pixels.len(),
                width,
                height,
                stride,
                c::Setting::from(unread),
                modules,
                len,
                found.as_mut_ptr(),
                found.len(),
                &mut count,
            )
        };
        (status, count * c::SYMBOL_MAX)
    })?;
    let places = modules.chunks_exact(c::SYMBOL_MAX);
    Ok(found
        .iter()
        .zip(places)
        .map(|(it, place)| Found {
            side: it.side as usize,
            modules: place[..(it.side as usize).pow(2)].to_vec(),
            corners: [
                (it.x0, it.y0),
                (it.x1, it.y1),
                (it.x2, it.y2),
                (it.x3, it.y3),
            ],
            quarter_turns: it.quarter_turns,
            is_inverse: it.is_inverse != 0,
            is_mirrored: it.is_mirrored != 0,
            is_read: it.is_read != 0,
        })
        .collect())
}

/// Returns the SVG document of symbols of one version, as [`draw`] does, with a size: it is `mm` millimetres wide with its margin.
/// A module has whole micrometres, so the width may differ from `mm` by half a micrometre for each module. Few scanners read
/// modules under 0.25 mm.
///
/// # Errors
///
/// As [`draw`]; [`Error::Settings`] also if `mm` is not above 0 and at most 100,000, or if a module is not from 0.001 to 1,000 mm
/// wide.
pub fn draw_svg(symbols: &[Symbol], margin: u8, mm: f64) -> Result<Vec<u8>, Error> {
    if !(mm > 0.0 && mm <= MM_MAX) {
        return Err(Error::Settings);
    }
    let first = symbols.first().ok_or(Error::Settings)?;
    let modules = first.side() + 2 * usize::from(margin);
    let micrometres = (1000.0 * mm / modules as f64).round() as u32;
    document(symbols, Document::Svg, margin, micrometres)
}

/// The greatest width in millimetres, and the most dots an inch.
const MM_MAX: f64 = 100_000.0;
const MM_OF_INCH: f64 = 25.4;

/// Returns a buffer for so many bytes or structs.
fn buffer<T: Clone + Default>(room: usize) -> Result<Vec<T>, Error> {
    let mut buffer = Vec::new();
    buffer.try_reserve_exact(room).map_err(|_| Error::Memory)?;
    buffer.resize(room, T::default());
    Ok(buffer)
}

/// Makes a call with a new buffer, and returns what the call wrote to it, or its status.
///
/// # Panics
///
/// As [`check_library`], before the call.
fn filled(room: usize, call: impl FnOnce(*mut u8, usize) -> (u8, usize)) -> Result<Vec<u8>, Error> {
    check_library();
    let mut buffer = buffer(room)?;
    let (status, written) = call(buffer.as_mut_ptr(), room);
    match Error::of_status(status) {
        Some(error) => Err(error),
        None => {
            buffer.truncate(written);
            buffer.shrink_to_fit();
            Ok(buffer)
        }
    }
}

/// Returns a side as C takes it. One that is too large for C is that of no version.
fn setting(side: usize) -> Result<c::Setting, Error> {
    side.try_into().map_err(|_| Error::Side)
}

/// Returns a content as C tells it.
fn content_of(data: Vec<u8>, ecis: &[c::Eci], told: &c::Content) -> Content {
    Content {
        data,
        version: Version(told.version),
        header: (told.has_header != 0).then_some(Header {
            position: told.position,
            count: told.last + 1,
            parity: told.parity,
        }),
        ecis: ecis[..told.eci_count as usize]
            .iter()
            .map(|it| Eci {
                begin: it.begin as usize,
                number: it.number,
            })
            .collect(),
        fnc1: match told.fnc1 {
            1 => Some(Fnc1::Gs1),
            2 => Some(Fnc1::Application(told.application)),
            _ => None,
        },
        kanji: told.has_kanji != 0,
    }
}

/// Lets a call be made only to a library of the crate's version.
///
/// # Panics
///
/// If the linked library has another version.
fn check_library() {
    // SAFETY: the call takes nothing, and is the same in all versions.
    check_version(unsafe { c::qrproved_version() });
}

fn check_version(number: u32) {
    let named = |it: u32| format!("{}.{}.{}", it / 10000, it / 100 % 100, it % 100);
    assert!(
        number == c::VERSION_NUMBER,
        "the linked libqrproved has version {}, and the crate qrproved needs {}",
        named(number),
        named(c::VERSION_NUMBER)
    );
}

#[cfg(test)]
mod tests {
    use super::{c, check_library, check_version};

    #[test]
    fn the_library_has_the_version_of_the_crate() {
        check_library();
        check_version(c::VERSION_NUMBER);
    }

    #[test]
    #[should_panic(expected = "libqrproved has version 1.23.45, and the crate qrproved needs")]
    fn another_version_is_refused() {
        check_version(12345);
    }
}

#[cfg(doctest)]
#[doc = include_str!("../README.md")]
struct Readme;
