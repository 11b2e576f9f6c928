//! The calls of include/qrproved.h.
use std::os::raw::c_uchar;

/// The version of the library that has these calls and structs.
pub const VERSION_NUMBER: u32 = 200;

/// What C takes for a version, a level, an interpretation, a side, and each other number of that kind.
pub type Setting = u32;

pub const SIDE_MAX: usize = 177;
pub const SYMBOL_MAX: usize = 31329;
pub const SERIES_MAX: usize = 501264;
pub const BYTES_MAX: usize = 7089;
pub const ECIS_MAX: usize = 1970;
pub const FOUND_MAX: usize = 64;
pub const SCALE_MAX: u8 = 100;
pub const WRONG_FORMAT_MAX: u8 = 3;
pub const LOGO: u8 = 13;

/// Interpretations; a smaller number is that of an ECI.
pub const INTERPRETATION_DEFAULT: Setting = 1_000_000;
pub const INTERPRETATION_GS1: Setting = 1_000_001;

#[repr(C)]
#[derive(Default)]
pub struct Symbol {
    pub version: u8,
    pub side: u8,
    pub level: u8,
    pub mask: u8,
}

#[repr(C)]
#[derive(Default)]
pub struct Series {
    pub count: u8,
    pub side: u8,
}

#[repr(C)]
#[derive(Clone, Default)]
pub struct Eci {
    pub begin: u64,
    pub number: u32,
    pub unused: u32,
}

#[repr(C)]
pub struct Sheet {
    pub width: u32,
    pub height: u32,
    pub left: u32,
    pub top: u32,
    pub across: u32,
    pub down: u32,
    pub columns: u32,
    pub rows: u32,
    pub first: u32,
}

#[repr(C)]
#[derive(Default)]
pub struct Content {
    pub len: u64,
    pub eci_count: u64,
    pub version: u8,
    pub has_header: u8,
    pub position: u8,
    pub last: u8,
    pub parity: u8,
    pub fnc1: u8,
    pub application: u8,
    pub has_kanji: u8,
}

#[repr(C)]
#[derive(Default)]
pub struct Mended {
    pub len: u64,
    pub eci_count: u64,
    pub wrong_modules: u32,
    pub version: u8,
    pub has_header: u8,
    pub position: u8,
    pub last: u8,
    pub parity: u8,
    pub fnc1: u8,
    pub application: u8,
    pub has_kanji: u8,
    pub level: u8,
    pub mask: u8,
    pub wrong_format_modules: u8,
    pub wrong_format_least: u8,
    pub changed_most: u8,
    pub changed_allowed: u8,
    pub spent_most: u8,
    pub worst_misread: u8,
    pub worst_unknown: u8,
    pub worst_unknown_wrong: u8,
}

#[repr(C)]
#[derive(Default)]
pub struct Drawn {
    pub drawing: u8,
    pub margin: u8,
    pub count: u8,
    pub side: u8,
}

#[repr(C)]
#[derive(Clone, Copy, Default)]
pub struct Found {
    pub x0: u32,
    pub y0: u32,
    pub x1: u32,
    pub y1: u32,
    pub x2: u32,
    pub y2: u32,
    pub x3: u32,
    pub y3: u32,
    pub side: u32,
    pub quarter_turns: u8,
    pub is_inverse: u8,
    pub is_mirrored: u8,
    pub is_read: u8,
}

// Each call but that for the version may be made if these conditions of include/qrproved.h hold:
// - the library has the version VERSION_NUMBER;
// - a pointer with a length beside it is to as many bytes, or for `ecis` structs, and each other pointer to a struct or
//   a number;
// - what the call writes overlaps nothing else that it gets, and nothing else reads or writes it during the call;
// - nothing writes to what the call reads.
// Its other conditions, on malloc and on signal handlers and forks, are kept by all safe code.
extern "C" {
    pub fn qrproved_version() -> u32;

    pub fn qrproved_encode(
        input: *const c_uchar,
        input_len: usize,
        version: Setting,
        level: Setting,
        rule: Setting,
        interpretation: Setting,
        boost: Setting,
        modules: *mut c_uchar,
        modules_len: usize,
        symbol: *mut Symbol,
    ) -> u8;

    pub fn qrproved_encode_logo(
        input: *const c_uchar,
        input_len: usize,
        version: Setting,
        level: Setting,
        rule: Setting,
        interpretation: Setting,
        logo: Setting,
        share: Setting,
        modules: *mut c_uchar,
        modules_len: usize,
        symbol: *mut Symbol,
        largest: *mut c_uchar,
    ) -> u8;

    pub fn qrproved_encode_series(
        input: *const c_uchar,
        input_len: usize,
        version: Setting,
        level: Setting,
        rule: Setting,
        interpretation: Setting,
        modules: *mut c_uchar,
        modules_len: usize,
        series: *mut Series,
    ) -> u8;

    pub fn qrproved_set_mask(
        modules: *mut c_uchar,
        modules_len: usize,
        side: Setting,
        mask: Setting,
    ) -> u8;

    pub fn qrproved_read(
        modules: *const c_uchar,
        modules_len: usize,
        side: Setting,
        bytes: *mut c_uchar,
        bytes_len: usize,
        ecis: *mut Eci,
        ecis_len: usize,
        content: *mut Content,
    ) -> u8;

    pub fn qrproved_mend(
        modules: *const c_uchar,
        modules_len: usize,
        side: Setting,
        bytes: *mut c_uchar,
        bytes_len: usize,
        ecis: *mut Eci,
        ecis_len: usize,
        mended: *mut Mended,
    ) -> u8;

    pub fn qrproved_draw(
        modules: *const c_uchar,
        modules_len: usize,
        side: Setting,
        count: Setting,
        drawing: Setting,
        margin: Setting,
        text: *mut c_uchar,
        text_len: usize,
        written: *mut usize,
    ) -> u8;

    pub fn qrproved_png(
        modules: *const c_uchar,
        modules_len: usize,
        side: Setting,
        scale: Setting,
        margin: Setting,
        pixels_a_metre: Setting,
        dark: Setting,
        light: Setting,
        image: *mut c_uchar,
        image_len: usize,
        written: *mut usize,
    ) -> u8;

    pub fn qrproved_image(
        modules: *const c_uchar,
        modules_len: usize,
        side: Setting,
        format: Setting,
        scale: Setting,
        margin: Setting,
        pixels_a_metre: Setting,
        left: Setting,
        top: Setting,
        image: *mut c_uchar,
        image_len: usize,
        written: *mut usize,
    ) -> u8;

    pub fn qrproved_document(
        modules: *const c_uchar,
        modules_len: usize,
        side: Setting,
        count: Setting,
        format: Setting,
        margin: Setting,
        micrometres: Setting,
        text: *mut c_uchar,
        text_len: usize,
        written: *mut usize,
    ) -> u8;

    pub fn qrproved_pdf(
        modules: *const c_uchar,
        modules_len: usize,
        side: Setting,
        count: Setting,
        margin: Setting,
        micrometres: Setting,
        dark: Setting,
        light: Setting,
        text: *mut c_uchar,
        text_len: usize,
        written: *mut usize,
    ) -> u8;

    pub fn qrproved_sheets(
        modules: *const c_uchar,
        modules_len: usize,
        side: Setting,
        count: Setting,
        margin: Setting,
        micrometres: Setting,
        sheet: *const Sheet,
        text: *mut c_uchar,
        text_len: usize,
        written: *mut usize,
    ) -> u8;

    pub fn qrproved_find(
        pixels: *const c_uchar,
        pixels_len: usize,
        width: Setting,
        height: Setting,
        stride: Setting,
        unread: Setting,
        modules: *mut c_uchar,
        modules_len: usize,
        found: *mut Found,
        found_len: usize,
        count: *mut usize,
    ) -> u8;

    pub fn qrproved_parse_drawing(
        text: *const c_uchar,
        text_len: usize,
        modules: *mut c_uchar,
        modules_len: usize,
        drawn: *mut Drawn,
    ) -> u8;

    pub fn qrproved_room(
        version: Setting,
        level: Setting,
        mode: Setting,
        interpretation: Setting,
        header: Setting,
        count: *mut u32,
    ) -> u8;
}
