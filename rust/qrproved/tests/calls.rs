//! What the crate adds to the library: its types, and its refusals. The symbols themselves are compared by tests/library.
use qrproved::{
    document, document_in_colours, draw, draw_squares, draw_svg, encode, encode_series,
    encode_with_logo, find, image, mend, parse_drawing, read, room, sheets, Colours, Content,
    Document, Drawing, Eci, Error, Fnc1, Format, Header, ImageOptions, Interpretation, Level, Logo,
    LogoError, Mode, Options, Rule, SettingError, Sheet, TextError, Version,
};

/// What the command has: the level that is asked for.
const PLAIN: Options = Options {
    rule: Rule::Auto,
    interpretation: Interpretation::Default,
    boost: false,
};
const BYTES_ONLY: Options = Options {
    rule: Rule::BytesOnly,
    ..PLAIN
};
const WITH_KANJI: Options = Options {
    rule: Rule::WithKanji,
    ..PLAIN
};

fn interpreted(interpretation: Interpretation) -> Options {
    Options {
        interpretation,
        ..PLAIN
    }
}

/// The symbol of 01234567 of version 1 and level M under mask 0 (ISO/IEC 18004:2015, Annex I).
const EIGHT_DIGITS: &str = "
    111111100011101111111
    100000101110001000001
    101110100110001011101
    101110100101101011101
    101110101101101011101
    100000100001001000001
    111111101010101111111
    000000000000000000000
    101010100010100010010
    110100001011010100010
    000110111011011101110
    110011010101110110010
    001001110111011100001
    000000001010001000010
    111111100000100010001
    100000100010001001011
    101110101110101011101
    101110100101010101110
    101110101101011100101
    100000100001110111000
    111111101001011100101";

fn eight_digits() -> Vec<u8> {
    EIGHT_DIGITS
        .bytes()
        .filter(|it| !it.is_ascii_whitespace())
        .map(|it| it - b'0')
        .collect()
}

fn plain(data: &[u8]) -> Content {
    Content {
        data: data.to_vec(),
        version: Version::MIN,
        header: None,
        ecis: Vec::new(),
        fnc1: None,
        kanji: false,
    }
}

/// Returns the modules of a label: row by row as one number in hexadecimal, as tests/labels.jsonl has them.
fn label(rows: &str, side: usize) -> Vec<u8> {
    let mut modules: Vec<u8> = rows
        .chars()
        .rev()
        .map(|digit| digit.to_digit(16).unwrap())
        .flat_map(|digit| (0..4).map(move |bit| (digit >> bit & 1) as u8))
        .take(side * side)
        .collect();
    modules.reverse();
    modules
}

#[test]
fn a_symbol_of_the_standard_is_read() {
    assert_eq!(read(&eight_digits(), 21), Ok(plain(b"01234567")));
    let mended = mend(&eight_digits(), 21).unwrap();
    assert_eq!(mended.content, plain(b"01234567"));
    assert_eq!(
        (mended.level, mended.mask, mended.changed_allowed),
        (Level::M, 0, 4)
    );
    assert!(mended.is_sound());
}

/// zint --eci=3 -d Ünïcödé --secure=1
const LATIN_1: &str = "1fcb7f82d20dd6576e94bb7515d829a0ff55fc03e01a6c76f4832db26b7e1d7ec59f5009107f50ea08f2b742f3bab0fdd04460a9cffdf32";
/// zint --gs1 -d '[10]9NJY[8008]37090120' --secure=2
const FIELDS: &str = "1fdd7f82220dd1976eb0bb7555d82d20ff55fc03601176f919efd1999c3a1c10745ca00e867f7ac208e3975a47ba1ad5d08420874dfd061";
/// zint --eci=20 -d 0123456789 --secure=3 --seg1=899,'ABC-123 %45'
const TWO_ECIS: &str = "1fc4b7f82fc20dd32576ebc8bb75dc5d823fa0ff555fc02ce00bdccda2d022c8b91d2cf4689f868f86b924fc752c2a6a30e9b3f8dff008688ff14d6e0b6a33756bfbbadc51dd13d4e0a3299fcb6e1";
/// FNC1 in second position with the indicator 37, and AA12: codewords 92 52 02 1C C0 5E 00, written by hand.
const APPLICATION: &str = "1fc97f82ca0dd2576eb2bb7495d82ca0ff55fc01201f79aa0d892a334b3f3251bcd2400a94ff449209a4d75d26ba896dd44b20a255fd921";

#[test]
fn labels_of_others_are_read() {
    let content = read(&label(LATIN_1, 21), 21).unwrap();
    let eci = |begin, number| Eci { begin, number };
    assert_eq!(
        (content.ecis.as_slice(), content.fnc1),
        ([eci(0, 3)].as_slice(), None)
    );
    assert_eq!(content.text().as_deref(), Ok("Ünïcödé"));

    let content = mend(&label(FIELDS, 21), 21).unwrap().content;
    assert_eq!((content.ecis.len(), content.fnc1), (0, Some(Fnc1::Gs1)));
    assert_eq!(
        content.elements().collect::<Vec<_>>(),
        [b"109NJY".as_slice(), b"800837090120"]
    );

    let content = read(&label(TWO_ECIS, 25), 25).unwrap();
    assert_eq!(content.ecis, [eci(0, 20), eci(10, 899)]);
    assert_eq!(content.text(), Err(TextError::Eci(20)));

    let content = read(&label(APPLICATION, 21), 21).unwrap();
    assert_eq!(
        (content.data.as_slice(), content.fnc1),
        (b"AA12".as_slice(), Some(Fnc1::Application(37)))
    );
}

#[test]
fn texts_by_their_ecis() {
    let text = |data: &[u8], ecis: &[(usize, u32)]| {
        let ecis = ecis
            .iter()
            .map(|&(begin, number)| Eci { begin, number })
            .collect();
        Content {
            ecis,
            ..plain(data)
        }
        .text()
    };
    assert_eq!(
        text(
            b"\xC3\xA9\xE9\xC3\xA9A",
            &[(2, 3), (3, 26), (5, 27), (6, 899)]
        )
        .as_deref(),
        Ok("éééA")
    );
    assert_eq!(text(b"\xE9", &[]), Err(TextError::Characters(None)));
    assert_eq!(
        text(b"\xE9", &[(0, 27)]),
        Err(TextError::Characters(Some(27)))
    );
    assert_eq!(
        text(b"A", &[(0, 899)]).unwrap_err().to_string(),
        "the characters of ECI 899 are not read"
    );
}

#[test]
fn a_changed_content_has_a_text() {
    let content = |data: &[u8], begins: &[usize]| Content {
        ecis: begins
            .iter()
            .map(|&begin| Eci { begin, number: 26 })
            .collect(),
        ..plain(data)
    };
    let mut cut = content(b"ABCD", &[1, 3, 4]);
    cut.data.truncate(2);
    assert_eq!(cut.text().as_deref(), Ok("AB"));
    assert_eq!(content(b"", &[1, 2]).text().as_deref(), Ok(""));
    assert!(content(b"ABCD", &[3, 1, usize::MAX, 0]).text().is_ok());
}

#[test]
fn damage_is_measured() {
    let mut modules = eight_digits();
    modules[20 * 21 + 20] ^= 1; // of the first codeword
    modules[6 * 21 + 10] ^= 1; // of a timing pattern
    assert_eq!(read(&modules, 21), Err(Error::Check));
    let mended = mend(&modules, 21).unwrap();
    assert_eq!(mended.content, plain(b"01234567"));
    assert_eq!(
        (
            mended.wrong_modules,
            mended.changed_most,
            mended.wrong_format_modules
        ),
        (2, 1, 0)
    );
    assert_eq!(mended.spent(), 0.25);
    assert!(!mended.is_sound());
}

#[test]
fn images_and_documents() {
    let symbol = encode(b"Shelf 12", Version::MIN, Level::L, &PLAIN).unwrap();
    let options = ImageOptions {
        scale: 2,
        left: 3,
        ..ImageOptions::default()
    };
    let starts: [(Format, &[u8]); 5] = [
        (Format::Png, b"\x89PNG"),
        (Format::Pbm, b"P4\n58 58\n"),
        (Format::EscPos, &[0x1D, 0x76, 0x30, 0, 8, 0, 58, 0]),
        (Format::Tspl, b"BITMAP 3,0,8,58,0,"),
        (Format::Zpl, b"^XA\n^FO3,0^GFA,464,464,8,"),
    ];
    for (format, start) in starts {
        assert!(
            image(&symbol, format, &options).unwrap().starts_with(start),
            "{format:?}"
        );
    }
    let wrong = ImageOptions {
        scale: 101,
        ..options
    };
    assert_eq!(image(&symbol, Format::Png, &wrong), Err(Error::Settings));
    let coloured = ImageOptions {
        colours: Some(Colours {
            dark: 0x0033_66FF,
            light: 0xFFFF_FF00,
        }),
        ..options
    };
    let file = image(&symbol, Format::Png, &coloured).unwrap();
    let places = |wanted: &[u8]| {
        file.windows(wanted.len())
            .filter(|it| *it == wanted)
            .count()
    };
    assert_eq!(
        (
            places(b"PLTE\x00\x33\x66\xFF\xFF\xFF"),
            places(b"tRNS\xFF\x00")
        ),
        (1, 1)
    );
    assert_eq!(image(&symbol, Format::Zpl, &coloured), Err(Error::Settings));
    let colours = coloured.colours.unwrap();
    let pages = document_in_colours(&[symbol.clone(), symbol.clone()], colours, 4, 330).unwrap();
    let pages = String::from_utf8(pages).unwrap();
    assert_eq!(pages.matches(" cm\n0.000 0.200 0.400 rg\n").count(), 2);
    let clear = Colours {
        dark: 0x0033_6680,
        ..colours
    };
    assert_eq!(
        document_in_colours(std::slice::from_ref(&symbol), clear, 4, 330),
        Err(Error::Settings)
    );
    for (mm, dpi, dots) in [
        (14.515, 203.0, 4),
        (18.142, 203.0, 4),
        (18.143, 203.0, 5),
        (9.822, 300.0, 4),
        (4.911, 600.0, 4),
        (1000.0, 600.0, 100),
    ] {
        let (found, width) = symbol.printed_size(mm, dpi, 4).unwrap();
        assert_eq!(found, dots, "{mm} mm at {dpi}");
        assert!((width - f64::from(dots) * 29.0 * 25.4 / dpi).abs() < 1e-9);
    }
    for (mm, dpi) in [
        (3.0, 203.0),
        (0.0, 203.0),
        (20.0, 0.0),
        (f64::NAN, 203.0),
        (20.0, 100_001.0),
    ] {
        assert_eq!(symbol.printed_size(mm, dpi, 4), Err(Error::Settings));
    }
    let pages = document(&[symbol.clone(), symbol.clone()], Document::Pdf, 4, 500).unwrap();
    assert!(pages.starts_with(b"%PDF-1.4\n") && pages.ends_with(b"%%EOF\n"));
    assert_eq!(document(&[], Document::Eps, 4, 500), Err(Error::Settings));
    assert_eq!(
        document(&[symbol], Document::Svg, 4, 0),
        Err(Error::Settings)
    );
}

#[test]
fn sheets_of_label_paper() {
    let symbol = encode(b"Shelf 12", Version::MIN, Level::L, &Options::default()).unwrap();
    // places of 29 mm on paper of 61 by 94 mm, which is 172.913385 by 266.456692 points
    let sheet = Sheet {
        width: 61_000,
        height: 94_000,
        left: 1_000,
        top: 2_000,
        across: 30_000,
        down: 31_000,
        columns: 2,
        rows: 3,
        first: 5,
    };
    let pages = sheets(&[symbol.clone(), symbol.clone()], &sheet, 4, 1_000).unwrap();
    let text = String::from_utf8(pages).unwrap();
    assert_eq!(
        text.matches("/MediaBox[0 0 172.913385 266.456692]").count(),
        2
    );
    // 31 mm from the left, and 94 - 2 - 2 * 31 - 29 from the lower edge
    assert!(text.contains("stream\nq 2.834645 0 0 2.834645 87.874015 2.834645 cm\n"));
    for wrong in [
        Sheet {
            width: 59_999,
            ..sheet
        },
        Sheet {
            down: 31_501,
            ..sheet
        },
        Sheet { first: 6, ..sheet },
        Sheet {
            columns: 0,
            ..sheet
        },
    ] {
        let refused = sheets(&[symbol.clone()], &wrong, 4, 1_000);
        assert_eq!(refused, Err(Error::Settings), "{wrong:?}");
    }
    assert_eq!(sheets(&[], &sheet, 4, 1_000), Err(Error::Settings));
    assert_eq!(sheets(&[symbol], &sheet, 4, 1_035), Err(Error::Settings));
}

/// A module of each of the first five codewords of version 1. In the symbol of eight digits the first three are dark.
const FIVE: [usize; 5] = [
    20 * 21 + 20,
    16 * 21 + 20,
    12 * 21 + 20,
    9 * 21 + 18,
    13 * 21 + 18,
];

/// Returns eight digits mended, of whose modules some are not known and some wrong.
fn mended_without(unknown: &[usize], wrong: &[usize]) -> qrproved::Mended {
    let mut modules = eight_digits();
    for &place in wrong {
        modules[place] ^= 1;
    }
    for &place in unknown {
        modules[place] = 2;
    }
    let mended = mend(&modules, 21).unwrap();
    assert_eq!(mended.content, plain(b"01234567"));
    mended
}

#[test]
fn damage_is_measured_for_a_scanner_and_for_the_library() {
    // What is unknown and wrong; the greatest e + 2w; w, e and how many of e are wrong if they are dark; both shares.
    let rows: [(&[usize], &[usize], u8, [u8; 3], f64, f64, bool); 6] = [
        (&[], &[], 0, [0, 0, 0], 0.0, 0.0, true),
        (&FIVE, &[], 5, [0, 5, 2], 1.25, 0.625, false),
        (&FIVE[..4], &[], 4, [0, 4, 1], 1.0, 0.5, true),
        (&FIVE[3..], &[], 2, [0, 2, 2], 0.5, 0.25, true),
        (&FIVE[2..], &FIVE[..1], 5, [1, 3, 2], 1.0, 0.625, true),
        (&FIVE[1..], &FIVE[..1], 6, [1, 4, 2], 1.25, 0.75, false),
    ];
    for (unknown, wrong, most, worst, spent, spent_here, is_scannable) in rows {
        let mended = mended_without(unknown, wrong);
        let (misread, erased) = (mended.worst_misread, mended.worst_unknown);
        assert_eq!(mended.spent_most, most);
        assert_eq!([misread, erased, mended.worst_unknown_wrong], worst);
        assert_eq!((mended.spent(), mended.spent_here()), (spent, spent_here));
        assert_eq!(mended.is_scannable(), is_scannable);
    }
}

#[test]
fn a_scanner_needs_one_copy_of_the_format_information() {
    // One copy is in row 8 and column 8 at the upper left, the other in both at the other corners.
    let first: Vec<usize> = (0..4).map(|column| 8 * 21 + column).collect();
    let second: Vec<usize> = (17..21).map(|row| row * 21 + 8).collect();
    let rows = [
        (first.as_slice(), 8, 4, false),
        (&first[1..], 7, 3, true),
        (&[], 4, 0, true),
    ];
    for (first, all, least, is_scannable) in rows {
        let mended = mended_without(&[first, second.as_slice()].concat(), &[]);
        let counts = (mended.wrong_format_modules, mended.wrong_format_least);
        assert_eq!(counts, (all, least));
        assert_eq!((mended.spent(), mended.is_scannable()), (0.0, is_scannable));
    }
}

#[test]
fn kanji_mode_is_shift_jis() {
    let content_of = |input: &[u8], options: &Options| {
        let symbol = encode(input, Version::MIN, Level::L, options).unwrap();
        let content = read(symbol.modules(), symbol.side()).unwrap();
        let mended = mend(symbol.modules(), symbol.side()).unwrap();
        assert_eq!(mended.content, content);
        content
    };
    let content = content_of(b"\x93\x5f\xe4\xaa", &WITH_KANJI);
    assert_eq!((content.kanji, content.ecis.len()), (true, 0));
    assert_eq!(content.text(), Err(TextError::Eci(20)));
    assert!(!content_of(b"\x93\x5f\xe4\xaa", &PLAIN).kanji);

    // Three bytes that are a character of UTF-8 and, with the next one, two of Shift JIS.
    let content = content_of(b"\xe3\x83\x86\x41", &WITH_KANJI);
    assert_eq!(
        (content.kanji, content.text()),
        (true, Err(TextError::Eci(20)))
    );
    let gs1 = Content {
        fnc1: Some(Fnc1::Gs1),
        ..content.clone()
    };
    assert_eq!(gs1.text().as_deref(), Ok("テA"));
    let marked = Content {
        ecis: vec![Eci {
            begin: 0,
            number: 26,
        }],
        ..content
    };
    assert_eq!(marked.text().as_deref(), Ok("テA"));
}

#[test]
fn a_symbol_has_rows_and_columns() {
    let symbol = encode(b"01234567", Version::MIN, Level::M, &PLAIN).unwrap();
    assert_eq!(
        (symbol.version(), symbol.side(), symbol.modules().len()),
        (Version::MIN, 21, 441)
    );
    assert_eq!(
        symbol.rows().map(|row| row.len()).collect::<Vec<_>>(),
        [21; 21]
    );
    assert_eq!(
        [
            symbol.is_dark(0, 6),
            symbol.is_dark(0, 7),
            symbol.is_dark(6, 0),
            symbol.is_dark(7, 0)
        ],
        [true, false, true, false]
    );
    assert_eq!(
        read(symbol.modules(), symbol.side()),
        Ok(plain(b"01234567"))
    );
}

#[test]
fn a_symbol_has_a_mask_and_in_a_series_none() {
    for input in [b"01234567".as_slice(), b"A", b"Shelf 12"] {
        let symbol = encode(input, Version::MIN, Level::L, &PLAIN).unwrap();
        let mended = mend(symbol.modules(), symbol.side()).unwrap();
        assert_eq!(symbol.mask(), Some(mended.mask));
        let series = encode_series(input, Version::MIN, Level::L, &PLAIN).unwrap();
        assert_eq!(
            (series[0].modules(), series[0].mask()),
            (symbol.modules(), None)
        );
    }
}

#[test]
fn a_mask_may_be_chosen_by_hand() {
    let symbol = encode(b"01234567", Version::MIN, Level::M, &PLAIN).unwrap();
    let of_the_standard = symbol.clone().with_mask(0).unwrap();
    assert_eq!(
        (of_the_standard.mask(), of_the_standard.modules()),
        (Some(0), eight_digits().as_slice())
    );
    for mask in 0..8 {
        let masked = of_the_standard.clone().with_mask(mask).unwrap();
        let mended = mend(masked.modules(), masked.side()).unwrap();
        assert_eq!(
            (mended.mask, mended.wrong_modules, mended.content.data),
            (mask, 0, b"01234567".to_vec())
        );
    }
    assert_eq!(symbol.with_mask(8), Err(Error::Settings));
}

#[test]
#[should_panic(expected = "no module at row 0 and column 21")]
fn a_column_past_the_side_is_none() {
    let symbol = encode(b"A", Version::MIN, Level::L, &PLAIN).unwrap();
    let _ = symbol.is_dark(0, 21);
}

#[test]
fn versions_and_levels_are_made_of_numbers_and_letters() {
    for number in 0..=255 {
        let version = Version::try_from(number);
        assert_eq!(version, Version::new(number).ok_or(SettingError::Version));
        assert_eq!(version.is_ok(), (1..=40).contains(&number));
    }
    for (level, capital, small) in [
        (Level::L, "L", "l"),
        (Level::M, "M", "m"),
        (Level::Q, "Q", "q"),
        (Level::H, "H", "h"),
    ] {
        assert_eq!((capital.parse(), small.parse()), (Ok(level), Ok(level)));
        assert_eq!(
            (level.to_string(), format!("{level:>3}")),
            (capital.to_string(), format!("  {capital}"))
        );
    }
    for text in ["", " L", "LL", "A", "0", "\u{FF2C}"] {
        assert_eq!(text.parse::<Level>(), Err(SettingError::Level));
    }
    assert_eq!(Error::from(SettingError::Level), Error::Settings);
    assert_eq!(
        SettingError::Version.to_string(),
        "a version is from 1 to 40"
    );
}

#[test]
fn version_level_and_rule_reach_the_library() {
    let version_of = |input: &[u8], level, options| {
        encode(input, Version::MIN, level, options)
            .unwrap()
            .version()
            .number()
    };
    assert_eq!(
        encode(b"A", Version::new(7).unwrap(), Level::L, &PLAIN)
            .unwrap()
            .side(),
        45
    );
    assert_eq!(version_of(&[b'7'; 7089], Level::L, &PLAIN), 40);
    assert_eq!(version_of(&[b'7'; 41], Level::L, &PLAIN), 1); // Table 7
    assert_eq!(version_of(&[b'7'; 42], Level::L, &PLAIN), 2);
    assert_eq!(version_of(&[b'7'; 18], Level::L, &BYTES_ONLY), 2);
    assert_eq!(
        version_of(&b"\x93\x5f".repeat(10), Level::L, &WITH_KANJI),
        1
    );
    for level in [Level::L, Level::M, Level::Q, Level::H] {
        let symbol = encode(b"A", Version::MIN, level, &PLAIN).unwrap();
        assert_eq!(
            (
                symbol.level(),
                mend(symbol.modules(), symbol.side()).unwrap().level
            ),
            (level, level)
        );
    }
}

#[test]
fn a_symbol_has_the_highest_level_that_fits_its_version() {
    // Bytes that fit version 1 at the levels L, M, Q and H (ISO/IEC 18004:2015, Table 7).
    let rows = [
        (7, Level::H),
        (8, Level::Q),
        (11, Level::Q),
        (12, Level::M),
        (15, Level::L),
    ];
    for (count, level) in rows {
        let options = Options::default();
        let symbol = encode(&vec![b'a'; count], Version::MIN, Level::L, &options).unwrap();
        let mended = mend(symbol.modules(), symbol.side()).unwrap();
        assert_eq!(
            (symbol.version(), symbol.level(), mended.level),
            (Version::MIN, level, level)
        );
    }
    let series = encode_series(b"A", Version::MAX, Level::L, &Options::default()).unwrap();
    assert_eq!(
        (
            series[0].level(),
            mend(series[0].modules(), 177).unwrap().level
        ),
        (Level::L, Level::L)
    );
}

#[test]
fn interpretations_are_written() {
    let content_of = |input: &[u8], options: &Options| {
        let symbol = encode(input, Version::MIN, Level::L, options).unwrap();
        read(symbol.modules(), symbol.side()).unwrap()
    };
    for (text, ecis) in [
        (
            "Grüße",
            vec![Eci {
                begin: 0,
                number: 26,
            }],
        ),
        ("Shelf 12", vec![]),
    ] {
        let content = content_of(text.as_bytes(), &Options::of_text(text));
        assert_eq!((content.text().as_deref(), content.ecis), (Ok(text), ecis));
    }
    for number in [0, 3, 127, 128, 16383, 16384, 999_999] {
        let content = content_of(b"A\xFF", &interpreted(Interpretation::Eci(number)));
        assert_eq!(
            (content.data.as_slice(), content.ecis),
            (b"A\xFF".as_slice(), vec![Eci { begin: 0, number }])
        );
    }
    let content = content_of(b"10A%B\x1D2112", &interpreted(Interpretation::Gs1));
    assert_eq!(
        (content.data.as_slice(), content.fnc1),
        (b"10A%B\x1D2112".as_slice(), Some(Fnc1::Gs1))
    );
    for (data, rule) in [(b"10A%B", Rule::BytesOnly), (b"10A-B", Rule::Auto)] {
        let options = Options::of_gs1(data);
        assert_eq!((options.rule, options.boost), (rule, true));
        let content = content_of(data, &options);
        assert_eq!(
            (content.data.as_slice(), content.fnc1),
            (data.as_slice(), Some(Fnc1::Gs1))
        );
    }
    let shift_jis = Options {
        interpretation: Interpretation::Eci(20),
        ..WITH_KANJI
    };
    assert_eq!(
        content_of(b"\x93\x5f", &shift_jis).ecis,
        [Eci {
            begin: 0,
            number: 20
        }]
    );
    let text = "Grüße aus Köln, ".repeat(12);
    let version = Version::new(3).unwrap();
    let series =
        encode_series(text.as_bytes(), version, Level::L, &Options::of_text(&text)).unwrap();
    assert!(series.len() > 2);
    for symbol in series {
        assert_eq!(
            read(symbol.modules(), 29).unwrap().ecis,
            [Eci {
                begin: 0,
                number: 26
            }]
        );
    }
}

#[test]
fn interpretations_are_refused() {
    let refused = |input: &[u8], options: &Options| {
        let one = encode(input, Version::MIN, Level::L, options).unwrap_err();
        assert_eq!(
            encode_series(input, Version::MIN, Level::L, options).unwrap_err(),
            one
        );
        one
    };
    for number in [1_000_000, 1_000_001, u32::MAX] {
        assert_eq!(
            refused(b"A", &interpreted(Interpretation::Eci(number))),
            Error::Settings
        );
    }
    let utf_8 = Options {
        interpretation: Interpretation::Eci(26),
        ..WITH_KANJI
    };
    assert_eq!(refused(b"A", &utf_8), Error::Settings);
    for input in [b"A\x1D\x1D".as_slice(), b"A\x1D%"] {
        assert_eq!(
            refused(input, &interpreted(Interpretation::Gs1)),
            Error::Fields
        );
    }
}

/// The counts of ISO/IEC 18004:2015, Table 7.
#[test]
fn as_many_characters_fit_as_table_7_says() {
    let modes = [Mode::Numeric, Mode::Alphanumeric, Mode::Byte, Mode::Kanji];
    let rows = [
        (1, Level::L, [41, 25, 17, 10]),
        (10, Level::M, [513, 311, 213, 131]),
        (27, Level::Q, [1933, 1172, 805, 496]),
        (40, Level::H, [3057, 1852, 1273, 784]),
    ];
    for (number, level, counts) in rows {
        let version = Version::new(number).unwrap();
        let found = modes.map(|mode| room(version, level, mode, Interpretation::Default, false));
        assert_eq!(found, counts.map(Ok), "{number}-{level}");
    }
    // 152 bits, less 20 for the header, 28 for the ECI and 12 for the mode and the count
    let headed = room(
        Version::MIN,
        Level::L,
        Mode::Byte,
        Interpretation::Eci(999_999),
        true,
    );
    assert_eq!(headed, Ok(11));
    for (number, mode) in [(26, Mode::Kanji), (1_000_000, Mode::Byte)] {
        let refused = room(
            Version::MIN,
            Level::L,
            mode,
            Interpretation::Eci(number),
            false,
        );
        assert_eq!(refused, Err(Error::Settings), "ECI {number}");
    }
}

#[test]
fn a_series_is_read_and_joined() {
    let data = b"ABCDEFGH".repeat(6);
    let series = encode_series(&data, Version::MIN, Level::L, &PLAIN).unwrap();
    let contents: Vec<_> = series
        .iter()
        .map(|it| read(it.modules(), it.side()).unwrap())
        .collect();
    let count = series.len() as u8;
    assert!(count > 1);
    assert_eq!(
        contents
            .iter()
            .flat_map(|it| it.data.clone())
            .collect::<Vec<_>>(),
        data
    );
    for (position, content) in (0..).zip(&contents) {
        assert_eq!(
            content.header,
            Some(Header {
                position,
                count,
                parity: 0
            })
        );
    }
    assert_eq!(
        encode_series(b"A", Version::MAX, Level::H, &PLAIN)
            .unwrap()
            .len(),
        1
    );
}

#[test]
fn each_refusal_has_its_error() {
    let letters = |count| vec![b'a'; count];
    assert_eq!(
        encode(b"", Version::MIN, Level::L, &PLAIN),
        Err(Error::Empty)
    );
    assert_eq!(
        encode(&letters(2954), Version::MIN, Level::L, &BYTES_ONLY),
        Err(Error::TooLong)
    );
    assert_eq!(
        encode_series(&letters(81), Version::MIN, Level::H, &BYTES_ONLY),
        Err(Error::TooMany)
    );
    assert_eq!(read(&eight_digits(), 22), Err(Error::Side));
    for side in [0, 256, 277, usize::MAX] {
        assert_eq!(
            (read(&eight_digits(), side), mend(&eight_digits(), side)),
            (Err(Error::Side), Err(Error::Side))
        );
    }
    assert_eq!(read(&eight_digits()[..440], 21), Err(Error::Room));
    assert_eq!(mend(&[3; 441], 21), Err(Error::Settings));
    assert_eq!(read(&[1; 441], 21), Err(Error::Format));
    assert_eq!(Version::new(0), None);
    assert_eq!(Version::new(41), None);
}

#[test]
fn calls_run_side_by_side() {
    let wanted = encode(b"Shelf 12", Version::MIN, Level::M, &PLAIN).unwrap();
    std::thread::scope(|scope| {
        for _ in 0..8 {
            scope.spawn(|| {
                assert_eq!(
                    encode(b"Shelf 12", Version::MIN, Level::M, &PLAIN).as_ref(),
                    Ok(&wanted)
                )
            });
        }
    });
}

#[test]
fn symbols_are_drawn() {
    let symbol = encode(b"A", Version::MIN, Level::L, &PLAIN).unwrap();
    let lines: String = symbol
        .rows()
        .map(|row| {
            row.iter()
                .map(|&it| if it == 1 { "##" } else { "  " })
                .collect::<String>()
                + "\n"
        })
        .collect();
    let drawn = draw(std::slice::from_ref(&symbol), Drawing::Ascii, 0).unwrap();
    assert_eq!(String::from_utf8(drawn).unwrap(), lines);
    let two = draw(&[symbol.clone(), symbol.clone()], Drawing::Ascii, 0).unwrap();
    assert_eq!(String::from_utf8(two).unwrap(), lines.repeat(2));
    let blank = draw(std::slice::from_ref(&symbol), Drawing::Utf8, 100).unwrap();
    assert!(String::from_utf8(blank)
        .unwrap()
        .starts_with(&"\u{2588}".repeat(221)));
    let document = draw(std::slice::from_ref(&symbol), Drawing::Svg, 4).unwrap();
    assert!(String::from_utf8(document)
        .unwrap()
        .contains("viewBox=\"0 0 29 29\""));

    let other = encode(b"A", Version::MAX, Level::L, &PLAIN).unwrap();
    let none: &[qrproved::Symbol] = &[];
    assert_eq!(draw(none, Drawing::Utf8, 4), Err(Error::Settings));
    assert_eq!(
        draw(&vec![symbol.clone(); 17], Drawing::Utf8, 4),
        Err(Error::Settings)
    );
    assert_eq!(
        draw(&[symbol.clone(), other], Drawing::Utf8, 4),
        Err(Error::Settings)
    );
    assert_eq!(draw(&[symbol], Drawing::Utf8, 101), Err(Error::Settings));
}

#[test]
fn squares_are_drawn() {
    // A square of one module is no symbol. Bytes past the module are ignored.
    for (square, text) in [([1u8, 0], "##\n"), ([7, 1], "##\n"), ([0, 1], "  \n")] {
        let drawn = draw_squares(&[square], 1, Drawing::Ascii, 0);
        assert_eq!(drawn.as_deref(), Ok(text.as_bytes()));
    }
    let two = draw_squares(&[vec![1u8, 1], vec![0]], 1, Drawing::AsciiInverse, 0);
    assert_eq!(two.as_deref(), Ok(b"  \n##\n".as_slice()));

    let refused = |squares: &[&[u8]], side, margin| {
        draw_squares(squares, side, Drawing::Svg, margin).unwrap_err()
    };
    let square: &[u8] = &[0; 441];
    assert_eq!(refused(&[], 21, 4), Error::Settings);
    assert_eq!(refused(&[square; 17], 21, 4), Error::Settings);
    assert_eq!(refused(&[square], 21, 101), Error::Settings);
    assert_eq!(refused(&[&[]], 0, 4), Error::Settings);
    assert_eq!(refused(&[&[]], 178, 4), Error::Settings);
    assert_eq!(refused(&[square], usize::MAX, 4), Error::Settings);
    assert_eq!(refused(&[square, &square[1..]], 21, 4), Error::Room);
}

#[test]
fn a_document_has_a_size() {
    let symbols = vec![encode(b"A", Version::MIN, Level::L, &PLAIN).unwrap(); 2];
    for (count, mm, size) in [
        (1, 29.0, "width=\"29.000mm\" height=\"29.000mm\""),
        // a 29th of 12.5 mm is 431.03 micrometres
        (2, 12.5, "width=\"12.499mm\" height=\"24.998mm\""),
    ] {
        let plain = draw(&symbols[..count], Drawing::Svg, 4).unwrap();
        let sized = draw_svg(&symbols[..count], 4, mm).unwrap();
        let wanted = String::from_utf8(plain)
            .unwrap()
            .replace(" viewBox=", &format!(" {size} viewBox="));
        assert_eq!(String::from_utf8(sized).unwrap(), wanted);
    }
    for mm in [
        0.0,
        -1.0,
        0.01,
        29_015.0,
        100_001.0,
        f64::INFINITY,
        f64::NAN,
    ] {
        assert_eq!(draw_svg(&symbols, 4, mm), Err(Error::Settings));
    }
    assert_eq!(draw_svg(&[], 4, 29.0), Err(Error::Settings));
    assert_eq!(draw_svg(&symbols, 101, 29.0), Err(Error::Settings));
}

#[test]
fn drawings_are_parsed() {
    let symbols = encode_series(b"ABCDEFGH", Version::MIN, Level::H, &BYTES_ONLY).unwrap();
    assert_eq!(symbols.len(), 2);
    for drawing in [
        Drawing::Ascii,
        Drawing::AsciiInverse,
        Drawing::Utf8,
        Drawing::Svg,
    ] {
        for margin in [0, 3, 100] {
            let text = draw(&symbols, drawing, margin).unwrap();
            let drawn = parse_drawing(&text).unwrap();
            assert_eq!(
                (drawn.drawing, drawn.margin, drawn.side),
                (drawing, margin, 21)
            );
            let contents: Vec<Vec<u8>> = drawn
                .squares
                .iter()
                .map(|modules| read(modules, drawn.side).unwrap().data)
                .collect();
            assert_eq!(contents.concat(), b"ABCDEFGH");
            assert_eq!(parse_drawing(&text[1..]), Err(Error::NoDrawing));
            let document = draw_squares(&drawn.squares, drawn.side, Drawing::Svg, 4);
            assert_eq!(document, draw(&symbols, Drawing::Svg, 4));
        }
    }
    assert_eq!(parse_drawing(b""), Err(Error::NoDrawing));
}

/// Returns the picture of a symbol of three pixels a module and a margin of four modules, turned by a quarter, with one grey pixel if
/// it is not to be a clean picture.
fn turned_picture(modules: &[u8], side: usize, is_clean: bool) -> (Vec<u8>, usize) {
    let size = 3 * (side + 8);
    let mut pixels = vec![255; size * size];
    for y in 0..3 * side {
        for x in 0..3 * side {
            if modules[(side - 1 - x / 3) * side + y / 3] == 1 {
                pixels[(y + 12) * size + x + 12] = 0;
            }
        }
    }
    if !is_clean {
        pixels[0] = 128;
    }
    (pixels, size)
}

#[test]
fn symbols_are_found_in_pictures() {
    let symbol = encode(b"Shelf 12", Version::MIN, Level::M, &PLAIN).unwrap();
    for is_clean in [true, false] {
        let (pixels, size) = turned_picture(symbol.modules(), symbol.side(), is_clean);
        let width = size as u32;
        let all = find(&pixels, width, width, width, false).unwrap();
        assert_eq!(all.len(), 1);
        assert_eq!(
            (&all[0].modules[..], all[0].side, all[0].quarter_turns),
            (symbol.modules(), symbol.side(), 1)
        );
        assert!(all[0].is_read && !all[0].is_inverse && !all[0].is_mirrored);
        assert_eq!(
            find(&pixels[1..], width, width, width, false),
            Err(Error::Room)
        );
    }
    assert_eq!(find(&[200; 100], 10, 10, 10, true), Ok(Vec::new()));
    assert_eq!(find(&[200; 100], 10, 10, 9, true), Err(Error::Settings));
}

/// The rows of tests/lib/library_rows.py say how the numbers were worked out.
#[test]
fn a_logo_decides_on_the_version_and_the_level() {
    let letters = [b'a'; 17];
    for (side, share, version, level) in [
        (2, 50, 1, Level::L),
        (3, 50, 2, Level::Q),
        (2, 49, 2, Level::Q),
    ] {
        let logo = Logo { side, share };
        let symbol = encode_with_logo(&letters, Version::MIN, Level::L, &PLAIN, logo).unwrap();
        assert_eq!(
            (symbol.version().number(), symbol.level()),
            (version, level)
        );
    }
}

#[test]
fn a_symbol_is_read_whatever_its_logo_shows() {
    let symbol = encode_with_logo(
        b"Shelf 12",
        Version::MIN,
        Level::L,
        &PLAIN,
        Logo::of_side(8),
    )
    .unwrap();
    let (side, at) = (symbol.side(), symbol.logo_at(8));
    let mut modules = symbol.modules().to_vec();
    for row in at..at + 8 {
        for module in &mut modules[row * side + at..row * side + at + 8] {
            *module ^= 1;
        }
    }
    let mended = mend(&modules, side).unwrap();
    assert_eq!(mended.content.data, b"Shelf 12");
    assert!(mended.spent() <= 0.5);
}

#[test]
fn a_logo_that_is_too_large_says_what_would_fit() {
    let too_large = |side| {
        let logo = Logo::of_side(side);
        encode_with_logo(b"A", Version::MIN, Level::L, &PLAIN, logo)
    };
    let Err(LogoError::TooLarge(largest)) = too_large(177) else {
        panic!("a logo of 177 modules");
    };
    assert!(too_large(largest).is_ok());
    assert_eq!(too_large(largest + 1), Err(LogoError::TooLarge(largest)));
    assert_eq!(too_large(178), Err(LogoError::Encode(Error::Settings)));
    assert_eq!(
        LogoError::TooLarge(61).to_string(),
        "a symbol of this input may have a logo of at most 61 by 61 modules"
    );
}
