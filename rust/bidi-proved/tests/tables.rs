//! Tables: what they say of characters, and faulty files.
use bidi_proved::{Bracket, Class, Direction, Error, FaultKind, Level, TableFault, Tables};

type Tested = Result<(), Error>;

const CLASSES: &[u8] = b"0028..0029 ; ON\n0061..007A ; L\n05D0..05EA ; R\n";
const BRACKETS: &[u8] = b"0028; 0029; o\n0029; 0028; c\n";
const MIRRORS: &[u8] = b"0028; 0029\n0029; 0028\n";

#[test]
fn characters() -> Tested {
    for tables in [Tables::standard()?, Tables::read(CLASSES, BRACKETS, MIRRORS)?] {
        assert_eq!((tables.mirror('('), tables.mirror('a')), (')', 'a'));
        assert_eq!([tables.class('a'), tables.class('\u{5D0}')], [Ok(Class::L), Ok(Class::R)]);
        let brackets = ['(', ')', 'a'].map(|character| tables.bracket(character));
        assert_eq!(brackets, [Ok(Some(Bracket::Opening)), Ok(Some(Bracket::Closing)), Ok(None)]);
    }
    let tables = Tables::standard()?;
    let classes = ['\u{2029}', '\u{2069}', '\u{202C}', '\u{300}'].map(|character| tables.class(character));
    assert_eq!(classes, [Ok(Class::B), Ok(Class::PDI), Ok(Class::PDF), Ok(Class::NSM)]);
    Ok(())
}

#[test]
fn texts_without_a_layout() -> Tested {
    let tables = Tables::standard()?;
    let levels = |text, direction| -> Result<Vec<u8>, Error> {
        Ok(tables.base_levels(text, direction)?.into_iter().map(Level::number).collect())
    };
    assert_eq!(levels("1\n\u{5D0}\na", Direction::Auto)?, [0, 1, 0]);
    assert_eq!(levels("1\n\u{5D0}\na", Direction::AutoRtl)?, [1, 1, 0]);
    assert_eq!(levels("", Direction::Auto)?, []);
    assert_eq!(tables.base_level("(\u{5D0}", Direction::Auto)?.number(), 1);
    assert_eq!(tables.base_level("(\u{5D0}", Direction::Ltr)?.number(), 0);
    assert!(tables.is_left_to_right("a (1)")?);
    assert!(!tables.is_left_to_right("a \u{5D0}")?);
    Ok(())
}

#[test]
fn utf16_without_a_layout() -> Tested {
    let tables = Tables::standard()?;
    let text: Vec<u16> = "1\n\u{10840}\na".encode_utf16().collect();
    let numbers: Vec<u8> = tables.base_levels_utf16(&text, Direction::Auto)?.into_iter().map(Level::number).collect();
    assert_eq!(numbers, [0, 1, 0]);
    assert_eq!(tables.base_level_utf16(&text[2..], Direction::Auto)?.number(), 1);
    assert!(!tables.is_left_to_right_utf16(&text)?);
    assert!(tables.is_left_to_right_utf16(&text[..2])?);
    let lone = [0x61, 0xD800];
    let error = Error::IllFormed { offset: 1 };
    assert_eq!(tables.base_level_utf16(&lone, Direction::Auto).err(), Some(error));
    assert_eq!(tables.base_levels_utf16(&lone, Direction::Auto).err(), Some(error));
    assert_eq!(tables.is_left_to_right_utf16(&lone).err(), Some(error));
    Ok(())
}

#[test]
fn faulty_files() {
    let fault = |line, kind| TableFault { line, kind };
    let classes = Tables::read(b"0041 ; L\n41 ; L\n", b"", b"").err();
    assert_eq!(classes, Some(Error::ClassFile(fault(2, FaultKind::CodePoint))));
    let brackets = Tables::read(CLASSES, b"0028; 0029; x\n", MIRRORS).err();
    assert_eq!(brackets, Some(Error::BracketFile(fault(1, FaultKind::BracketKind))));
    let mirrors = Tables::read(CLASSES, BRACKETS, b"0028\n").err();
    assert_eq!(mirrors, Some(Error::MirrorFile(fault(1, FaultKind::Fields))));
    assert_eq!(classes.unwrap().to_string(), "DerivedBidiClass.txt: line 2: CodePoint");
}

#[test]
fn versions() {
    assert_eq!(bidi_proved::version(), env!("CARGO_PKG_VERSION"));
    assert_eq!(bidi_proved::edition().split('.').count(), 3);
}
