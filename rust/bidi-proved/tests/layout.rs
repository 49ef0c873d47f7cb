//! Texts whose levels, order and shown lines were worked out by hand by the rules.
use bidi_proved::{Direction, Error, Layout, Level, Limits, Room, Run, Tables, Text};

type Tested = Result<(), Error>;

const TEXT: &str = "ab (\u{5D2}\u{5D3}) 12";
const DIRECTIONS: [Direction; 4] = [Direction::Ltr, Direction::Rtl, Direction::Auto, Direction::AutoRtl];

fn numbers(levels: &[Option<Level>]) -> Vec<Option<u8>> {
    levels.iter().map(|level| level.map(Level::number)).collect()
}

fn run_of(run: &Run) -> (usize, usize, usize, u8) {
    (run.start, run.length, run.shown, run.level.number())
}

#[test]
fn a_right_to_left_line() -> Tested {
    let (tables, mut room) = (Tables::standard()?, Room::new(TEXT.len())?);
    assert_eq!(room.size(), 12);
    let layout = room.lay_out(TEXT, &tables, Direction::Rtl, &[])?;
    let levels = [2, 2, 1, 1, 1, 1, 1, 1, 1, 1, 2, 2];
    assert_eq!(numbers(&layout.levels()), levels.map(Some));
    assert_eq!(layout.paragraph_levels().iter().map(|level| level.number()).collect::<Vec<_>>(), [1]);
    assert_eq!((layout.line_count(), layout.text()), (1, TEXT));
    let line = layout.line(0).unwrap();
    assert_eq!(line.range(), 0..12);
    assert_eq!(line.order(), [10, 11, 9, 8, 6, 4, 3, 2, 0, 1]);
    let runs = line.runs();
    assert_eq!(runs.iter().map(run_of).collect::<Vec<_>>(), [(10, 2, 2, 2), (2, 8, 6, 1), (0, 2, 2, 2)]);
    assert_eq!((&TEXT[runs[1].range()], runs[1].level.is_rtl()), (" (\u{5D2}\u{5D3}) ", true));
    assert_eq!(line.places(), [8, 9, 7, 6, 5, 5, 4, 4, 3, 2, 0, 1].map(Some));
    assert_eq!(line.shown(&tables), "12 (\u{5D3}\u{5D2}) ab");
    assert!(layout.line(1).is_none());
    Ok(())
}

#[test]
fn offsets_and_indices() -> Tested {
    let (tables, mut room) = (Tables::standard()?, Room::new(20)?);
    let layout = room.lay_out("a\u{202B}b\n\u{1F600}", &tables, Direction::Auto, &[])?;
    let levels = [Some(0), None, None, None, Some(2), Some(0), Some(0), Some(0), Some(0), Some(0)];
    assert_eq!(numbers(&layout.levels()), levels);
    let at = |offset| layout.level_at(offset).map(Level::number);
    assert_eq!([at(0), at(2), at(4), at(10), at(usize::MAX)], [Some(0), None, Some(2), None, None]);
    assert_eq!([0, 1, 3, 4, 6, 9, 10].map(|offset| layout.index_of(offset)), [0, 1, 1, 2, 4, 4, 5]);
    assert_eq!([0, 1, 2, 3, 4, 5, 6].map(|index| layout.offset_of(index)), [0, 1, 4, 5, 6, 10, 10]);
    let level = |offset| layout.para_level_at(offset).map(Level::number);
    assert_eq!([level(0), level(5), level(6), level(10)], [Some(0), Some(0), Some(0), None]);
    let places: Vec<_> = layout.lines().map(|line| line.places()).collect();
    assert_eq!(places, [vec![Some(0), None, None, None, Some(1), Some(2)], vec![Some(0); 4]]);
    let orders: Vec<Vec<usize>> = layout.lines().map(|line| line.order()).collect();
    assert_eq!(orders, [vec![0, 4, 5], vec![6]]);
    let shown: Vec<(String, String)> =
        layout.lines().map(|line| (line.shown(&tables), line.display(&tables))).collect();
    let pair = |shown: &str, display: &str| (shown.to_string(), display.to_string());
    assert_eq!(shown, [pair("ab\n", "ab"), pair("\u{1F600}", "\u{1F600}")]);
    Ok(())
}

#[test]
fn other_lines() -> Tested {
    let (tables, mut room) = (Tables::standard()?, Room::new(20)?);
    let mut layout = room.lay_out("\u{5D0} \u{5D1} a", &tables, Direction::Ltr, &[])?;
    assert_eq!(layout.lines().map(|line| line.display(&tables)).collect::<Vec<_>>(), ["\u{5D1} \u{5D0} a"]);
    layout.set_lines(&[3])?;
    assert_eq!(layout.lines().map(|line| line.range()).collect::<Vec<_>>(), [0..3, 3..7]);
    assert_eq!(layout.lines().map(|line| line.display(&tables)).collect::<Vec<_>>(), ["\u{5D0} ", "\u{5D1} a"]);
    assert_eq!(numbers(&layout.levels()), [1, 1, 0, 1, 1, 0, 0].map(Some));
    assert_eq!(layout.set_lines(&[3, 4]), Err(Error::BreakInside { index: 1 }));
    assert_eq!(layout.set_lines(&[7]), Err(Error::BreakOutOfRange { index: 0 }));
    assert_eq!(layout.line_count(), 2);
    layout.set_lines(&[])?;
    assert_eq!(layout.line_count(), 1);
    Ok(())
}

#[test]
fn lines_alone() -> Tested {
    let (tables, mut room) = (Tables::standard()?, Room::new(30)?);
    let layout = room.lay_out("a b\nc \u{5D0}\u{202C} 1", &tables, Direction::Rtl, &[])?;
    let line = layout.line_of(4..12)?;
    assert_eq!(numbers(line.levels()), [Some(2), Some(1), Some(1), Some(1), None, None, None, Some(1)]);
    assert_eq!((line.range(), line.order()), (4..12, &[11, 6, 5, 4][..]));
    assert_eq!(line.places(), [Some(3), Some(2), Some(1), Some(1), None, None, None, Some(0)]);
    assert_eq!(line.runs().iter().map(run_of).collect::<Vec<_>>(), [(5, 7, 3, 1), (4, 1, 1, 2)]);
    assert_eq!((line.shown(&tables), line.display(&tables)), (" \u{5D0} c".to_string(), " \u{5D0} c".to_string()));
    let line = layout.line_of(8..11)?;
    assert_eq!((numbers(line.levels()), line.order(), line.places()), (vec![None; 3], &[][..], vec![None; 3]));
    assert_eq!(line.runs().iter().map(run_of).collect::<Vec<_>>(), [(8, 3, 0, 1)]);
    let line = layout.line_of(1..4)?;
    assert_eq!((line.shown(&tables), line.display(&tables)), ("\n b".to_string(), " b".to_string()));
    assert_eq!(layout.lines().map(|line| line.range()).collect::<Vec<_>>(), [0..4, 4..13]);
    Ok(())
}

#[test]
fn lines_that_are_not() -> Tested {
    let (tables, mut room) = (Tables::standard()?, Room::new(30)?);
    let layout = room.lay_out("a b\nc \u{5D0}\u{202C} 1", &tables, Direction::Rtl, &[])?;
    for (start, end, error) in [
        (3, 3, Error::LineNotForward),
        (99, 12, Error::LineNotForward),
        (7, 14, Error::LineBeyondText),
        (0, usize::MAX, Error::LineBeyondText),
        (usize::MAX - 1, usize::MAX, Error::LineBeyondText),
        (7, 9, Error::BreakInside { index: 0 }),
        (0, 7, Error::BreakInside { index: 1 }),
        (3, 6, Error::LineCrossesParagraph),
    ] {
        assert_eq!(layout.line_of(start..end).err(), Some(error), "{start} to {end}");
    }
    Ok(())
}

/// Compares each line of a layout with what it is alone.
fn compare_lines<T: Text + ?Sized>(layout: &Layout<'_, T>, tables: &Tables) -> Tested {
    for line in layout.lines() {
        let alone = layout.line_of(line.range())?;
        assert_eq!(alone.levels(), &layout.levels()[line.range()]);
        assert_eq!((alone.order(), alone.places()), (&line.order()[..], line.places()));
        assert_eq!(alone.runs(), line.runs());
        assert_eq!((alone.shown(tables), alone.display(tables)), (line.shown(tables), line.display(tables)));
    }
    Ok(())
}

#[test]
fn lines_alone_beside_lines() -> Tested {
    let (tables, mut room) = (Tables::standard()?, Room::new(200)?);
    let parts = [
        "\u{FEFF}a",
        "\u{5D0}\u{200D}",
        " (1)\u{2029}",
        "\u{202B}\u{5D1} 2\u{202C}",
        "\u{1F600}\u{5D2}\n",
        " \u{2264}",
    ];
    for step in 1..6 {
        let text: String = (0..12).map(|k| parts[k * k * step % 11 % 6]).collect();
        let breaks: Vec<usize> = text.char_indices().map(|(at, _)| at).skip(1).step_by(step + 1).collect();
        let units: Vec<u16> = text.encode_utf16().chain([0xDC00, 0x29]).collect();
        let bytes = [text.as_bytes(), b"\xF0\x9F(\xFF"].concat();
        for direction in DIRECTIONS {
            compare_lines(&room.lay_out(&text, &tables, direction, &breaks)?, &tables)?;
            compare_lines(&room.lay_out_utf16_lossy(&units, &tables, direction, &[])?, &tables)?;
            compare_lines(&room.lay_out_utf8_lossy(&bytes, &tables, direction, &breaks)?, &tables)?;
        }
    }
    Ok(())
}

#[test]
fn separators_of_paragraphs() -> Tested {
    let (tables, mut room) = (Tables::standard()?, Room::new(40)?);
    let layout = room.lay_out("\u{5D0}\u{5D1} (cd)\r\n\na", &tables, Direction::Auto, &[])?;
    let shown: Vec<String> = layout.lines().map(|line| line.shown(&tables)).collect();
    assert_eq!(shown, ["\r(cd) \u{5D1}\u{5D0}", "\n", "\n", "a"]);
    let display: Vec<String> = layout.lines().map(|line| line.display(&tables)).collect();
    assert_eq!(display, ["(cd) \u{5D1}\u{5D0}", "", "", "a"]);
    let nothing = room.lay_out("", &tables, Direction::Auto, &[])?;
    assert_eq!((nothing.levels(), nothing.line_count()), (vec![], 0));
    Ok(())
}

#[test]
fn utf16() -> Tested {
    let (tables, mut room) = (Tables::standard()?, Room::new(20)?);
    let text: Vec<u16> = "\u{10840}a\u{1F600}".encode_utf16().collect();
    let layout = room.lay_out_utf16(&text, &tables, Direction::Auto, &[2])?;
    assert_eq!(numbers(&layout.levels()), [1, 1, 2, 1, 1].map(Some));
    assert_eq!(layout.lines().map(|line| line.range()).collect::<Vec<_>>(), [0..2, 2..5]);
    assert_eq!(layout.line(1).unwrap().order(), [3, 2]);
    assert_eq!(layout.line(1).unwrap().shown(&tables), "\u{1F600}a");
    let lone = [0x5D0, 0xD800, 0x61];
    let rejected = room.lay_out_utf16(&lone, &tables, Direction::Auto, &[]);
    assert_eq!(rejected.err(), Some(Error::IllFormed { offset: 1 }));
    let layout = room.lay_out_utf16_lossy(&lone, &tables, Direction::Auto, &[])?;
    assert_eq!(layout.line(0).unwrap().shown(&tables), "a\u{FFFD}\u{5D0}");
    Ok(())
}

#[test]
fn bytes_that_are_not_utf8() -> Tested {
    let (tables, mut room) = (Tables::standard()?, Room::new(20)?);
    let bytes = b"\xD7\x90\xF0\x9F\x98 \xFF\xD7\x91";
    let layout = room.lay_out_utf8_lossy(bytes, &tables, Direction::Auto, &[2])?;
    assert_eq!(layout.lines().map(|line| line.range()).collect::<Vec<_>>(), [0..2, 2..9]);
    assert_eq!(layout.line(1).unwrap().order(), [7, 6, 5, 2]);
    assert_eq!(layout.line(1).unwrap().shown(&tables), "\u{5D1}\u{FFFD} \u{FFFD}");
    let inside = room.lay_out_utf8_lossy(bytes, &tables, Direction::Auto, &[3]);
    assert_eq!(inside.err(), Some(Error::BreakInside { index: 0 }));
    Ok(())
}

#[test]
fn limits() -> Tested {
    let (tables, mut room) = (Tables::standard()?, Room::new(20)?);
    let text = "\u{5D0}(\u{5D1})";
    for (brackets, level) in [(63, 1), (0, 0)] {
        let limits = Limits { brackets, ..Limits::default() };
        let layout = room.lay_out_with(text, &tables, Direction::Ltr, &[], limits)?;
        assert_eq!(layout.level_at(5).map(Level::number), Some(level));
        let units: Vec<u16> = text.encode_utf16().collect();
        let layout = room.lay_out_utf16_with(&units, &tables, Direction::Ltr, &[], limits)?;
        assert_eq!(layout.level_at(3).map(Level::number), Some(level));
        let layout = room.lay_out_utf16_lossy_with(&units, &tables, Direction::Ltr, &[], limits)?;
        assert_eq!(layout.level_at(3).map(Level::number), Some(level));
        let layout = room.lay_out_utf8_lossy_with(text.as_bytes(), &tables, Direction::Ltr, &[], limits)?;
        assert_eq!(layout.level_at(5).map(Level::number), Some(level));
    }
    for (depth, brackets, error) in [(0, 63, Error::Depth), (126, 64, Error::Depth), (125, 64, Error::Brackets)] {
        let rejected = room.lay_out_with(text, &tables, Direction::Ltr, &[], Limits { depth, brackets });
        assert_eq!(rejected.err(), Some(error));
    }
    Ok(())
}

#[test]
fn errors() -> Tested {
    let (tables, mut room) = (Tables::standard()?, Room::new(4)?);
    for (text, breaks, error) in [
        ("abcde", [1, 2], Error::TooLong),
        ("abcd", [0, 1], Error::BreakOutOfRange { index: 0 }),
        ("abcd", [1, 4], Error::BreakOutOfRange { index: 1 }),
        ("abcd", [2, 2], Error::BreakNotRising { index: 1 }),
        ("a\u{5D0}b", [1, 2], Error::BreakInside { index: 1 }),
    ] {
        let rejected = room.lay_out(text, &tables, Direction::Auto, &breaks).err();
        assert_eq!(rejected, Some(error), "{text}");
    }
    assert_eq!(Room::new(16_777_217).err(), Some(Error::TooBig));
    let error: Box<dyn std::error::Error + Send + Sync> = Error::BreakInside { index: 1 }.into();
    assert_eq!(error.to_string(), "break 1 is inside a character");
    Ok(())
}
