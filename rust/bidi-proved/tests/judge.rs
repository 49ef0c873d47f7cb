//! Test files that are right, wrong and malformed, judged and reported on.
use bidi_proved::{Cause, Direction, Error, Item, Judge, Limits, Report, Tables, Verdict, Wrong, WrongCase};

type Tested = Result<(), Error>;

const RIGHT: &[u8] = b"@Levels: 1 1 0\n@Reorder: 1 0 2\nR B L; 1\n";
const WRONG: &[u8] = b"@Levels: 0\n@Reorder: 0\nL; 7\n@Levels: x 3\n@Reorder: 1\nLRE R; 3\n@Levels: x\nRLE; 1\n";
const ROW: &str = "05D0 0028 0061 0029 05D1;1;1;1 1 2 1 1;4 3 2 1 0";

fn judged(mut judge: Judge, file: &[u8], size: usize) -> Result<Verdict, Error> {
    for piece in file.chunks(size) {
        judge.feed(piece)?;
    }
    judge.finish()
}

#[test]
fn verdicts_on_classes() -> Tested {
    for size in [1, 7, 1000] {
        let yes = judged(Judge::classes()?, RIGHT, size)?;
        assert_eq!((yes, yes.is_yes()), (Verdict::Yes { rows: 1, cases: 1 }, true));
        let no = judged(Judge::classes()?, WRONG, size)?;
        let (line, direction, place) = (3, Direction::Rtl, Wrong::Levels);
        assert_eq!((no, no.is_yes()), (Verdict::Wrong { line, direction, place, index: 0 }, false));
        assert_eq!(
            (yes.to_string().as_str(), no.to_string().as_str()),
            ("yes: 1 rows, 1 cases", "no: line 3: rtl: levels at 0")
        );
    }
    let malformed = judged(Judge::classes()?, b"L; 7\n", 9)?;
    assert_eq!(malformed, Verdict::Malformed { line: 1, cause: Cause::NoExpectation });
    assert_eq!(malformed.to_string(), "no: line 1: malformed: NoExpectation");
    Ok(())
}

#[test]
fn verdicts_on_characters() -> Tested {
    let tables = Tables::standard()?;
    assert!(judged(Judge::characters(&tables)?, ROW.as_bytes(), 9)?.is_yes());
    let level = ROW.replace(";1;1;", ";1;0;");
    let no = judged(Judge::characters(&tables)?, level.as_bytes(), 9)?;
    assert_eq!(no.to_string(), "no: line 1: rtl: paragraph level");
    Ok(())
}

#[test]
fn limits() -> Tested {
    let row = b"@Levels: x x 3\n@Reorder: 2\nRLE LRE R; 2\n";
    let one = Limits { depth: 1, ..Limits::default() };
    assert!(judged(Judge::classes()?, row, 9)?.is_yes());
    assert!(!judged(Judge::classes_with(one)?, row, 9)?.is_yes());
    let none = Limits { depth: 0, ..Limits::default() };
    assert_eq!(Judge::classes_with(none).err(), Some(Error::Depth));
    assert_eq!(Report::classes_with(none).err(), Some(Error::Depth));
    let tables = Tables::standard()?;
    assert_eq!(Judge::characters_with(&tables, none).err(), Some(Error::Depth));
    assert_eq!(Report::characters_with(&tables, none).err(), Some(Error::Depth));
    Ok(())
}

#[test]
fn reports_on_classes() -> Tested {
    for size in [1, 7, 1000] {
        let (mut report, mut cases) = (Report::classes()?, Vec::new());
        for piece in WRONG.chunks(size) {
            cases.extend(report.feed(piece)?);
        }
        let (counts, last) = report.finish()?;
        assert_eq!(last, []);
        let lines: Vec<String> = cases.iter().map(WrongCase::to_string).collect();
        let ended = "line 8: auto: order at 0: claimed 1, defined nothing";
        assert_eq!(lines, ["line 3: rtl: levels at 0: claimed 0, defined 2", ended]);
        assert_eq!((cases[1].claimed, cases[1].defined), (Item::Position(1), Item::Ended));
        assert_eq!((counts.rows, counts.cases, counts.wrong_rows, counts.wrong_cases), (3, 6, 2, 2));
        assert_eq!((counts.ltr, counts.rtl, counts.auto, counts.auto_rtl), (0, 1, 1, 0));
        assert_eq!((counts.para_level, counts.levels, counts.order), (0, 1, 1));
        assert_eq!((counts.malformed, counts.is_right()), (None, false));
    }
    Ok(())
}

#[test]
fn reports_on_characters() -> Tested {
    let tables = Tables::standard()?;
    let file = format!("{ROW}\n{}\n05D0\n{ROW}", ROW.replace("2 1 1;", "2 x 1;"));
    let mut report = Report::characters(&tables)?;
    let cases = report.feed(file.as_bytes())?;
    let lines: Vec<String> = cases.iter().map(WrongCase::to_string).collect();
    assert_eq!(lines, ["line 2: rtl: levels at 3: claimed x, defined 1"]);
    let (counts, last) = report.finish()?;
    assert_eq!((counts.malformed, last), (Some((3, Cause::FieldCount)), vec![]));
    let mut report = Report::characters(&tables)?;
    assert_eq!(report.feed(ROW.replace(";1;1;", ";1;0;").as_bytes())?, []);
    let (counts, last) = report.finish()?;
    assert_eq!((last.len(), last[0].place, counts.para_level), (1, Wrong::ParaLevel, 1));
    Ok(())
}
