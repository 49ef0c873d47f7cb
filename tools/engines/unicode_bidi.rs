// The crate unicode-bidi: rows of texts, or the classes, as rows.h says; `--version` prints which tables it has. A text
// is also put in order by `reorder_line`: if that panics, the row is `failed`.
use std::io::{BufRead, Write};
use std::ops::Range;
use unicode_bidi::{bidi_class, BidiInfo, Level};

/// The levels and the order of a line of bytes, as two fields. `starts` are the bytes at which the characters of the
/// text begin.
fn line_of(info: &BidiInfo, starts: &[usize], line: Range<usize>) -> (String, String) {
    let paragraph = info.paragraphs.iter().find(|one| one.range.contains(&line.start)).unwrap();
    let (levels, runs) = info.visual_runs(paragraph, line.clone());
    info.reorder_line(paragraph, line.clone());
    let inside = |range: &Range<usize>| -> Vec<usize> {
        (0..starts.len()).filter(|place| range.contains(&starts[*place])).collect()
    };
    let mut order = Vec::new();
    for run in runs {
        let mut places = inside(&run);
        if levels[run.start].is_rtl() {
            places.reverse();
        }
        order.extend(places.iter().map(usize::to_string));
    }
    let shown: Vec<String> = inside(&line).iter().map(|at| levels[starts[*at]].number().to_string()).collect();
    (shown.join(" "), order.join(" "))
}

/// The row's last three fields. Levels and runs are in bytes, and taken by characters.
fn row_of(lines: &[String], direction: char) -> String {
    let base = match direction {
        '0' => Some(Level::ltr()),
        '1' => Some(Level::rtl()),
        _ => None,
    };
    let text = lines.concat();
    let info = BidiInfo::new(&text, base);
    let starts: Vec<usize> = text.char_indices().map(|(at, _)| at).collect();
    let (mut levels, mut orders, mut start) = (Vec::new(), Vec::new(), 0);
    for line in lines {
        let (shown, order) = line_of(&info, &starts, start..start + line.len());
        levels.push(shown);
        orders.push(order);
        start += line.len();
    }
    format!("{};{};{}", info.paragraphs[0].level.number(), levels.join(" | "), orders.join(" | "))
}

fn write_rows(out: &mut impl Write) -> std::io::Result<()> {
    for line in std::io::stdin().lock().lines() {
        let line = line?;
        if line.is_empty() || line.starts_with('#') {
            continue;
        }
        let mut fields = line.split(';');
        let codes = fields.next().unwrap();
        let direction = fields.next().and_then(|field| field.chars().next()).unwrap_or('2');
        let code_of = |item| char::from_u32(u32::from_str_radix(item, 16).unwrap()).unwrap();
        let lines: Vec<String> = codes.split('|').map(|line| line.split_whitespace().map(code_of).collect()).collect();
        let made = std::panic::catch_unwind(|| row_of(&lines, direction)).unwrap_or("failed".to_string());
        writeln!(out, "{codes};{direction};{made}")?;
    }
    Ok(())
}

fn name_of(code: u32) -> String {
    char::from_u32(code).map_or("-".to_string(), |character| format!("{:?}", bidi_class(character)))
}

fn write_classes(out: &mut impl Write) -> std::io::Result<()> {
    let mut first = 0;
    for end in 1..=0x110000 {
        if end == 0x110000 || name_of(end) != name_of(first) {
            writeln!(out, "{first:04X}..{:04X};{}", end - 1, name_of(first))?;
            first = end;
        }
    }
    Ok(())
}

fn main() -> std::io::Result<()> {
    let mut out = std::io::BufWriter::new(std::io::stdout().lock());
    match std::env::args().nth(1).as_deref() {
        Some("--version") => {
            let (major, minor, _) = unicode_bidi::UNICODE_VERSION;
            writeln!(out, "unicode-bidi {}, tables of Unicode {major}.{minor}", env!("UNICODE_BIDI_VERSION"))
        }
        Some("--classes") => write_classes(&mut out),
        _ => {
            std::panic::set_hook(Box::new(|_| {}));
            write_rows(&mut out)
        }
    }
}
