//! paragraph COLUMNS.. < TEXT: sets a text in lines of at most so many columns, for each width that is named, as an
//! editor does whose window changes its size. The text is laid out once, and broken into lines again for each width.
//! Lines break after white space, or else within a word, and each character takes one column.
use bidi_proved::{Direction, Room, Tables};
use std::error::Error;
use std::io::Read;

/// Returns the offsets at which lines of at most `width` characters begin, without the first line of each paragraph.
fn breaks_of(text: &str, width: usize) -> Vec<usize> {
    let (mut breaks, mut paragraph) = (Vec::new(), 0);
    for line in text.split_inclusive('\n') {
        let end = paragraph + line.trim_end_matches('\n').len();
        let mut start = paragraph;
        while let Some(next) = next_break(&text[start..end], width) {
            start += next;
            breaks.push(start);
        }
        paragraph += line.len();
    }
    breaks
}

/// Returns how much of a text its first line takes, or `None` if all of it fits. White space at the end of a line takes
/// no column.
fn next_break(text: &str, width: usize) -> Option<usize> {
    let full = text.char_indices().nth(width)?.0;
    let after = |at: usize| text[at..].find(|c: char| !c.is_whitespace()).map_or(text.len(), |more| at + more);
    let space = match text[full..].starts_with(char::is_whitespace) {
        true => Some(after(full)),
        false => text[..full].rfind(char::is_whitespace).map(after),
    };
    Some(space.unwrap_or(full)).filter(|at| *at < text.len())
}

fn main() -> Result<(), Box<dyn Error>> {
    let mut text = String::new();
    std::io::stdin().read_to_string(&mut text)?;
    let tables = Tables::standard()?;
    let mut room = Room::new(text.len())?;
    let mut layout = room.lay_out(&text, &tables, Direction::Auto, &[])?;
    for word in std::env::args().skip(1) {
        let width = word.parse::<std::num::NonZeroUsize>()?.get();
        layout.set_lines(&breaks_of(&text, width))?;
        for line in layout.lines() {
            println!("{width} {}", line.display(&tables));
        }
    }
    Ok(())
}
