//! terminal TEXT: shows a line for a terminal that doesn't reorder it, and takes the cursor from each column to a byte
//! of the text. Each character takes one column.
use bidi_proved::{Direction, Room, Tables};
use std::error::Error;

fn main() -> Result<(), Box<dyn Error>> {
    let text = std::env::args().nth(1).ok_or("usage: terminal TEXT")?;
    let tables = Tables::standard()?;
    let mut room = Room::new(text.len())?;
    let layout = room.lay_out(&text, &tables, Direction::Auto, &[])?;
    for line in layout.lines() {
        println!("{}", line.display(&tables));
        for run in line.runs() {
            println!("level {}: {:?}", run.level, &text[run.range()]);
        }
        for (column, offset) in line.order().into_iter().enumerate() {
            println!("column {column}: byte {offset}, character {}", layout.index_of(offset));
        }
    }
    Ok(())
}
