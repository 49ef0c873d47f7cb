//! What a room laid out: levels, paragraphs, lines and runs.
use crate::copied;
use crate::error::{check, Error};
use crate::ffi;
use crate::numbers::{Class, Level};
use crate::room::Room;
use crate::tables::Tables;
use std::cell::OnceCell;
use std::ops::Range;

mod sealed {
    pub trait Codes {
        /// Returns the code points of the text, U+FFFD where it is ill-formed.
        fn codes(&self) -> Vec<u32>;

        /// Returns the character that begins at an offset, U+FFFD if the text is ill-formed there.
        fn character_at(&self, offset: usize) -> char;
    }

    impl Codes for str {
        fn codes(&self) -> Vec<u32> {
            self.chars().map(u32::from).collect()
        }

        fn character_at(&self, offset: usize) -> char {
            self[offset..].chars().next().unwrap_or(char::REPLACEMENT_CHARACTER)
        }
    }

    impl Codes for [u8] {
        fn codes(&self) -> Vec<u32> {
            String::from_utf8_lossy(self).codes()
        }

        fn character_at(&self, offset: usize) -> char {
            // A character has at most four bytes.
            let bytes = &self[offset..self.len().min(offset + 4)];
            String::from_utf8_lossy(bytes).character_at(0)
        }
    }

    impl Codes for [u16] {
        fn codes(&self) -> Vec<u32> {
            let read = |item: Result<char, _>| item.unwrap_or(char::REPLACEMENT_CHARACTER);
            char::decode_utf16(self.iter().copied()).map(|item| read(item).into()).collect()
        }

        fn character_at(&self, offset: usize) -> char {
            let first = char::decode_utf16(self[offset..].iter().copied()).next();
            first.and_then(Result::ok).unwrap_or(char::REPLACEMENT_CHARACTER)
        }
    }
}

/// A text that a room lays out: `str`, `[u16]`, and `[u8]` for bytes that need not be UTF-8.
pub trait Text: sealed::Codes {}

impl Text for str {}
impl Text for [u8] {}
impl Text for [u16] {}

/// What a room laid out, which it borrows. All positions are offsets of the text: bytes of UTF-8, or units of UTF-16.
#[derive(Debug)]
pub struct Layout<'a, T: Text + ?Sized = str> {
    room: &'a mut Room,
    text: &'a T,
    codes: OnceCell<Vec<u32>>,
}

impl<'a, T: Text + ?Sized> Layout<'a, T> {
    pub(crate) fn new(room: &'a mut Room, text: &'a T) -> Self {
        Self { room, text, codes: OnceCell::new() }
    }

    /// Returns the text that was laid out.
    pub fn text(&self) -> &'a T {
        self.text
    }

    /// Returns the level of each code unit after L1, that of its character, or `None` if X9 removes the character.
    pub fn levels(&self) -> Vec<Option<Level>> {
        // SAFETY: the handle is valid, and `copied` passes memory for as many items as it says.
        let levels = copied(|at, capacity| unsafe { ffi::bidi_encoded_levels(self.room.handle(), at, capacity) });
        levels.into_iter().map(Level::unless_removed).collect()
    }

    /// Returns the level of the code unit at an offset, or `None` if X9 removes its character or there is no such unit.
    pub fn level_at(&self, offset: usize) -> Option<Level> {
        // SAFETY: the handle is valid.
        Level::unless_removed(unsafe { ffi::bidi_level_at(self.room.handle(), offset) })
    }

    /// Returns the level of each paragraph (P2, P3).
    pub fn paragraph_levels(&self) -> Vec<Level> {
        // SAFETY: as in `levels`.
        let levels = copied(|at, capacity| unsafe { ffi::bidi_para_levels(self.room.handle(), at, capacity) });
        levels.into_iter().map(Level::new).collect()
    }

    /// Returns the level of the paragraph (P2, P3) in which the code unit at an offset lies, or `None` if there is no
    /// such unit.
    pub fn para_level_at(&self, offset: usize) -> Option<Level> {
        // SAFETY: the handle is valid.
        Level::unless_removed(unsafe { ffi::bidi_encoded_para_level_at(self.room.handle(), offset) })
    }

    /// Returns the index of the character that the code unit at an offset belongs to, or the number of characters if
    /// there is no such unit.
    pub fn index_of(&self, offset: usize) -> usize {
        // SAFETY: the handle is valid.
        unsafe { ffi::bidi_index_of(self.room.handle(), offset) }
    }

    /// Returns the offset at which the character with an index begins, or the length of the text if there is none.
    pub fn offset_of(&self, index: usize) -> usize {
        // SAFETY: the handle is valid.
        unsafe { ffi::bidi_offset_of(self.room.handle(), index) }
    }

    /// Breaks the text into other lines (L1, L2), which begin at its start, after each paragraph separator, and at each
    /// of `breaks`. Levels are not resolved again.
    ///
    /// Fails with `BreakOutOfRange`, `BreakNotRising` or `BreakInside`; the lines are unchanged then.
    pub fn set_lines(&mut self, breaks: &[usize]) -> Result<(), Error> {
        let mut place = 0;
        // SAFETY: the handle is valid, the pointer comes with its slice's length, and `place` takes one number.
        let status =
            unsafe { ffi::bidi_encoded_set_lines(self.room.handle(), breaks.as_ptr(), breaks.len(), &mut place) };
        check(status, place)
    }

    /// Lays out one line alone of the text (L1, L2), at the cost of that line, wherever other lines end. Levels are not
    /// resolved again, and the layout and its lines are unchanged.
    ///
    /// Fails with `LineNotForward`, `LineBeyondText`, `BreakInside` or `LineCrossesParagraph`. The index of
    /// `BreakInside` is 0 if the start of the range is inside a character, and 1 if only its end is.
    pub fn line_of(&self, range: Range<usize>) -> Result<LineAlone<'_, T>, Error> {
        let span = span_within(&range, self.room.size());
        let (mut levels, mut order, mut shown) = (vec![0; span.len()], vec![0; span.len()], 0);
        let (level_capacity, order_capacity) = (levels.len(), order.len());
        // SAFETY: the handle is valid, each pointer comes with its vector's length, and `shown` takes one number.
        let status = unsafe {
            ffi::bidi_encoded_line_of(
                self.room.handle(),
                span.start,
                span.end,
                levels.as_mut_ptr(),
                level_capacity,
                order.as_mut_ptr(),
                order_capacity,
                &mut shown,
            )
        };
        let begins = self.offset_of(self.index_of(span.start)) == span.start;
        check(status, begins.into())?;
        order.truncate(shown);
        let levels = levels.into_iter().map(Level::unless_removed).collect();
        Ok(LineAlone { layout: self, range, levels, order })
    }

    /// Returns the number of lines.
    pub fn line_count(&self) -> usize {
        // SAFETY: the handle is valid.
        unsafe { ffi::bidi_line_count(self.room.handle()) }
    }

    /// Returns the line with a number, from 0, or `None` if there is none.
    pub fn line(&self, number: usize) -> Option<Line<'_, T>> {
        let mut line = ffi::bidi_line_t::default();
        // SAFETY: the handle is valid, and `line` takes one line.
        let status = unsafe { ffi::bidi_encoded_line(self.room.handle(), number, &mut line) };
        let found = Line { layout: self, number, start: line.start, end: line.end };
        (status == ffi::BIDI_DONE).then_some(found)
    }

    /// Returns its lines, in the order of the text.
    pub fn lines(&self) -> Lines<'_, T> {
        Lines { layout: self, numbers: 0..self.line_count() }
    }

    /// Returns the offset of the paragraph separator that ends the line that ends at an offset, or `None` if there is
    /// none.
    fn separator_before(&self, end: usize, tables: &Tables) -> Option<usize> {
        let offset = self.offset_of(self.index_of(end.checked_sub(1)?));
        (tables.class(self.text.character_at(offset)) == Ok(Class::B)).then_some(offset)
    }

    fn codes(&self) -> &[u32] {
        self.codes.get_or_init(|| self.text.codes())
    }
}

/// Returns a line as the library takes it. One that no text of at most `most` units has becomes another one, which the
/// library rejects for the same reason.
fn span_within(range: &Range<usize>, most: usize) -> Range<usize> {
    if range.is_empty() {
        0..0
    } else if range.end <= most {
        range.clone()
    } else {
        most..most + 1
    }
}

/// The lines of a layout, in the order of the text.
#[derive(Debug)]
pub struct Lines<'a, T: Text + ?Sized = str> {
    layout: &'a Layout<'a, T>,
    numbers: Range<usize>,
}

impl<'a, T: Text + ?Sized> Iterator for Lines<'a, T> {
    type Item = Line<'a, T>;

    fn next(&mut self) -> Option<Self::Item> {
        self.layout.line(self.numbers.next()?)
    }

    fn size_hint(&self) -> (usize, Option<usize>) {
        self.numbers.size_hint()
    }
}

/// A visual run of a line: code units of one level, whose characters are shown side by side. What X9 removes has the
/// level of the next position of the line that is shown, and that of the paragraph if there is none.
#[derive(Clone, Copy, Debug, PartialEq, Eq, Hash)]
pub struct Run {
    /// The offset at which it begins.
    pub start: usize,
    /// Its number of code units.
    pub length: usize,
    /// The number of its characters that are shown; 0 if X9 removes all of them.
    pub shown: usize,
    /// Its level.
    pub level: Level,
}

impl Run {
    /// Returns its code units, as a range of offsets.
    pub fn range(&self) -> Range<usize> {
        self.start..self.start + self.length
    }
}

impl From<ffi::bidi_run_t> for Run {
    fn from(run: ffi::bidi_run_t) -> Self {
        Self { start: run.start, length: run.length, shown: run.shown, level: Level::new(run.level) }
    }
}

/// A line of a layout.
#[derive(Debug)]
pub struct Line<'a, T: Text + ?Sized = str> {
    layout: &'a Layout<'a, T>,
    number: usize,
    start: usize,
    end: usize,
}

impl<T: Text + ?Sized> Line<'_, T> {
    /// Returns its code units, as a range of offsets. A paragraph separator belongs to the line that it ends.
    pub fn range(&self) -> Range<usize> {
        self.start..self.end
    }

    /// Returns the offsets at which its shown characters begin, from left to right (L2).
    pub fn order(&self) -> Vec<usize> {
        let room = &self.layout.room;
        // SAFETY: the handle is valid, and `copied` passes memory for as many items as it says.
        copied(|at, capacity| unsafe { ffi::bidi_encoded_order(room.handle(), self.number, at, capacity) })
    }

    /// Returns the place, from the left, of each of its code units, that of its character, or `None` if X9 removes the
    /// character.
    pub fn places(&self) -> Vec<Option<usize>> {
        let room = &self.layout.room;
        // SAFETY: as in `order`.
        let places =
            copied(|at, capacity| unsafe { ffi::bidi_encoded_places(room.handle(), self.number, at, capacity) });
        places.into_iter().map(|place| (place != ffi::BIDI_NOWHERE).then_some(place)).collect()
    }

    /// Returns its visual runs from left to right. Each of its code units is in one of them.
    pub fn runs(&self) -> Vec<Run> {
        let room = &self.layout.room;
        // SAFETY: as in `order`.
        let runs = copied(|at, capacity| unsafe { ffi::bidi_encoded_runs(room.handle(), self.number, at, capacity) });
        runs.into_iter().map(Run::from).collect()
    }

    /// Returns its characters as they are shown, from left to right, mirrored at odd levels by the tables (L4). A
    /// paragraph separator is one of them. What shows them must not reorder them again.
    pub fn shown(&self, tables: &Tables) -> String {
        self.shown_characters(tables).into_iter().collect()
    }

    /// Returns what `shown` does, without a paragraph separator.
    pub fn display(&self, tables: &Tables) -> String {
        let mut characters = self.shown_characters(tables);
        if let Some(separator) = self.layout.separator_before(self.end, tables) {
            without(&mut characters, &self.order(), separator);
        }
        characters.into_iter().collect()
    }

    fn shown_characters(&self, tables: &Tables) -> Vec<char> {
        let (room, codes) = (&self.layout.room, self.layout.codes());
        let (at, n) = (codes.as_ptr(), codes.len());
        // SAFETY: both handles are valid, `at` points to `n` code points, and `copied` passes memory for as many items
        // as it says.
        let shown = copied(|to, capacity| unsafe {
            ffi::bidi_shown(room.handle(), tables.handle(), at, n, self.number, to, capacity)
        });
        shown.into_iter().map(|code| char::from_u32(code).unwrap_or(char::REPLACEMENT_CHARACTER)).collect()
    }
}

/// Removes the character at an offset from those that a line shows in this order.
fn without(characters: &mut Vec<char>, order: &[usize], offset: usize) {
    if let Some(place) = order.iter().position(|at| *at == offset) {
        characters.remove(place);
    }
}

/// A line of a text, laid out without the text's other lines.
#[derive(Debug)]
pub struct LineAlone<'a, T: Text + ?Sized = str> {
    layout: &'a Layout<'a, T>,
    range: Range<usize>,
    levels: Vec<Option<Level>>,
    order: Vec<usize>,
}

impl<T: Text + ?Sized> LineAlone<'_, T> {
    /// Returns its code units, as a range of offsets. A paragraph separator belongs to the line that it ends.
    pub fn range(&self) -> Range<usize> {
        self.range.clone()
    }

    /// Returns the level of each of its code units after L1, that of its character, or `None` if X9 removes the
    /// character.
    pub fn levels(&self) -> &[Option<Level>] {
        &self.levels
    }

    /// Returns the offsets at which its shown characters begin, from left to right (L2).
    pub fn order(&self) -> &[usize] {
        &self.order
    }

    /// Returns the place, from the left, of each of its code units, that of its character, or `None` if X9 removes the
    /// character.
    pub fn places(&self) -> Vec<Option<usize>> {
        let mut places = vec![None; self.levels.len()];
        for (place, at) in self.order.iter().enumerate() {
            places[at - self.range.start] = Some(place);
        }
        for i in 1..places.len() {
            if self.levels[i].is_some() && places[i].is_none() {
                places[i] = places[i - 1];
            }
        }
        places
    }

    /// Returns its visual runs from left to right. Each of its code units is in one of them.
    pub fn runs(&self) -> Vec<Run> {
        let (levels, places) = (self.run_levels(), self.places());
        let (mut found, mut first) = (Vec::new(), 0);
        for next in 1..=levels.len() {
            if levels.get(next) == Some(&levels[first]) {
                continue;
            }
            let (level, places) = (levels[first], &places[first..next]);
            let shown = (0..places.len()).filter(|i| places[*i].is_some() && (*i == 0 || places[*i] != places[i - 1]));
            let run = Run { start: self.range.start + first, length: places.len(), shown: shown.count(), level };
            // A run that X9 removes is at the left of all if its level is odd, and else at the right.
            let beside = if level.is_rtl() { None } else { Some(self.order.len()) };
            found.push((places.iter().flatten().min().copied().or(beside), run));
            first = next;
        }
        found.sort_by_key(|(place, _)| *place);
        found.into_iter().map(|(_, run)| run).collect()
    }

    /// Returns its characters as they are shown, as `Line::shown` does.
    pub fn shown(&self, tables: &Tables) -> String {
        self.shown_characters(tables).into_iter().collect()
    }

    /// Returns what `shown` does, without a paragraph separator.
    pub fn display(&self, tables: &Tables) -> String {
        let mut characters = self.shown_characters(tables);
        if let Some(separator) = self.layout.separator_before(self.range.end, tables) {
            without(&mut characters, &self.order, separator);
        }
        characters.into_iter().collect()
    }

    fn shown_characters(&self, tables: &Tables) -> Vec<char> {
        let is_rtl = |at: usize| self.levels[at - self.range.start].is_some_and(Level::is_rtl);
        let shown = |at: &usize| {
            let character = self.layout.text.character_at(*at);
            if is_rtl(*at) {
                tables.mirror(character)
            } else {
                character
            }
        };
        self.order.iter().map(shown).collect()
    }

    /// Returns the level of each of its code units. What X9 removes has the level of the next unit that is shown, and
    /// that of the paragraph if there is none.
    fn run_levels(&self) -> Vec<Level> {
        let mut after = self.layout.para_level_at(self.range.start).unwrap_or(Level::new(0));
        let mut levels = Vec::with_capacity(self.levels.len());
        for level in self.levels.iter().rev() {
            after = level.unwrap_or(after);
            levels.push(after);
        }
        levels.reverse();
        levels
    }
}
