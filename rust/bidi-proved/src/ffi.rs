//! The calls of bidi.h that this crate makes, with their types and numbers, as the header declares them.
//! tests/header.rs compares the two.
#![allow(non_camel_case_types)]

use std::ffi::c_void;

/// Declares handles. `NONE` is `BIDI_NONE`, as which each of them begins.
macro_rules! handles {
    ($($name:ident)*) => {
        $(
            #[repr(C)]
            #[derive(Debug)]
            #[allow(dead_code)] // only the library reads the fields
            pub struct $name {
                at: *mut c_void,
                made: bool,
            }

            impl $name {
                pub const NONE: Self = Self { at: std::ptr::null_mut(), made: false };
            }
        )*
    };
}

handles! { bidi_tables bidi_room bidi_judge bidi_report }

#[repr(C)]
#[derive(Clone, Copy, Default)]
pub struct bidi_limits {
    pub depth: u8,
    pub brackets: u8,
}

#[repr(C)]
#[derive(Clone, Copy, Default)]
pub struct bidi_fault {
    pub line: u64,
    pub kind: u32,
}

#[repr(C)]
#[derive(Clone, Copy, Default)]
pub struct bidi_line_t {
    pub start: usize,
    pub end: usize,
    pub shown: usize,
}

#[repr(C)]
#[derive(Clone, Copy, Default)]
pub struct bidi_run_t {
    pub start: usize,
    pub length: usize,
    pub shown: usize,
    pub level: u8,
}

#[repr(C)]
#[derive(Clone, Copy, Default)]
pub struct bidi_verdict {
    pub answer: u32,
    pub reason: u32,
    pub direction: u32,
    pub line: u64,
    pub index: usize,
    pub rows: u64,
    pub cases: u64,
}

#[repr(C)]
#[derive(Clone, Copy, Default)]
pub struct bidi_item {
    pub kind: u32,
    pub value: usize,
}

#[repr(C)]
#[derive(Clone, Copy, Default)]
pub struct bidi_wrong_case {
    pub line: u64,
    pub direction: u32,
    pub place: u32,
    pub index: usize,
    pub claimed: bidi_item,
    pub defined: bidi_item,
}

#[repr(C)]
#[derive(Clone, Copy, Default)]
pub struct bidi_counts {
    pub rows: u64,
    pub cases: u64,
    pub wrong_rows: u64,
    pub wrong_cases: u64,
    pub ltr: u64,
    pub rtl: u64,
    pub auto_ltr: u64,
    pub auto_rtl: u64,
    pub para_level: u64,
    pub levels: u64,
    pub order: u64,
    pub malformed: u64,
    pub cause: u32,
}

pub const BIDI_DONE: u32 = 0;
pub const BIDI_MEMORY: u32 = 1;
pub const BIDI_TOO_BIG: u32 = 2;
pub const BIDI_TOO_LONG: u32 = 3;
pub const BIDI_BREAK_OUT_OF_RANGE: u32 = 6;
pub const BIDI_BREAK_NOT_RISING: u32 = 7;
pub const BIDI_CLASS_FILE: u32 = 12;
pub const BIDI_BRACKET_FILE: u32 = 13;
pub const BIDI_MIRROR_FILE: u32 = 14;
pub const BIDI_DEPTH: u32 = 17;
pub const BIDI_BRACKETS: u32 = 18;
pub const BIDI_LINE_NOT_FORWARD: u32 = 21;
pub const BIDI_LINE_BEYOND_TEXT: u32 = 22;
pub const BIDI_LINE_CROSSES: u32 = 23;
pub const BIDI_ILL_FORMED: u32 = 24;
pub const BIDI_BREAK_INSIDE: u32 = 25;
pub const BIDI_NO_CASE: u32 = 27;
pub const BIDI_REMOVED: u8 = 255;
pub const BIDI_NOWHERE: usize = usize::MAX;
pub const BIDI_YES: u32 = 0;
pub const BIDI_MALFORMED: u32 = 1;
pub const BIDI_WRONG: u32 = 2;
pub const BIDI_ITEM_ENDED: u32 = 0;
pub const BIDI_ITEM_REMOVED: u32 = 1;
pub const BIDI_ITEM_LEVEL: u32 = 2;
pub const BIDI_ITEM_POSITION: u32 = 3;
pub const BIDI_NO_BRACKET: u32 = 0;
pub const BIDI_VERDICT_LINE: usize = 72;

extern "C" {
    pub fn bidi_tables_new(
        classes: *const u8,
        classes_len: usize,
        brackets: *const u8,
        brackets_len: usize,
        mirrors: *const u8,
        mirrors_len: usize,
        tables: *mut bidi_tables,
        fault: *mut bidi_fault,
    ) -> u32;
    pub fn bidi_tables_standard(tables: *mut bidi_tables) -> u32;
    pub fn bidi_edition(text: *mut u8, capacity: usize) -> usize;
    pub fn bidi_version(text: *mut u8, capacity: usize) -> usize;
    pub fn bidi_tables_share(tables: *const bidi_tables, shared: *mut bidi_tables) -> u32;
    pub fn bidi_tables_free(tables: *mut bidi_tables);
    pub fn bidi_mirror(tables: *const bidi_tables, code: u32) -> u32;
    pub fn bidi_class(tables: *const bidi_tables, code: u32, class_number: *mut u8) -> u32;
    pub fn bidi_bracket(tables: *const bidi_tables, code: u32, bracket: *mut u8) -> u32;
    pub fn bidi_base_level_utf8(
        tables: *const bidi_tables,
        text: *const u8,
        n: usize,
        direction: u32,
        level: *mut u8,
        place: *mut u64,
    ) -> u32;
    pub fn bidi_base_level_utf16(
        tables: *const bidi_tables,
        text: *const u16,
        n: usize,
        direction: u32,
        level: *mut u8,
        place: *mut u64,
    ) -> u32;
    pub fn bidi_base_levels_utf8(
        tables: *const bidi_tables,
        text: *const u8,
        n: usize,
        direction: u32,
        levels: *mut u8,
        capacity: usize,
        count: *mut usize,
        place: *mut u64,
    ) -> u32;
    pub fn bidi_base_levels_utf16(
        tables: *const bidi_tables,
        text: *const u16,
        n: usize,
        direction: u32,
        levels: *mut u8,
        capacity: usize,
        count: *mut usize,
        place: *mut u64,
    ) -> u32;
    pub fn bidi_is_left_to_right_utf8(
        tables: *const bidi_tables,
        text: *const u8,
        n: usize,
        stays: *mut u8,
        place: *mut u64,
    ) -> u32;
    pub fn bidi_is_left_to_right_utf16(
        tables: *const bidi_tables,
        text: *const u16,
        n: usize,
        stays: *mut u8,
        place: *mut u64,
    ) -> u32;
    pub fn bidi_room_free(room: *mut bidi_room);
    pub fn bidi_room_size(room: *const bidi_room) -> usize;
    pub fn bidi_para_levels(room: *const bidi_room, levels: *mut u8, capacity: usize) -> usize;
    pub fn bidi_line_count(room: *const bidi_room) -> usize;
    pub fn bidi_shown(
        room: *const bidi_room,
        tables: *const bidi_tables,
        codes: *const u32,
        n: usize,
        k: usize,
        shown: *mut u32,
        capacity: usize,
    ) -> usize;
    pub fn bidi_room_new_encoded(n: usize, room: *mut bidi_room) -> u32;
    pub fn bidi_lay_out_utf8_with(
        room: *mut bidi_room,
        tables: *const bidi_tables,
        text: *const u8,
        n: usize,
        direction: u32,
        breaks: *const usize,
        break_count: usize,
        limits: bidi_limits,
        place: *mut u64,
    ) -> u32;
    pub fn bidi_lay_out_utf8_lossy_with(
        room: *mut bidi_room,
        tables: *const bidi_tables,
        text: *const u8,
        n: usize,
        direction: u32,
        breaks: *const usize,
        break_count: usize,
        limits: bidi_limits,
        place: *mut u64,
    ) -> u32;
    pub fn bidi_lay_out_utf16_with(
        room: *mut bidi_room,
        tables: *const bidi_tables,
        text: *const u16,
        n: usize,
        direction: u32,
        breaks: *const usize,
        break_count: usize,
        limits: bidi_limits,
        place: *mut u64,
    ) -> u32;
    pub fn bidi_lay_out_utf16_lossy_with(
        room: *mut bidi_room,
        tables: *const bidi_tables,
        text: *const u16,
        n: usize,
        direction: u32,
        breaks: *const usize,
        break_count: usize,
        limits: bidi_limits,
        place: *mut u64,
    ) -> u32;
    pub fn bidi_encoded_set_lines(
        room: *mut bidi_room,
        breaks: *const usize,
        break_count: usize,
        place: *mut u64,
    ) -> u32;
    pub fn bidi_index_of(room: *const bidi_room, offset: usize) -> usize;
    pub fn bidi_offset_of(room: *const bidi_room, index: usize) -> usize;
    pub fn bidi_level_at(room: *const bidi_room, offset: usize) -> u8;
    pub fn bidi_encoded_levels(room: *const bidi_room, levels: *mut u8, capacity: usize) -> usize;
    pub fn bidi_encoded_line(room: *const bidi_room, k: usize, line: *mut bidi_line_t) -> u32;
    pub fn bidi_encoded_order(room: *const bidi_room, k: usize, order: *mut usize, capacity: usize) -> usize;
    pub fn bidi_encoded_runs(room: *const bidi_room, k: usize, runs: *mut bidi_run_t, capacity: usize) -> usize;
    pub fn bidi_encoded_places(room: *const bidi_room, k: usize, places: *mut usize, capacity: usize) -> usize;
    pub fn bidi_encoded_para_level_at(room: *const bidi_room, offset: usize) -> u8;
    pub fn bidi_encoded_line_of(
        room: *mut bidi_room,
        start: usize,
        end: usize,
        levels: *mut u8,
        level_capacity: usize,
        order: *mut usize,
        order_capacity: usize,
        shown: *mut usize,
    ) -> u32;
    pub fn bidi_judge_new_classes_with(judge: *mut bidi_judge, limits: bidi_limits) -> u32;
    pub fn bidi_judge_new_characters_with(
        tables: *const bidi_tables,
        judge: *mut bidi_judge,
        limits: bidi_limits,
    ) -> u32;
    pub fn bidi_judge_free(judge: *mut bidi_judge);
    pub fn bidi_judge_feed(judge: *mut bidi_judge, bytes: *const u8, n: usize) -> u32;
    pub fn bidi_judge_finish(judge: *mut bidi_judge, verdict: *mut bidi_verdict) -> u32;
    pub fn bidi_verdict_text(verdict: *const bidi_verdict, text: *mut u8, capacity: usize, length: *mut usize) -> u32;
    pub fn bidi_report_new_classes_with(report: *mut bidi_report, limits: bidi_limits) -> u32;
    pub fn bidi_report_new_characters_with(
        tables: *const bidi_tables,
        report: *mut bidi_report,
        limits: bidi_limits,
    ) -> u32;
    pub fn bidi_report_free(report: *mut bidi_report);
    pub fn bidi_report_feed(report: *mut bidi_report, bytes: *const u8, n: usize, used: *mut usize) -> u32;
    pub fn bidi_report_next(report: *mut bidi_report, item: *mut bidi_wrong_case) -> u32;
    pub fn bidi_report_finish(report: *mut bidi_report, counts: *mut bidi_counts) -> u32;
}
