//! The calls of `include/ruffleknoll.h` as linked, by number.

use crate::library::{Answered, ARGUMENTS};
use cases::call::*;
use std::mem::transmute;

#[repr(C)]
struct Answer {
    number: u64,
    place: u64,
    value: u64,
    used: u64,
}

#[repr(C)]
struct Part {
    start: u64,
    length: u64,
}

// Declared without arguments: `by_number` gives them all.
extern "C" {
    fn ruffleknoll_row();
    fn ruffleknoll_earlier();
    fn ruffleknoll_evaluate();
    fn ruffleknoll_fold();
    fn ruffleknoll_bind();
    fn ruffleknoll_with();
    fn ruffleknoll_print();
    fn ruffleknoll_inner_join_columns();
    fn ruffleknoll_left_join_columns();
    fn ruffleknoll_select();
    fn ruffleknoll_inner_join();
    fn ruffleknoll_left_join();
    fn ruffleknoll_delete();
    fn ruffleknoll_update();
    fn ruffleknoll_insert();
}

macro_rules! number {
    ($index:literal) => {
        u64
    };
}

macro_rules! call {
    ($name:ident, $result:ty, $from:ident, $($index:literal)+) => {{
        type Called = unsafe extern "C" fn($(number!($index)),+) -> $result;
        transmute::<*const (), Called>($name as *const ())($($from[$index]),+)
    }};
}

// The module hands four numbers back the way x86-64 does: through a pointer that comes as the first
// argument and is the result. C on x86-64 hides it; other processors would have it elsewhere, so
// here it is written out.
macro_rules! ask {
    ($name:ident, $from:ident, $($index:literal)+) => {{
        type Asked = unsafe extern "C" fn(*mut Answer, $(number!($index)),+) -> *mut Answer;
        let mut answer = Answer { number: u64::MAX, place: 0, value: 0, used: 0 };
        transmute::<*const (), Asked>($name as *const ())(&mut answer, $($from[$index]),+);
        [answer.number, answer.place, answer.value, answer.used]
    }};
}

/// What a call answers; all arguments are numbers.
///
/// # Safety
///
/// The arguments are those of the header.
pub unsafe fn by_number(call: u8, a: &[u64; ARGUMENTS]) -> Option<Answered> {
    Some(match call {
        ROW => {
            let part = call!(ruffleknoll_row, Part, a, 0 1 2 3);
            [0, 0, part.start, part.length]
        }
        EARLIER => [0, 0, call!(ruffleknoll_earlier, u64, a, 0 1 2 3 4 5 6 7 8), 0],
        EVALUATE => ask!(ruffleknoll_evaluate, a, 0 1 2 3 4 5 6),
        FOLD => ask!(ruffleknoll_fold, a, 0 1 2 3 4 5 6),
        BIND => ask!(ruffleknoll_bind, a, 0 1 2 3 4 5 6 7 8),
        WITH => ask!(ruffleknoll_with, a, 0 1 2 3 4 5 6 7 8),
        PRINT => ask!(ruffleknoll_print, a, 0 1 2 3 4 5 6),
        INNER_JOIN_COLUMNS => {
            ask!(ruffleknoll_inner_join_columns, a, 0 1 2 3 4 5 6 7 8 9 10 11 12)
        }
        LEFT_JOIN_COLUMNS => ask!(ruffleknoll_left_join_columns, a, 0 1 2 3 4 5 6 7 8 9 10 11 12),
        SELECT => ask!(ruffleknoll_select, a, 0 1 2 3 4 5 6 7 8 9 10 11 12),
        INNER_JOIN => ask!(ruffleknoll_inner_join, a, 0 1 2 3 4 5 6 7 8 9 10 11 12 13 14),
        LEFT_JOIN => ask!(ruffleknoll_left_join, a, 0 1 2 3 4 5 6 7 8 9 10 11 12 13 14),
        DELETE => ask!(ruffleknoll_delete, a, 0 1 2 3 4 5 6 7 8 9 10),
        UPDATE => ask!(ruffleknoll_update, a, 0 1 2 3 4 5 6 7 8 9 10 11 12),
        INSERT => ask!(ruffleknoll_insert, a, 0 1 2 3 4 5 6 7 8 9 10),
        _ => return None,
    })
}
