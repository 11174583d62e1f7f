//! The archive's calls, declared as include/ruffleknoll.h declares them. This is the only module with `unsafe`.
//!
//! The header has one rule for callers: a written buffer overlaps no other of the call. A `&mut` slice overlaps
//! nothing else, so safe code can't break it. All else the calls bear: any bytes, any numbers, any lengths.

use crate::calls::{Answer, Head, Join, Lent, Library, Stored, Text};
use crate::Refusal;

type Answered = Result<Answer, Refusal>;

/// The library as linked.
pub struct Archive;

extern "C" {
    fn ruffleknoll_earlier(
        columns: *const u64,
        columns_length: u64,
        text: *const u8,
        text_length: u64,
        used: u64,
        first: *const u64,
        first_length: u64,
        second: *const u64,
        second_length: u64,
    ) -> u64;

    fn ruffleknoll_evaluate(
        condition: *const u8,
        condition_length: u64,
        row: *const u64,
        row_length: u64,
        text: *mut u8,
        text_length: u64,
        used: u64,
    ) -> Answer;

    fn ruffleknoll_fold(
        condition: *const u8,
        condition_length: u64,
        text: *mut u8,
        text_length: u64,
        used: u64,
        output: *mut u8,
        output_length: u64,
    ) -> Answer;

    fn ruffleknoll_bind(
        condition: *const u8,
        condition_length: u64,
        columns: *const u64,
        columns_length: u64,
        text: *const u8,
        text_length: u64,
        used: u64,
        output: *mut u8,
        output_length: u64,
    ) -> Answer;

    fn ruffleknoll_with(
        old_condition: *const u8,
        old_length: u64,
        new_condition: *const u8,
        new_length: u64,
        text: *const u8,
        text_length: u64,
        used: u64,
        output: *mut u8,
        output_length: u64,
    ) -> Answer;

    fn ruffleknoll_print(
        condition: *const u8,
        condition_length: u64,
        text: *const u8,
        text_length: u64,
        used: u64,
        output: *mut u8,
        output_length: u64,
    ) -> Answer;

    fn ruffleknoll_inner_join_columns(
        left_name: *const u8,
        left_name_length: u64,
        left_columns: *const u64,
        left_columns_length: u64,
        right_name: *const u8,
        right_name_length: u64,
        right_columns: *const u64,
        right_columns_length: u64,
        text: *mut u8,
        text_length: u64,
        used: u64,
        output: *mut u64,
        output_length: u64,
    ) -> Answer;

    fn ruffleknoll_left_join_columns(
        left_name: *const u8,
        left_name_length: u64,
        left_columns: *const u64,
        left_columns_length: u64,
        right_name: *const u8,
        right_name_length: u64,
        right_columns: *const u64,
        right_columns_length: u64,
        text: *mut u8,
        text_length: u64,
        used: u64,
        output: *mut u64,
        output_length: u64,
    ) -> Answer;

    fn ruffleknoll_select(
        columns: *const u64,
        columns_length: u64,
        rows: *const u64,
        rows_length: u64,
        column_list: *const u64,
        column_list_length: u64,
        condition: *const u8,
        condition_length: u64,
        text: *mut u8,
        text_length: u64,
        used: u64,
        output: *mut u64,
        output_length: u64,
    ) -> Answer;

    fn ruffleknoll_inner_join(
        left_columns: *const u64,
        left_columns_length: u64,
        left_rows: *const u64,
        left_rows_length: u64,
        right_columns: *const u64,
        right_columns_length: u64,
        right_rows: *const u64,
        right_rows_length: u64,
        condition: *const u8,
        condition_length: u64,
        text: *mut u8,
        text_length: u64,
        used: u64,
        output: *mut u64,
        output_length: u64,
    ) -> Answer;

    fn ruffleknoll_left_join(
        left_columns: *const u64,
        left_columns_length: u64,
        left_rows: *const u64,
        left_rows_length: u64,
        right_columns: *const u64,
        right_columns_length: u64,
        right_rows: *const u64,
        right_rows_length: u64,
        condition: *const u8,
        condition_length: u64,
        text: *mut u8,
        text_length: u64,
        used: u64,
        output: *mut u64,
        output_length: u64,
    ) -> Answer;

    fn ruffleknoll_delete(
        columns: *const u64,
        columns_length: u64,
        rows: *const u64,
        rows_length: u64,
        condition: *const u8,
        condition_length: u64,
        text: *mut u8,
        text_length: u64,
        used: u64,
        output: *mut u64,
        output_length: u64,
    ) -> Answer;

    fn ruffleknoll_update(
        columns: *const u64,
        columns_length: u64,
        rows: *const u64,
        rows_length: u64,
        sets: *const u64,
        sets_length: u64,
        condition: *const u8,
        condition_length: u64,
        text: *mut u8,
        text_length: u64,
        used: u64,
        output: *mut u64,
        output_length: u64,
    ) -> Answer;

    fn ruffleknoll_insert(
        columns: *const u64,
        columns_length: u64,
        old_rows: *const u64,
        old_rows_length: u64,
        new_rows: *const u64,
        new_rows_length: u64,
        text: *const u8,
        text_length: u64,
        used: u64,
        output: *mut u64,
        output_length: u64,
    ) -> Answer;
}

impl Library for Archive {
    fn earlier(&self, columns: &[u64], text: Stored, first: &[u64], second: &[u64]) -> Answered {
        // SAFETY: each pointer comes with its own slice's length, and nothing is written.
        let value = unsafe {
            ruffleknoll_earlier(
                columns.as_ptr(),
                columns.len() as u64,
                text.bytes.as_ptr(),
                text.bytes.len() as u64,
                text.used as u64,
                first.as_ptr(),
                first.len() as u64,
                second.as_ptr(),
                second.len() as u64,
            )
        };
        Ok(Answer { number: 0, place: 0, value, used: 0 })
    }

    fn evaluate(&self, condition: &[u8], row: &[u64], text: Text) -> Answered {
        // SAFETY: each pointer comes with its own slice's length; `text`, the one written, is `&mut`.
        let answer = unsafe {
            ruffleknoll_evaluate(
                condition.as_ptr(),
                condition.len() as u64,
                row.as_ptr(),
                row.len() as u64,
                text.bytes.as_mut_ptr(),
                text.bytes.len() as u64,
                text.used as u64,
            )
        };
        Ok(answer)
    }

    fn fold(&self, condition: &[u8], text: Text, output: &mut [u8]) -> Answered {
        // SAFETY: each pointer comes with its own slice's length; `text` and `output`, the written ones, are `&mut`.
        let answer = unsafe {
            ruffleknoll_fold(
                condition.as_ptr(),
                condition.len() as u64,
                text.bytes.as_mut_ptr(),
                text.bytes.len() as u64,
                text.used as u64,
                output.as_mut_ptr(),
                output.len() as u64,
            )
        };
        Ok(answer)
    }

    fn bind(&self, named: &[u8], columns: &[u64], text: Stored, output: &mut [u8]) -> Answered {
        // SAFETY: each pointer comes with its own slice's length; `output`, the one written, is `&mut`.
        let answer = unsafe {
            ruffleknoll_bind(
                named.as_ptr(),
                named.len() as u64,
                columns.as_ptr(),
                columns.len() as u64,
                text.bytes.as_ptr(),
                text.bytes.len() as u64,
                text.used as u64,
                output.as_mut_ptr(),
                output.len() as u64,
            )
        };
        Ok(answer)
    }

    fn with(&self, old: &[u8], new: &[u8], text: Stored, output: &mut [u8]) -> Answered {
        // SAFETY: each pointer comes with its own slice's length; `output`, the one written, is `&mut`.
        let answer = unsafe {
            ruffleknoll_with(
                old.as_ptr(),
                old.len() as u64,
                new.as_ptr(),
                new.len() as u64,
                text.bytes.as_ptr(),
                text.bytes.len() as u64,
                text.used as u64,
                output.as_mut_ptr(),
                output.len() as u64,
            )
        };
        Ok(answer)
    }

    fn print(&self, condition: &[u8], text: Stored, output: &mut [u8]) -> Answered {
        // SAFETY: each pointer comes with its own slice's length; `output`, the one written, is `&mut`.
        let answer = unsafe {
            ruffleknoll_print(
                condition.as_ptr(),
                condition.len() as u64,
                text.bytes.as_ptr(),
                text.bytes.len() as u64,
                text.used as u64,
                output.as_mut_ptr(),
                output.len() as u64,
            )
        };
        Ok(answer)
    }

    fn join_columns(
        &self,
        join: Join,
        left: Head,
        right: Head,
        text: Text,
        output: &mut [u64],
    ) -> Answered {
        let call = match join {
            Join::Inner => ruffleknoll_inner_join_columns,
            Join::Left => ruffleknoll_left_join_columns,
        };
        // SAFETY: each pointer comes with its own slice's length; `text` and `output`, the written ones, are `&mut`.
        let answer = unsafe {
            call(
                left.name.as_ptr(),
                left.name.len() as u64,
                left.columns.as_ptr(),
                left.columns.len() as u64,
                right.name.as_ptr(),
                right.name.len() as u64,
                right.columns.as_ptr(),
                right.columns.len() as u64,
                text.bytes.as_mut_ptr(),
                text.bytes.len() as u64,
                text.used as u64,
                output.as_mut_ptr(),
                output.len() as u64,
            )
        };
        Ok(answer)
    }

    fn select(
        &self,
        table: Lent,
        list: &[u64],
        condition: &[u8],
        text: Text,
        output: &mut [u64],
    ) -> Answered {
        // SAFETY: each pointer comes with its own slice's length; `text` and `output`, the written ones, are `&mut`.
        let answer = unsafe {
            ruffleknoll_select(
                table.columns.as_ptr(),
                table.columns.len() as u64,
                table.rows.as_ptr(),
                table.rows.len() as u64,
                list.as_ptr(),
                list.len() as u64,
                condition.as_ptr(),
                condition.len() as u64,
                text.bytes.as_mut_ptr(),
                text.bytes.len() as u64,
                text.used as u64,
                output.as_mut_ptr(),
                output.len() as u64,
            )
        };
        Ok(answer)
    }

    fn join(
        &self,
        join: Join,
        [left, right]: [Lent; 2],
        condition: &[u8],
        text: Text,
        output: &mut [u64],
    ) -> Answered {
        let call = match join {
            Join::Inner => ruffleknoll_inner_join,
            Join::Left => ruffleknoll_left_join,
        };
        // SAFETY: each pointer comes with its own slice's length; `text` and `output`, the written ones, are `&mut`.
        let answer = unsafe {
            call(
                left.columns.as_ptr(),
                left.columns.len() as u64,
                left.rows.as_ptr(),
                left.rows.len() as u64,
                right.columns.as_ptr(),
                right.columns.len() as u64,
                right.rows.as_ptr(),
                right.rows.len() as u64,
                condition.as_ptr(),
                condition.len() as u64,
                text.bytes.as_mut_ptr(),
                text.bytes.len() as u64,
                text.used as u64,
                output.as_mut_ptr(),
                output.len() as u64,
            )
        };
        Ok(answer)
    }

    fn delete(&self, table: Lent, condition: &[u8], text: Text, output: &mut [u64]) -> Answered {
        // SAFETY: each pointer comes with its own slice's length; `text` and `output`, the written ones, are `&mut`.
        let answer = unsafe {
            ruffleknoll_delete(
                table.columns.as_ptr(),
                table.columns.len() as u64,
                table.rows.as_ptr(),
                table.rows.len() as u64,
                condition.as_ptr(),
                condition.len() as u64,
                text.bytes.as_mut_ptr(),
                text.bytes.len() as u64,
                text.used as u64,
                output.as_mut_ptr(),
                output.len() as u64,
            )
        };
        Ok(answer)
    }

    fn update(
        &self,
        table: Lent,
        sets: &[u64],
        condition: &[u8],
        text: Text,
        output: &mut [u64],
    ) -> Answered {
        // SAFETY: each pointer comes with its own slice's length; `text` and `output`, the written ones, are `&mut`.
        let answer = unsafe {
            ruffleknoll_update(
                table.columns.as_ptr(),
                table.columns.len() as u64,
                table.rows.as_ptr(),
                table.rows.len() as u64,
                sets.as_ptr(),
                sets.len() as u64,
                condition.as_ptr(),
                condition.len() as u64,
                text.bytes.as_mut_ptr(),
                text.bytes.len() as u64,
                text.used as u64,
                output.as_mut_ptr(),
                output.len() as u64,
            )
        };
        Ok(answer)
    }

    fn insert(&self, table: Lent, new: &[u64], text: Stored, output: &mut [u64]) -> Answered {
        // SAFETY: each pointer comes with its own slice's length; `output`, the one written, is `&mut`.
        let answer = unsafe {
            ruffleknoll_insert(
                table.columns.as_ptr(),
                table.columns.len() as u64,
                table.rows.as_ptr(),
                table.rows.len() as u64,
                new.as_ptr(),
                new.len() as u64,
                text.bytes.as_ptr(),
                text.bytes.len() as u64,
                text.used as u64,
                output.as_mut_ptr(),
                output.len() as u64,
            )
        };
        Ok(answer)
    }
}
