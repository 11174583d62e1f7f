//! Each call of `src/archive.rs` once, linked with a recorder in the place of the archive: see `tests/archive.rs`.

#[path = "../../src/archive.rs"]
mod archive;
#[path = "../../src/calls.rs"]
mod calls;

use archive::Archive;
use calls::{Answer, Head, Join, Lent, Library, Stored, Text};

/// In the place of the crate's.
#[derive(Debug)]
pub struct Refusal;

const LEFT: Lent = Lent { columns: &[1, 1], rows: &[3] };
const RIGHT: Lent = Lent { columns: &[2, 2, 2, 2], rows: &[4, 4] };
const STORED: Stored = Stored { bytes: &[11, 11, 11], used: 2 };
const ANSWER: Answer = Answer { number: 1, place: 2, value: 3, used: 4 };

/// A call with a text and an output, both of which it must have written, and the text only where it may.
fn written<T: From<u8> + PartialEq + Copy>(
    writes_text: bool,
    call: impl FnOnce(Text, &mut [T]) -> Result<Answer, Refusal>,
) {
    let (mut bytes, mut output) = ([11; 3], [T::from(0); 5]);
    assert_eq!(call(Text { bytes: &mut bytes, used: 2 }, &mut output).unwrap(), ANSWER);
    assert!(output[0] == T::from(77) && output[1..].iter().all(|&word| word == T::from(0)));
    assert_eq!(bytes, [if writes_text { 77 } else { 11 }, 11, 11]);
}

fn main() {
    let library = Archive;
    let earlier = library.earlier(LEFT.columns, STORED, LEFT.rows, RIGHT.rows).unwrap();
    assert_eq!(earlier, Answer { number: 0, place: 0, value: 3, used: 0 });
    let mut bytes = [11; 3];
    let text = Text { bytes: &mut bytes, used: 2 };
    assert_eq!(library.evaluate(&[7], LEFT.rows, text).unwrap(), ANSWER);
    assert_eq!(bytes, [77, 11, 11]);
    written(true, |text, output| library.fold(&[7], text, output));
    written(false, |_, output| library.bind(&[7], LEFT.columns, STORED, output));
    written(false, |_, output| library.with(&[7], &[8, 8], STORED, output));
    written(false, |_, output| library.print(&[7], STORED, output));
    let left = Head { name: &[9], columns: LEFT.columns };
    let right = Head { name: &[10, 10], columns: RIGHT.columns };
    for join in [Join::Inner, Join::Left] {
        written(true, |text, output| library.join_columns(join, left, right, text, output));
        written(true, |text, output| library.join(join, [LEFT, RIGHT], &[7], text, output));
    }
    written(true, |text, output| library.select(LEFT, &[5], &[7], text, output));
    written(true, |text, output| library.delete(LEFT, &[7], text, output));
    written(true, |text, output| library.update(LEFT, &[6, 6], &[7], text, output));
    written(false, |_, output| library.insert(LEFT, RIGHT.rows, STORED, output));
}
