//! Left joins with a place for added right rows, from a seed.

use cases::call::{Call, Text, LEFT_JOIN};
use cases::generate::nodes::{self, int_word};
use cases::generate::scene::{bound, Scene, Want};
use cases::random::Random;

pub const MOST_ROWS: usize = 4096;
/// The length of a text that can hardly be joined.
const LONG: usize = 1030;

/// A right row, and whether it is an added one.
#[derive(Debug)]
pub struct Right {
    pub row: Vec<u64>,
    pub is_added: bool,
}

/// Both joins at once. The last column of each side numbers its rows, the
/// right ones in the order of the new join, so that each line of an answer
/// tells its pair.
#[derive(Debug)]
pub struct Join {
    pub left_columns: Vec<u64>,
    pub left: Vec<Vec<u64>>,
    pub right_columns: Vec<u64>,
    pub right: Vec<Right>,
    pub condition: Vec<u8>,
    pub text: Text,
}

impl Join {
    pub fn draw(random: &mut Random) -> Join {
        let mut scene = Scene::new(random);
        // Seldom so many rows that the added ones can be too many.
        let is_large = scene.random.one_in(300);
        let [left_columns, right_columns] = [2, 2].map(|most| {
            let count = if is_large { 1 } else { scene.random.between(1, most) };
            numbered_columns(&mut scene, count)
        });
        let (left_count, old_count, added_count) = match is_large {
            true => (1, MOST_ROWS - scene.random.below(4), scene.random.below(8)),
            false => (scene.random.below(6), scene.random.below(6), scene.random.below(5)),
        };
        let left = (0..left_count).map(|number| row(&mut scene, &left_columns, number)).collect();
        let right = right_rows(&mut scene, &right_columns, old_count, added_count);
        let columns = [&left_columns[..], &right_columns].concat();
        let condition = condition(&mut scene, &columns, left_columns.len() / 2);
        let text = scene.text_with_room();
        let mut join = Join { left_columns, left, right_columns, right, condition, text };
        if scene.random.one_in(2) {
            join.part(&mut scene);
        }
        join
    }

    /// Makes added rows wild and all others tame, so that the new join may be
    /// refused where the old one is not.
    fn part(&mut self, scene: &mut Scene) {
        let long_text = scene.text.len();
        scene.text.extend([b'g'; LONG]);
        self.text = scene.text_with_room();
        self.left.iter_mut().for_each(|row| make_tame(row));
        for right in &mut self.right {
            match right.is_added {
                true => make_wild(scene, &mut right.row, long_text),
                false => make_tame(&mut right.row),
            }
        }
    }

    pub fn call(&self, right: Vec<u64>, room: usize) -> Call {
        let call = Call::new(LEFT_JOIN).words(&self.left_columns[..]).words(self.left.concat());
        let call = call.words(&self.right_columns[..]).words(right);
        call.bytes(&self.condition[..]).text(self.text.clone()).words_out(room)
    }

    /// The words of a row of the result.
    pub fn width(&self) -> usize {
        (self.left_columns.len() + self.right_columns.len()) / 2
    }
}

/// Right rows, the added ones at random places among the old.
fn right_rows(scene: &mut Scene, columns: &[u64], old: usize, added: usize) -> Vec<Right> {
    let mut is_added = vec![false; old];
    for _ in 0..added {
        let place = scene.random.below(is_added.len() + 1);
        is_added.insert(place, true);
    }
    let right = |(number, is_added)| Right { row: row(scene, columns, number), is_added };
    is_added.into_iter().enumerate().map(right).collect()
}

/// Columns of a table with one more that numbers its rows.
fn numbered_columns(scene: &mut Scene, count: usize) -> Vec<u64> {
    let (mut columns, _) = scene.columns(count);
    columns.extend([columns[0], 1]);
    columns
}

fn row(scene: &mut Scene, columns: &[u64], number: usize) -> Vec<u64> {
    let mut row = scene.rows(&columns[..columns.len() - 2], 1);
    row.push(int_word(number as i32));
    row
}

/// Puts values into an added row that operators on it may not bear.
fn make_wild(scene: &mut Scene, row: &mut [u64], long_text: usize) {
    let (_, values) = row.split_last_mut().expect("a number");
    for word in values {
        *word = match (scene.random.below(3), *word >> 56) {
            (0, 2) => nodes::text_word(long_text, scene.random.between(LONG - 20, LONG)),
            (0, _) => int_word(scene.random.pick(&[i32::MAX, i32::MIN, -1, 32])),
            _ => *word,
        };
    }
}

/// Puts small numbers into a row, so that hardly an operator refuses it.
fn make_tame(row: &mut [u64]) {
    let is_wild = |word: u64| word >> 56 == 1 && word as u32 > 6;
    let (number, values) = row.split_last_mut().expect("a number");
    for word in values.iter_mut().filter(|word| is_wild(**word)) {
        *word = int_word((*number % 5) as i32);
    }
}

/// A comparison of a left and a right column, an operator on Ints over them
/// that some pairs may not bear, or any condition.
fn condition(scene: &mut Scene, columns: &[u64], left_count: usize) -> Vec<u8> {
    let left = nodes::column(scene.random.below(left_count) as u8);
    let right = nodes::column(scene.random.between(left_count, columns.len() / 2 - 1) as u8);
    match scene.random.below(4) {
        0 => nodes::binary(scene.random.between(38, 46) as u8, &left, &right),
        1 | 2 => nodes::binary(scene.random.between(32, 37) as u8, &left, &right),
        _ => {
            let depth = scene.random.pick(&[2, 3, 4]);
            scene.condition(Want::Truth, &bound(columns), depth)
        }
    }
}
