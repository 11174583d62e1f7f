//! The original as a second answerer: where it is asked, where it isn't, and
//! that it contradicts wrong answers.

use cases::answer::{model_answer, Answer};
use cases::call::*;
use cases::generate::LAYERS;
use cases::original::originals;
use cases::random::Random;
use cases::sample::answered;
use cases::seen::{agrees, Seen, Value};
use std::slice::from_ref;

const INT: u64 = 1 << 56;
const TEXT: u64 = 2 << 56;
const LOWEST: u64 = INT | 1 << 31;
/// 2147483647 + 1.
const OVERFLOW: [u8; 11] = [1, 255, 255, 255, 127, 1, 1, 0, 0, 0, 38];

fn text(stored: &[u8]) -> Text {
    Text { length: 32_768 + stored.len(), used: stored.len() as u64, stored: stored.to_vec() }
}

/// How many ways there were to ask each build.
fn ways(call: &Call) -> Vec<usize> {
    originals().iter().map(|original| original.answers(call).len()).collect()
}

fn evaluate(condition: &[u8], row: &[u64], stored: &[u8]) -> Call {
    Call::new(EVALUATE).bytes(condition).words(row).text(text(stored))
}

#[test]
fn what_folding_refuses_is_asked_unfolded() {
    assert_eq!(ways(&evaluate(&[0, 0, 32], &[0], b"")), [2, 2]);
    let decided = [&[1, 0, 0, 0, 0][..], &OVERFLOW, &[48]].concat();
    let call = evaluate(&decided, &[0], b"");
    assert_eq!(ways(&call), [1, 1]);
    assert_eq!(originals()[0].answers(&call), [Seen::Value(Value::Int(0))]);
}

#[test]
fn places_are_compared() {
    let call = Call::new(FOLD).bytes([&[4, 9][..], &OVERFLOW, &[48]].concat());
    let call = call.text(text(b"")).bytes_out(448);
    let expected = Seen::Refused { number: 5, place: Some(12) };
    assert_eq!(originals()[1].answers(&call), from_ref(&expected));
    let mut answer = model_answer(&call).unwrap();
    assert!(agrees(&call, &answer, &expected));
    answer.place = 11;
    assert!(!agrees(&call, &answer, &expected));
}

#[test]
fn added_rules_are_asked_of_the_document_build_only() {
    let valid = |rule: u64, cell: u64| Call::new(IS_VALID_VALUE).number(rule).number(cell);
    assert_eq!(ways(&valid(1, LOWEST)), [0, 1]);
    assert_eq!(ways(&valid(3 | 1 << 8, 0)), [0, 1]);
    assert_eq!(ways(&valid(1, LOWEST + 1)), [1, 1]);
    assert_eq!(ways(&valid(3, 0)), [1, 1]);
    let insert = |cell: u64| {
        let call = Call::new(INSERT).words([TEXT | 1, 1]).words([]).words([cell]);
        call.text(text(b"a")).words_out(1)
    };
    assert_eq!(ways(&insert(LOWEST)), [0, 2]);
    assert_eq!(ways(&insert(INT)), [2, 2]);
}

#[test]
fn nothing_is_asked_outside_the_domain() {
    let join = [2, 0, 0, 0, 0, 1, 0, 4, 0, 38];
    let long = |length: u64| evaluate(&join, &[TEXT | length], &[b'l'; 1025]);
    assert_eq!(ways(&long(1023)), [2, 2]);
    assert_eq!(ways(&long(1024)), [0, 0]);
    assert_eq!(ways(&evaluate(&[4, 1], &[0], b"")), [0, 0]);
    assert_eq!(ways(&evaluate(&[4, 0], &[TEXT | 1], b"\xff")), [0, 0]);
    assert_eq!(ways(&evaluate(&[0, 0], &[0], b"")), [0, 0]);
    let print = |stored: &[u8], room: usize| {
        let condition = [2, 0, 0, 0, 0, stored.len() as u8, 0];
        Call::new(PRINT).bytes(condition).text(text(stored)).bytes_out(room)
    };
    assert_eq!(ways(&print(b"ab", 4)), [1, 1]);
    assert_eq!(ways(&print(b"ab", 3)), [0, 0]);
    assert_eq!(ways(&print("\u{e9}".as_bytes(), 9)), [0, 0]);
}

/// A missing column in a join is document 01's alone, in a select it isn't.
#[test]
fn missing_columns() {
    let column = [TEXT | 1, 1];
    let select = Call::new(SELECT).words(column).words([INT]).words([]).bytes([4, 1]);
    let select = select.text(text(b"a")).words_out(1);
    let refused = Seen::Refused { number: 4, place: Some(0) };
    assert!(originals()[0].answers(&select).iter().all(|answer| *answer == refused));
    assert_eq!(ways(&select), [4, 4]);
    let join = Call::new(INNER_JOIN).words(column).words([]).words(column).words([]);
    assert_eq!(ways(&join.bytes([4, 2]).text(text(b"a")).words_out(1)), [0, 0]);
}

/// A select over a join is asked with the names' room and within the bounds
/// of what select is lent.
#[test]
fn select_over_a_join() {
    let column = [TEXT | 1, 1];
    let nested = |left: usize, condition: &[u8], above: usize| {
        let rows = vec![INT | 3; left];
        let call = Call::new(SELECT_LEFT_JOIN).bytes(*b"T").words(column).words(rows);
        let call = call.bytes(*b"T").words(column).words([INT; 65]);
        let text = Text { length: 1 + 32_768 + above, used: 1, stored: b"a".to_vec() };
        call.bytes([1, 1, 0, 0, 0]).words([0]).bytes(condition).text(text).words_out(64 * 65)
    };
    assert_eq!(ways(&nested(1, &[], 6)), [4, 4]);
    assert_eq!(ways(&nested(1, &[], 5)), [0, 0]);
    assert_eq!(ways(&nested(63, &[4, 1], 6)), [4, 4]);
    assert_eq!(ways(&nested(64, &[4, 1], 6)), [0, 0]);
    let late = [4, 0, 1, 253, 255, 255, 127, 38];
    let expected = Seen::Refused { number: 5, place: Some(0) };
    let answers = originals()[1].answers(&nested(2, &late, 6));
    assert!(answers.len() == 4 && answers.iter().all(|answer| *answer == expected));
}

/// Another answer, which differs in something that can be seen.
fn falsified(call: &Call, answer: &Answer) -> Answer {
    let mut wrong = answer.clone();
    match call.number {
        _ if answer.number != 0 => wrong.number ^= 3,
        COMPARE..=FIND_COLUMN | EARLIER => wrong.value += 1,
        EVALUATE => wrong.value = if answer.value == INT { INT + 1 } else { INT },
        FOLD | WITH => wrong.output.push(18),
        INNER_JOIN_COLUMNS | LEFT_JOIN_COLUMNS => wrong.output[1] ^= 1 << 8,
        PRINT | PRINT_VALUE => wrong.output.push(32),
        _ => {
            wrong.output.push(0);
            wrong.value = wrong.output.len() as u64;
        }
    }
    wrong
}

#[test]
fn wrong_answers_are_contradicted() {
    let mut random = Random::new(11);
    let opinions = originals();
    for layer in LAYERS.iter().filter(|layer| layer.name != "bind") {
        for draw in layer.draws {
            let mut contradicted = 0;
            for _ in 0..200 {
                let call = draw(&mut random);
                let wrong = falsified(&call, &model_answer(&call).unwrap());
                for second in opinions.iter().flat_map(|original| original.answers(&call)) {
                    assert!(!agrees(&call, &wrong, &second), "{call:?}");
                    contradicted += 1;
                }
            }
            assert!(contradicted > 50, "{} {contradicted}", layer.name);
        }
    }
}

/// Rows are told by number too: equal texts at two starts are not the same.
#[test]
fn rows_of_equal_content_are_told_apart() {
    let rows = [TEXT | 1, TEXT | 1 << 16 | 1];
    let call = Call::new(SELECT).words([TEXT | 1, 2]).words(rows).words([]).bytes([]);
    let call = call.text(text(b"aa")).words_out(2);
    let mut answer = model_answer(&call).unwrap();
    let agree = |answer: &Answer| {
        let mut seconds = originals().into_iter().flat_map(|original| original.answers(&call));
        seconds.all(|second| agrees(&call, answer, &second))
    };
    assert!(agree(&answer));
    answer.output.reverse();
    assert!(!agree(&answer));
}

/// A further comparison beside the one that writes the sample.
#[test]
fn drawn_calls_are_answered_alike() {
    let mut random = Random::new(12);
    let opinions = originals();
    for draw in LAYERS.iter().flat_map(|layer| layer.draws) {
        for _ in 0..500 {
            answered(draw(&mut random), &opinions).unwrap();
        }
    }
}
