//! Generators of calls, one for each layer of the sample. Each makes its
//! boundary cases on purpose and draws the rest from a seed.

mod binding;
mod conditions;
mod faults;
mod folding;
pub mod inserting;
mod joins;
mod nested;
pub mod nodes;
mod operators;
mod printing;
mod rows;
pub mod scene;
pub mod spoil;
mod tables;
mod values;

use crate::call::Call;
use crate::random::Random;

/// Draws one call.
pub type Draw = fn(&mut Random) -> Call;

/// A layer's file name, what makes the calls of its file, and what draws
/// further ones.
pub struct Layer {
    pub name: &'static str,
    pub calls: fn(&mut Random) -> Vec<Call>,
    pub draws: &'static [Draw],
}

const fn layer(
    name: &'static str,
    calls: fn(&mut Random) -> Vec<Call>,
    draws: &'static [Draw],
) -> Layer {
    Layer { name, calls, draws }
}

pub const LAYERS: &[Layer] = &[
    layer("values", values::calls, &[values::random_compare, values::random_find]),
    layer("operators", operators::calls, &[]),
    layer("conditions", conditions::calls, &[conditions::random_evaluation]),
    layer("fold", folding::calls, &[folding::random_fold]),
    layer("bind", binding::calls, &[binding::random_bind]),
    layer("print", printing::calls, &[printing::random_print, printing::random_value]),
    layer("tables", tables::calls, &[tables::random_choice, tables::random_joined]),
    layer("rows", rows::calls, &[rows::random_call]),
    layer("joins", joins::calls, &[joins::random_join, nested::random_nested]),
    layer("insert", inserting::calls, &[inserting::random_insert]),
    layer("with", conditions::calls_of_with, &[conditions::random_with]),
];

/// Draws of document 01's calls. One that draws several calls stands here
/// once for each, so that all come about equally often.
pub const DRAWS: &[Draw] = &[
    tables::random_row,
    tables::random_choice,
    conditions::random_evaluation,
    folding::random_fold,
    binding::random_bind,
    conditions::random_with,
    printing::random_print,
    tables::random_joined,
    tables::random_joined,
    rows::random_call,
    rows::random_call,
    rows::random_call,
    joins::random_join,
    joins::random_join,
    inserting::random_insert,
];
