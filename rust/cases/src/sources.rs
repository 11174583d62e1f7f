//! Who has confirmed the cases of a sample: the table of SOURCES.md.

use crate::call::signature_of;
use crate::format::Case;
use std::collections::BTreeMap;

const UNCHANGED: u8 = 2;
const DOCUMENT_COLUMNS: u8 = 4;

/// How many cases there are, and how many each source has answered alike.
#[derive(Clone, Copy, Default)]
pub struct Confirmed {
    pub cases: usize,
    pub unchanged: usize,
    pub document_columns: usize,
    pub alone: usize,
}

impl Confirmed {
    fn count(&mut self, case: &Case) {
        let has = |bit: u8| usize::from(case.sources & bit != 0);
        self.cases += 1;
        self.unchanged += has(UNCHANGED);
        self.document_columns += has(DOCUMENT_COLUMNS);
        self.alone += usize::from(case.sources & (UNCHANGED | DOCUMENT_COLUMNS) == 0);
    }

    pub fn add(&mut self, other: &Confirmed) {
        self.cases += other.cases;
        self.unchanged += other.unchanged;
        self.document_columns += other.document_columns;
        self.alone += other.alone;
    }
}

/// The tally of each call in a layer, by the call's number.
pub fn tally(cases: &[Case]) -> BTreeMap<u8, Confirmed> {
    let mut calls: BTreeMap<u8, Confirmed> = BTreeMap::new();
    for case in cases {
        calls.entry(case.call.number).or_default().count(case);
    }
    calls
}

fn line(layer: &str, call: &str, confirmed: &Confirmed) -> String {
    let Confirmed { cases, unchanged, document_columns, alone } = confirmed;
    format!("| {layer} | {call} | {cases} | {unchanged} | {document_columns} | {alone} |\n")
}

const HEAD: &str = "\
# Who confirms the sample

Written by `cases sources DIR`. Every answer comes from the model of document
01. A case counts under a build of the original Rust where that build was
asked too and showed the same: folded while building and with hidden literals
where both can be put, refusal numbers and places included. The last column
counts the cases that rest on document 01 alone; docs/DIFFERENCES.md says why
the Rust can't be asked there.

| layer | call | cases | unchanged Rust | Rust with document 01's column rules | document 01 alone |
|---|---|---|---|---|---|
";

/// The page for layers with their cases.
pub fn page(layers: &[(&str, Vec<Case>)]) -> String {
    let mut page = HEAD.to_string();
    let mut all = Confirmed::default();
    for (layer, cases) in layers {
        for (number, confirmed) in tally(cases) {
            let name = signature_of(number).map_or("?", |signature| signature.name);
            page += &line(layer, &format!("`{name}`"), &confirmed);
            all.add(&confirmed);
        }
    }
    page + &line("all", "", &all)
}
