// SPDX-FileCopyrightText: 2026 The PPVM Authors
// SPDX-License-Identifier: Apache-2.0

//! Actions of models, and of matrices, on a few words each.

use super::standing::Standing;
use super::{Line, matrices, most};
use crate::inputs::Rng;
use crate::inputs::actions as inputs;
use crate::inputs::matrices::Matrix;
use crate::port::Word;
use crate::port::actions::{Listed, Room};
use crate::published::actions as published;
use crate::rules::actions as rules;
use crate::rules::{MAX_QUBITS, word_of};

/// The words of a case, and those that they are chosen from.
const WORDS: usize = 5;
const CHOSEN_FROM: usize = 16;

/// The most numbers of a line, and the most words that an action touches and lists: the recording is to stay small.
const LONGEST: usize = 900;
const SUM_PLACES: usize = 256;
const LIST_PLACES: usize = 24;

pub fn record(seed: u64, cases: usize, from: usize) {
    let rng = &mut Rng::new(seed);
    println!("# 9, as 5 to the lengths of the lent slices, then those of work_words work_sums");
    println!(
        "#   out_words out_values, then words_len and for each word its lanes, refusal first second"
    );
    println!("#   count, the lanes of the words listed and their values");
    for case in 0..cases {
        let of_model = |rng: &mut Rng| Standing::of_model(rng, 9, from, case);
        answered(rng, from, of_model).print();
    }
    println!("# a, as 9: actions of a matrix, given as in 7");
    if from == 0 {
        tempting(&mut Rng::new(seed)).print();
    }
    let of_matrix = |rng: &mut Rng| {
        let matrix = inputs::matrix(rng);
        Standing::of_matrix(rng, 10, from, matrix)
    };
    (0..cases).for_each(|_| answered(rng, from, of_matrix).print());
    println!("# b, as 9: refusals of document 01 that the Rust does not have");
    (0..cases).for_each(|case| refused(rng, from, case).print());
}

impl Standing {
    fn words(&self, rng: &mut Rng) -> Vec<Word> {
        let words = inputs::words(rng, &self.items, &self.matrices, CHOSEN_FROM);
        (0..WORDS).map(|_| rng.pick(&words)).collect()
    }

    /// The most places that actions on these words need. Nothing where they are too many to record.
    fn places(&self, words: &[Word]) -> Option<(usize, usize)> {
        let mut most = (0, 0);
        for &p in words {
            let (sums, list) = rules::places(self.model, &self.lent, p)?;
            most = (most.0.max(sums), most.1.max(list));
        }
        (most.0 <= SUM_PLACES && most.1 <= LIST_PLACES).then_some(most)
    }

    /// The line with the answers of the rules in tables of so many places, and the lists.
    fn acted(
        &self,
        rng: &mut Rng,
        words: &[Word],
        (sums, list): (usize, usize),
    ) -> (Line, Vec<(Listed, Vec<(Word, f64)>)>) {
        let room = inputs::room(rng, sums, list);
        let lengths = [
            room.work_words.len(),
            room.work_sums.len(),
            room.out_words.len(),
            room.out_values.len(),
            words.len(),
        ];
        let line = Line(self.line.0.clone()).numbers(&lengths.map(|length| length as u64));
        let act = |&p: &Word| {
            let mut room: Room = room.clone();
            let listed = rules::compute_action_terms(self.model, &self.lent, p, &mut room);
            (listed, room.list(listed.count))
        };
        let answers: Vec<(Listed, Vec<(Word, f64)>)> = words.iter().map(act).collect();
        let answered = |line: Line, (&p, (listed, list)): (&Word, &(Listed, Vec<(Word, f64)>))| {
            let line = line.word(p).status(listed.status);
            let line = line.number(listed.count as u64);
            let line = list.iter().fold(line, |line, (word, _)| line.word(*word));
            let values: Vec<f64> = list.iter().map(|(_, value)| *value).collect();
            line.floats(&values)
        };
        (words.iter().zip(&answers).fold(line, answered), answers)
    }
}

/// The line of actions on these words, where there is room for it, something is listed, and the Rust gives the
/// answers too.
fn alike(rng: &mut Rng, from: usize, standing: &Standing, words: &[Word]) -> Option<Line> {
    let places = standing.places(words)?;
    let (line, answers) = standing.acted(rng, words, places);
    let model = standing.rust()?;
    let bits = |list: &[(Word, f64)]| -> Vec<(Word, u64)> {
        list.iter().map(|(w, x)| (*w, x.to_bits())).collect()
    };
    let alike = words
        .iter()
        .zip(&answers)
        .all(|(&p, (_, list))| bits(&published::compute_action_terms(&model, p)) == bits(list));
    let some = answers.iter().any(|(_, list)| !list.is_empty());
    (alike && some && line.0.len() <= most(LONGEST, from)).then_some(line)
}

/// A case whose answers the Rust gives too.
fn answered(
    rng: &mut Rng,
    from: usize,
    mut standing: impl FnMut(&mut Rng) -> Option<Standing>,
) -> Line {
    loop {
        let Some(standing) = standing(rng) else {
            continue;
        };
        let words = standing.words(rng);
        if let Some(line) = alike(rng, from, &standing, &words) {
            return line;
        }
    }
}

/// A word of a product that is thinned out: its number's parts are together above the tolerance, and its square is
/// below it.
fn tempting(rng: &mut Rng) -> Line {
    let (zero, large) = ((0.0, 0.0), (2.0, 0.0));
    let matrix = Matrix {
        operators: matrices::two((6e-15, 6e-15)),
        k: vec![vec![zero, large], vec![large, (1.0, 0.0)]],
    };
    let standing = Standing::of_matrix(rng, 10, 0, (2, matrix)).expect("there is room for it");
    let words = ["IZ", "ZZ", "ZI", "YZ"].map(|text| word_of(text.as_bytes()));
    alike(rng, 0, &standing, &words).expect("a sound case")
}

/// A case with a word outside of the register, or with too few places for some word.
fn refused(rng: &mut Rng, from: usize, case: usize) -> Line {
    loop {
        let Some(standing) = Standing::of_model(rng, 11, from, 1 + case % 7) else {
            continue;
        };
        let mut words = standing.words(rng);
        let Some((sums, list)) = standing.places(&words) else {
            continue;
        };
        let n_qubits = standing.items.n_qubits;
        let (refusal, places) = match case % 3 {
            0 if n_qubits < MAX_QUBITS => {
                let place = rng.below(WORDS);
                words[place] = inputs::outside(rng, n_qubits);
                ((11, 0), (sums, list))
            }
            1 if sums > 0 => ((13, 1), (sums - 1, list)),
            2 if list > 0 => ((13, 3), (sums, list - 1)),
            _ => continue,
        };
        let (line, answers) = standing.acted(rng, &words, places);
        let given = |listed: &Listed| (listed.status.refusal, listed.status.first) == refusal;
        if answers.iter().any(|(listed, _)| given(listed)) && line.0.len() <= most(LONGEST, from) {
            return line;
        }
    }
}
