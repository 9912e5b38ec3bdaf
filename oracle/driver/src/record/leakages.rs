// SPDX-FileCopyrightText: 2026 The PPVM Authors
// SPDX-License-Identifier: Apache-2.0

//! Leakage out of bases that are given by runs of entries alike, so that a short line has a basis of several
//! passes: tempting cases first, then random ones.

use super::standing::Standing;
use super::{Line, most};
use crate::inputs::Rng;
use crate::inputs::actions as action_inputs;
use crate::inputs::leakages::{self as inputs, Entries};
use crate::inputs::models::Items;
use crate::port::Word;
use crate::port::actions::Listed;
use crate::port::leakages::{Given, LeakRoom, Limits};
use crate::published::bases::{RustBasis, rust_words};
use crate::published::leakages as published;
use crate::rules::actions::MAX_WORDS;
use crate::rules::leakages::{
    self as rules, Acting, PASS, Places, leakage_sizes, outside, threshold, word_limit,
};
use crate::rules::{MAX_QUBITS, word_of};

/// The kinds: of a model, of a matrix, and answers which the Rust does not give.
const MODEL: u64 = 16;
const MATRIX: u64 = 17;
const NOT_RUST: u64 = 18;

/// What replaying has room for: runs, entries, protected words, places for sums and candidates, and for the
/// list. The numbers of a line are fewer than there might be, to keep the recording small.
const RUNS: usize = 24;
const ENTRIES: usize = 8192;
const PROTECTED: usize = 8;
const PLACES: usize = 256;
const LIST: usize = 64;
const LONGEST: usize = 600;

pub fn record(seed: u64, cases: usize, from: usize) {
    let rng = &mut Rng::new(seed);
    println!(
        "# 10, as 5 to the lengths of the lent slices, then how many runs and protected words,"
    );
    println!(
        "#   max_basis admit_given admit_basis tau_given tau_add, the places of tables 1, 2 and"
    );
    println!("#   3, for each run how many entries are alike, lanes, coefficient, the protected");
    println!("#   words, refusal first second count, the words listed and their values");
    let tempting = tempting(rng);
    tempting.iter().filter(|_| from == 0).for_each(|case| {
        assert!(case.fits() && case.is_of_the_rust(), "a sound case");
        case.line().print();
    });
    let of_model = |rng: &mut Rng, from, case| Standing::of_model(rng, MODEL, from, case);
    (0..cases).for_each(|case| answered(rng, from, case, of_model).line().print());
    println!("# 11, as 10: leakage of a matrix, given as in 7");
    let of_matrix = |rng: &mut Rng, from, _| {
        let matrix = action_inputs::matrix(rng);
        Standing::of_matrix(rng, MATRIX, from, matrix)
    };
    (0..cases).for_each(|case| answered(rng, from, case, of_matrix).line().print());
    println!("# 12, as 10: answers of document 01 that the Rust does not give");
    not_of_the_rust(rng)
        .iter()
        .filter(|_| from == 0)
        .for_each(|case| {
            assert!(case.fits(), "there is room for it");
            case.line().print();
        });
    (0..cases).for_each(|case| refused(rng, from, case).line().print());
}

/// Entries alike, at positions one after another.
#[derive(Clone, Copy)]
struct Run {
    times: usize,
    word: Word,
    coeff: f64,
}

/// A call with what it is given, and the places that it is lent.
struct Case {
    standing: Standing,
    runs: Vec<Run>,
    protected: Vec<Word>,
    limits: Limits,
    places: Places,
}

impl Case {
    /// With places that are just enough, or, where a sum is not finite, enough.
    fn new(standing: Standing, runs: Vec<Run>, protected: Vec<Word>, limits: Limits) -> Self {
        let none = Places {
            touched: 0,
            held: 0,
            listed: 0,
        };
        let mut case = Self {
            standing,
            runs,
            protected,
            limits,
            places: none,
        };
        let Entries { words, coeffs } = case.entries();
        let acting = Acting::new(case.standing.model, &case.standing.lent, &words, &coeffs);
        let is_outside = outside(&words, &case.protected);
        let free = word_limit(limits).saturating_sub(words.len());
        case.places = match rules::course(&acting, &is_outside, free) {
            Some(course) => Places {
                touched: course.touched,
                held: course.held,
                listed: course.list(threshold(limits)).len(),
            },
            None => acting.enough(),
        };
        case
    }

    fn entries(&self) -> Entries {
        let all = self
            .runs
            .iter()
            .flat_map(|run| (0..run.times).map(|_| (run.word, run.coeff)));
        let (words, coeffs) = all.unzip();
        Entries { words, coeffs }
    }

    fn given(&self) -> Given {
        let Entries { words, coeffs } = self.entries();
        Given {
            len: coeffs.len(),
            words: words.iter().flat_map(|w| w.lanes()).collect(),
            coeffs,
            protected: self.protected.iter().flat_map(|w| w.lanes()).collect(),
            limits: self.limits,
        }
    }

    /// What the rules answer.
    fn answer(&self) -> (Listed, Vec<(Word, f64)>) {
        let Standing { model, lent, .. } = &self.standing;
        let given = self.given();
        let Places {
            touched,
            held,
            listed,
        } = self.places;
        let protected = self.protected.len();
        let lengths = leakage_sizes(model.qubits, given.len, protected, touched, held);
        let mut room = LeakRoom::of(&lengths, listed);
        let listed = rules::leakage_with_prune(*model, lent, &given, &mut room);
        (listed, room.list(listed.count))
    }

    /// Whether replaying has room for it.
    fn fits(&self) -> bool {
        let Places {
            touched,
            held,
            listed,
        } = self.places;
        let entries: usize = self.runs.iter().map(|run| run.times).sum();
        self.runs.len() <= RUNS
            && entries <= ENTRIES
            && self.protected.len() <= PROTECTED
            && touched.max(held) <= PLACES
            && listed <= LIST
    }

    /// Whether the rules accept, and the Rust lists the same.
    fn is_of_the_rust(&self) -> bool {
        let (listed, list) = self.answer();
        let Some(model) = self.standing.rust() else {
            return false;
        };
        if listed.status.refusal != 0 {
            return false;
        }
        let n_qubits = self.standing.model.qubits;
        let Entries { words, coeffs } = self.entries();
        let entries: Vec<(Word, f64)> = words.into_iter().zip(coeffs).collect();
        let basis = RustBasis::new(n_qubits, &entries);
        let protected = rust_words(n_qubits, &self.protected);
        let (limit, tau_add) = (word_limit(self.limits), threshold(self.limits));
        let rust = published::listed(&model, &basis, &protected, limit, tau_add);
        let bits = |list: Vec<(Word, f64)>| -> Vec<(Word, u64)> {
            list.into_iter().map(|(w, x)| (w, x.to_bits())).collect()
        };
        bits(published::in_order(&rust)) == bits(list)
    }

    fn line(&self) -> Line {
        let Self {
            runs,
            protected,
            limits,
            places,
            ..
        } = self;
        let (listed, list) = self.answer();
        let count = |count: usize| count as u64;
        let line = Line(self.standing.line.0.clone())
            .numbers(&[runs.len(), protected.len(), limits.max_basis].map(count))
            .numbers(&[limits.admit_given, count(limits.admit_basis)])
            .number(limits.tau_given)
            .floats(&[limits.tau_add])
            .numbers(&[places.touched, places.held, places.listed].map(count));
        let with_run = |line: Line, run: &Run| {
            let line = line.number(count(run.times)).word(run.word);
            line.floats(&[run.coeff])
        };
        let line = runs.iter().fold(line, with_run);
        let line = protected.iter().fold(line, |line, w| line.word(*w));
        let line = line.status(listed.status).number(count(listed.count));
        let line = list.iter().fold(line, |line, (w, _)| line.word(*w));
        let values: Vec<f64> = list.iter().map(|(_, value)| *value).collect();
        line.floats(&values)
    }
}

/// A basis near a model, some words at several positions, with limits that decide something.
fn random(
    rng: &mut Rng,
    from: usize,
    case: usize,
    standing: fn(&mut Rng, usize, usize) -> Option<Standing>,
) -> Option<Case> {
    let standing = standing(rng, from, case)?;
    let Standing {
        items,
        matrices,
        model,
        lent,
        ..
    } = &standing;
    let len = rng.below(16);
    let words = action_inputs::words(rng, items, matrices, len);
    let Entries { words, coeffs } = Entries::new(rng, words);
    let run = |(&word, &coeff)| Run {
        times: 1 + rng.below(5) / 4,
        word,
        coeff,
    };
    let runs: Vec<Run> = words.iter().zip(&coeffs).map(run).collect();
    let acting = Acting::new(*model, lent, &words, &coeffs);
    let course = rules::course(&acting, &outside(&words, &[]), MAX_WORDS)?;
    let reached = course.list(-1.0);
    let mut protected = inputs::protected(rng, model.qubits, &words, &reached);
    protected.truncate(PROTECTED);
    let entries = runs.iter().map(|run| run.times).sum();
    let limits = inputs::limits(rng, entries, &reached);
    Some(Case::new(standing, runs, protected, limits))
}

/// A random case that the Rust answers alike. Most of them list something.
fn answered(
    rng: &mut Rng,
    from: usize,
    case: usize,
    standing: fn(&mut Rng, usize, usize) -> Option<Standing>,
) -> Case {
    loop {
        let Some(random) = random(rng, from, case, standing) else {
            continue;
        };
        let some = random.places.listed > 0 || rng.one_in(8);
        if some
            && random.fits()
            && random.is_of_the_rust()
            && random.line().0.len() <= most(LONGEST, from)
        {
            return random;
        }
    }
}

/// A random case with something wrong, or a table with a place too few.
fn refused(rng: &mut Rng, from: usize, case: usize) -> Case {
    let of_model = |rng: &mut Rng, from, case| Standing::of_model(rng, NOT_RUST, from, case);
    loop {
        let Some(mut random) = random(rng, from, 1, of_model) else {
            continue;
        };
        let n_qubits = random.standing.model.qubits;
        let Places {
            touched,
            held,
            listed,
        } = &mut random.places;
        match case % 7 {
            0 if *touched > 0 => *touched -= 1,
            1 if *held > 0 => *held -= 1,
            2 if *listed > 0 => *listed -= 1,
            3 if n_qubits < MAX_QUBITS && !random.runs.is_empty() => {
                let run = rng.below(random.runs.len());
                random.runs[run].word = action_inputs::outside(rng, n_qubits);
            }
            4 if n_qubits < MAX_QUBITS && !random.protected.is_empty() => {
                let place = rng.below(random.protected.len());
                random.protected[place] = action_inputs::outside(rng, n_qubits);
            }
            5 if !random.runs.is_empty() => {
                let run = rng.below(random.runs.len());
                random.runs[run].coeff = rng.pick(&[f64::NAN, f64::INFINITY]);
            }
            6 => random.limits.max_basis = MAX_WORDS + 1,
            _ => continue,
        }
        let is_refused = random.answer().0.status.refusal != 0;
        if is_refused && random.fits() && random.line().0.len() <= most(LONGEST, from) {
            return random;
        }
    }
}

// ---- tempting cases

/// A model of these Hamiltonian terms.
fn model(rng: &mut Rng, kind: u64, terms: &[(&str, f64)]) -> Standing {
    let item = |(text, x): &(&str, f64)| (text.as_bytes().to_vec(), *x);
    let items = Items {
        n_qubits: terms[0].0.len(),
        hamiltonian: terms.iter().map(item).collect(),
        jumps: Vec::new(),
    };
    Standing::of_items(rng, kind, 0, items).expect("there is room for it")
}

fn run(times: usize, text: &str, coeff: f64) -> Run {
    Run {
        times,
        word: word_of(text.as_bytes()),
        coeff,
    }
}

/// No limit but the largest, and no threshold.
const FREE: Limits = Limits {
    max_basis: MAX_WORDS,
    admit_given: 0,
    admit_basis: 0,
    tau_given: 0,
    tau_add: 0.0,
};

fn limited(max_basis: usize) -> Limits {
    Limits { max_basis, ..FREE }
}

fn above(tau_add: f64) -> Limits {
    Limits {
        tau_given: 1,
        tau_add,
        ..FREE
    }
}

fn words(texts: &[&str]) -> Vec<Word> {
    texts.iter().map(|text| word_of(text.as_bytes())).collect()
}

/// Two terms as large, and two of which one is larger.
const EVEN: [(&str, f64); 2] = [("ZI", 0.5), ("IZ", 0.5)];
const UNEVEN: [(&str, f64); 2] = [("ZI", 0.5), ("IZ", 1.0)];

fn tempting(rng: &mut Rng) -> Vec<Case> {
    let mut list = Vec::new();
    let mut leak = |terms: &[(&str, f64)], runs: &[Run], protected: &[&str], limits: Limits| {
        let standing = model(rng, MODEL, terms);
        let protected = words(protected);
        list.push(Case::new(standing, runs.to_vec(), protected, limits));
    };

    // Sums of 0 are candidates, which a threshold below 0 lists: where terms cancel, and where a coefficient
    // is 0 of either sign.
    let cancelling = [run(1, "XX", 1.0), run(1, "YY", 1.0)];
    leak(&EVEN, &cancelling, &[], above(-1.0));
    leak(&EVEN, &cancelling, &[], FREE);
    leak(&EVEN, &[run(1, "XX", -0.0)], &[], above(-1.0));
    leak(&EVEN, &[run(1, "XX", 0.0)], &[], above(-0.0));

    // Room for none, for one and for both, told in each way.
    let one = [run(1, "XX", 1.0)];
    for limit in [0, 1, 2, 3] {
        leak(&UNEVEN, &one, &[], limited(limit));
    }
    for (max_basis, admit_basis) in [(3, 1), (1, 2), (0, 3)] {
        let limits = Limits {
            max_basis,
            admit_given: 1,
            admit_basis,
            ..FREE
        };
        leak(&UNEVEN, &one, &[], limits);
    }

    // A threshold at and beside the smaller of two, and where there is room for the larger alone.
    for tau_add in [1.0, 1.0f64.next_down(), 2.0] {
        leak(&UNEVEN, &one, &[], above(tau_add));
    }
    leak(
        &UNEVEN,
        &one,
        &[],
        Limits {
            max_basis: 2,
            ..above(1.0)
        },
    );

    // Protected words, and words at two positions.
    leak(&EVEN, &one, &["YX"], FREE);
    leak(&EVEN, &one, &["YX", "XY", "XX"], FREE);
    leak(&EVEN, &one, &["ZZ"], FREE);
    leak(&EVEN, &[run(2, "XX", 1.0), run(1, "YX", 3.0)], &[], FREE);

    // Two passes. What the first one sums is below the threshold, and only what the second one adds to it is
    // not: a threshold before the room rule would drop it.
    let z = [("Z", 0.5)];
    let long = [run(PASS + 1, "X", 1.0)];
    leak(&z, &long, &[], above(PASS as f64));
    leak(&z, &long, &[], above((PASS + 1) as f64));
    leak(&z, &[run(PASS, "X", 1.0)], &[], above(-1.0));
    leak(&z, &[run(PASS + 1, "X", 0.0)], &[], above(-1.0));

    // Room for one: a word that the first pass drops is reached again by the second, from 0; and the same
    // with the positions of the second pass first.
    let first = [run(2049, "XI", 1.0), run(2047, "IX", 1.0)];
    let second = [run(2100, "IX", 0.984375)];
    let ahead = [first[0], first[1], second[0]];
    let behind = [second[0], first[0], first[1]];
    for runs in [ahead, behind] {
        let entries: usize = runs.iter().map(|run| run.times).sum();
        leak(&EVEN, &runs, &[], limited(entries + 1));
        leak(&EVEN, &runs, &[], limited(entries + 2));
        leak(&EVEN, &runs, &["IY"], limited(entries + 1));
    }
    list
}

fn not_of_the_rust(rng: &mut Rng) -> Vec<Case> {
    let mut list = Vec::new();
    let mut leak = |terms: &[(&str, f64)], runs: &[Run], protected: &[&str], limits: Limits| {
        let standing = model(rng, NOT_RUST, terms);
        let protected = words(protected);
        list.push(Case::new(standing, runs.to_vec(), protected, limits));
    };

    // Ties at the cut, also of sums of 0.
    let three = [("ZII", 0.5), ("IZI", 0.5), ("IIZ", 0.5)];
    for limit in [2, 3] {
        leak(&three, &[run(1, "XXX", 1.0)], &[], limited(limit));
        let limits = Limits {
            max_basis: limit,
            ..above(-1.0)
        };
        leak(&three, &[run(1, "XXX", 0.0)], &[], limits);
    }

    // A sum that is not finite: the first candidate, the second, and in the second pass.
    leak(&[("Z", 1.0)], &[run(1, "X", 1.5e308)], &[], FREE);
    leak(&UNEVEN, &[run(1, "XX", 1.5e308)], &[], FREE);
    let long = [run(PASS, "XI", 4e304), run(PASS, "IX", 3.9e304)];
    leak(&EVEN, &long, &[], limited(1 << 14));
    let longer = [run(PASS, "XI", 4e304), run(400, "XI", 3.9e304)];
    leak(&EVEN, &longer, &[], limited(1 << 14));

    // The word of the basis with X63 X68 more, which the Rust takes for the basis word.
    let text = |at: &[(usize, u8)]| {
        let mut letters = [b'I'; 69];
        at.iter()
            .for_each(|&(qubit, letter)| letters[qubit] = letter);
        String::from_utf8(letters.to_vec()).expect("letters")
    };
    let h = text(&[(63, b'X'), (68, b'X')]);
    let from = text(&[(63, b'Z')]);
    leak(&[(&h, 0.5)], &[run(1, &from, 1.0)], &[], FREE);

    // Limits and thresholds outside of their ranges.
    let one = [run(1, "XX", 1.0)];
    leak(&EVEN, &one, &[], limited(MAX_WORDS + 1));
    let admit = Limits {
        admit_given: 1,
        admit_basis: MAX_WORDS + 1,
        ..FREE
    };
    leak(&EVEN, &one, &[], admit);
    leak(&EVEN, &one, &[], above(f64::NAN));
    leak(&EVEN, &one, &[], above(f64::NEG_INFINITY));
    list
}
