// SPDX-FileCopyrightText: 2026 The PPVM Authors
// SPDX-License-Identifier: Apache-2.0

//! Matrices, added to models that were built, and to ones that were damaged after that.
//!
//! Cases are counted by what document 01 answers to them. A difference of the Rust is expected where
//! the document refuses a number, a count or a lent table, where a text is not ASCII, where K has a
//! row too few or rows of several lengths, and where K is near a tolerance, which the Rust compares
//! with a hypot; and only if the Rust answers as the rest of the rules do.

use super::models::{Outcome, by_answer, refused_text, test};
use super::standing::Standing;
use super::{Answers, Tally};
use crate::inputs::Rng;
use crate::inputs::matrices::{self as inputs, Matrix};
use crate::inputs::models::{self as model_inputs, Items};
use crate::port::matrices::{self as port, Given};
use crate::port::models::{Built, Lent, Model, Sizes, matrix_sizes};
use crate::port::{Status, WORD_LANES};
use crate::published::matrices::RustMatrix;
use crate::rules::models::{Complex, MAX_JUMPS, MAX_OPERATORS, MAX_TERMS};
use crate::rules::{matrices as rules, refusal};

pub fn compare(seed: u64, cases: usize) -> Vec<Tally> {
    let rng = &mut Rng::new(seed);
    let mut tallies = Tallies {
        added: by_answer("matrix added"),
        tested: by_answer("matrix tested"),
        enough: Tally::new("matrix sizes"),
    };
    known(rng, &mut tallies);
    large(rng, &mut tallies);
    for _ in 0..cases {
        small(rng, &mut tallies);
    }
    let Tallies {
        added,
        tested,
        enough,
    } = tallies;
    let all = added.into_iter().chain(tested).chain([enough]);
    all.filter(|tally| tally.cases > 0).collect()
}

struct Tallies {
    added: Vec<Tally>,
    tested: Vec<Tally>,
    /// Whether the lengths that the port names are enough.
    enough: Tally,
}

/// What the Rust is known to answer, and how many pairs it makes: the rules without ranges, limits
/// and tables, with characters for bytes, with a K of rows, and with a hypot for each square.
fn unlimited(matrix: &Matrix, n_qubits: usize) -> (Status, usize) {
    let Matrix { operators, k } = matrix;
    let count = operators.len();
    if !matrix.is_square() {
        let entries = k.iter().flatten().count();
        return (refusal(9, count * count, entries), 0);
    }
    let fails = |&(n, m): &(usize, usize)| {
        let Test {
            magnitude,
            tolerance,
        } = hermitian_test(k, n, m);
        magnitude > tolerance
    };
    if let Some((n, m)) = places(count).find(fails) {
        return (refusal(10, n, m), 0);
    }
    for (index, terms) in operators.iter().enumerate() {
        if terms.is_empty() {
            return (refusal(6, index, 0), 0);
        }
        if let Some(status) = terms.iter().find_map(|(t, _)| refused_text(t, n_qubits)) {
            return (status, 0);
        }
    }
    let skipped = |&(n, m): &(usize, usize)| {
        let Test {
            magnitude,
            tolerance,
        } = skip_test(k, n, m);
        magnitude <= tolerance
    };
    let skipped = places(count).filter(skipped).count();
    (Status::default(), places(count).count() - skipped)
}

/// The places of K in row order, not below the diagonal.
fn places(count: usize) -> impl Iterator<Item = (usize, usize)> {
    (0..count).flat_map(move |n| (n..count).map(move |m| (n, m)))
}

/// A magnitude and the tolerance that it is compared with. A NaN passes both tests.
struct Test {
    magnitude: f64,
    tolerance: f64,
}

impl Test {
    /// Whether rounding may decide.
    fn is_near(&self) -> bool {
        (self.magnitude - self.tolerance).abs() < 1e-14 * self.tolerance
    }
}

fn largest(k: &[Vec<Complex>]) -> f64 {
    let magnitudes = k.iter().flatten().map(|&(re, im)| re.hypot(im));
    magnitudes.fold(0.0, f64::max)
}

fn hermitian_test(k: &[Vec<Complex>], n: usize, m: usize) -> Test {
    let (re, im) = (k[n][m].0 - k[m][n].0, k[n][m].1 + k[m][n].1);
    Test {
        magnitude: re.hypot(im),
        tolerance: 1e-10 * largest(k).max(1.0),
    }
}

fn skip_test(k: &[Vec<Complex>], n: usize, m: usize) -> Test {
    Test {
        magnitude: k[n][m].0.hypot(k[n][m].1),
        tolerance: 1e-14 * largest(k),
    }
}

/// Whether the Rust was asked and may differ so.
fn listed(matrix: &Matrix, standing: &Standing, rules: &Outcome, rust: &Outcome) -> bool {
    let n_qubits = standing.model.qubits;
    let (status, pairs) = unlimited(matrix, n_qubits);
    let jumps = match status.refusal {
        0 => standing.model.jumps + pairs,
        _ => 0,
    };
    if (rust.built.status, rust.built.model.jumps) != (status, jumps) {
        return false;
    }
    let refused = [7, 8, 9, 13].contains(&rules.built.status.refusal);
    let mut texts = matrix.operators.iter().flatten().map(|(text, _)| text);
    let near = || {
        let near = |(n, m)| {
            let k = &matrix.k;
            hermitian_test(k, n, m).is_near() || skip_test(k, n, m).is_near()
        };
        places(matrix.operators.len()).any(near)
    };
    refused || !texts.all(|text| text.is_ascii()) || !matrix.is_square() || near()
}

/// The Rust's answer, with what it does not tell taken from the rules: the tables, and how many
/// terms were compiled. Its pairs are counted on from the entries before, which may be others where
/// it skipped an entry of an earlier matrix.
fn ask_rust(matrix: &Matrix, standing: &Standing, rules: &Outcome) -> Option<Outcome> {
    let mut model = standing.rust()?;
    let before = model.num_jump_terms();
    let asked = RustMatrix::new(matrix)?;
    let added = asked.add(&mut model);
    let status = asked.status(&added, standing.model.qubits);
    let model = match added {
        Ok(()) => Model {
            qubits: model.n_qubits(),
            hamiltonian: model.num_h_terms(),
            jumps: standing.model.jumps + (model.num_jump_terms() - before),
            terms: rules.built.model.terms,
        },
        Err(_) => Model::default(),
    };
    Some(Outcome {
        built: Built { status, model },
        lent: rules.lent.clone(),
    })
}

/// Both sides add a matrix. `given` is the matrix in flat slices, or no matrix where `sound` is
/// false, so that the Rust cannot be asked.
fn add(
    tallies: &mut Tallies,
    standing: &Standing,
    matrix: &Matrix,
    given: &Given,
    sound: bool,
) -> Outcome {
    let answer = |add: fn(Model, &Given, &mut Lent) -> Built| {
        let mut lent = standing.lent.clone();
        Outcome {
            built: add(standing.model, given, &mut lent),
            lent,
        }
    };
    let rules = answer(rules::add_kossakowski);
    let port = answer(port::add_kossakowski);
    let rust = match sound {
        true => ask_rust(matrix, standing, &rules),
        false => None,
    };
    let Built { status, model } = rules.built;
    if status.refusal == 0 {
        // What was added to passes the test.
        test(&mut tallies.tested, model, &port.lent, matrix.size());
    }
    let after = Outcome {
        built: port.built,
        lent: port.lent.clone(),
    };
    let answers = Answers {
        listed: rust
            .as_ref()
            .is_some_and(|rust| listed(matrix, standing, &rules, rust)),
        rust,
        port,
        rules,
    };
    let input = || {
        let Standing { model, lent, .. } = standing;
        let lent = [lent.jumps.len() / 8, lent.t_words.len() / WORD_LANES];
        format!("{matrix:?} to {model:?}, places {lent:?}, given {given:?}")
    };
    let size = matrix.size() + model.jumps;
    tallies.added[status.refusal as usize].count(size, input, answers);
    after
}

/// Adds a matrix in tables of the lengths that the port names.
fn add_sized(
    rng: &mut Rng,
    tallies: &mut Tallies,
    standing: &Standing,
    matrix: &Matrix,
) -> (Standing, Outcome) {
    let sizes = matrix_sizes(matrix.operators.len(), matrix.longest());
    let lent = standing.with_room(rng, inputs::enough(standing.model, sizes));
    let outcome = add(tallies, &lent, matrix, &matrix.flat(), true);
    if matrix.is_square() {
        let answers = Answers {
            rust: None,
            port: [9, 13].contains(&outcome.built.status.refusal),
            rules: false,
            listed: false,
        };
        let input = || format!("{matrix:?} in {sizes:?}");
        tallies.enough.count(matrix.size(), input, answers);
    }
    (lent, outcome)
}

/// A small matrix, sound or not, added to a model, some of which have one already, in tables that are
/// long enough or not; then, where it was added, the same in a terms table with just enough places
/// and with one too few, and in a table of entries or rates that is a place too short; and added to
/// the model after this was damaged.
fn small(rng: &mut Rng, tallies: &mut Tallies) {
    let items = model_inputs::sound(rng);
    let n_qubits = items.n_qubits;
    let mut standing = Standing::built(rng, items);
    if rng.one_in(3) {
        let matrix = inputs::sound(rng, n_qubits);
        let (_, outcome) = add_sized(rng, tallies, &standing, &matrix);
        standing.model = outcome.built.model;
        standing.lent = outcome.lent;
        let made_of = standing.made_of.as_mut().expect("it was just built");
        made_of.1.push(matrix);
    }

    let mut matrix = inputs::sound(rng, n_qubits);
    if rng.one_in(2) {
        for _ in 0..=rng.below(2) {
            inputs::spoil(rng, n_qubits, &mut matrix);
        }
    }
    let (enough, outcome) = add_sized(rng, tallies, &standing, &matrix);

    let mut given = matrix.flat();
    let sound = !rng.one_in(4);
    if !sound {
        inputs::spoil_lengths(rng, &mut given);
    }
    let mut sizes = enough.lent.sizes();
    model_inputs::other_length(rng, &mut sizes);
    let other = enough.with_room(rng, sizes);
    add(tallies, &other, &matrix, &given, sound);

    if outcome.built.status.refusal == 0 {
        let terms = outcome.built.model.terms;
        for terms in [Some(terms), terms.checked_sub(1)].into_iter().flatten() {
            let sizes = Sizes {
                t_words: WORD_LANES * terms,
                t_numbers: 2 * terms,
                ..enough.lent.sizes()
            };
            let exact = enough.with_room(rng, sizes);
            add(tallies, &exact, &matrix, &matrix.flat(), true);
        }
    }

    let mut damaged = enough.with_room(rng, enough.lent.sizes());
    damaged.made_of = None;
    for _ in 0..=rng.below(2) {
        model_inputs::spoil_model(rng, &mut damaged.model, &mut damaged.lent);
    }
    add(tallies, &damaged, &matrix, &matrix.flat(), false);
}

/// Matrices of document 01, and the smallest ones whose squares and hypots decide differently, with
/// the document's answer: the refusal, or how many pairs and terms there are.
fn known(rng: &mut Rng, tallies: &mut Tallies) {
    let empty = Items {
        n_qubits: 2,
        hamiltonian: Vec::new(),
        jumps: Vec::new(),
    };
    let standing = Standing::built(rng, empty);
    let operator = |text: &[u8], number: Complex| vec![(text.to_vec(), number)];
    let two = || vec![operator(b"XI", (1.0, 0.0)), operator(b"IX", (1.0, 0.0))];
    let rows = |k: [[Complex; 2]; 2]| k.map(Vec::from).into();
    let mut add = |operators, k, refusal: Status, pairs, terms| {
        let matrix = Matrix { operators, k };
        let built = add_sized(rng, tallies, &standing, &matrix).1.built;
        let Built { status, model } = built;
        assert_eq!((status, model.jumps, model.terms), (refusal, pairs, terms));
    };
    let accepted = Status::default();

    // P9.
    let k = rows([[(1.0, 0.0), (0.0, 1.0)], [(0.0, -1.0), (1.0, 0.0)]]);
    add(two(), k, accepted, 3, 8);

    // No operators, and a row without entries, or rows of two lengths: flat, they are a K.
    add(Vec::new(), vec![Vec::new()], accepted, 0, 0);
    let one = (1.0, 0.0);
    let ragged = vec![vec![one], vec![(0.0, 1.0), (0.0, -1.0), one]];
    add(two(), ragged, accepted, 3, 8);

    // Hermitian: refused, where the Rust accepts, and the other way round.
    let x = || vec![operator(b"XI", one)];
    let k = vec![vec![(11.0, 5.500000000000001e-10)]];
    add(x(), k, refusal(10, 0, 0), 0, 0);
    let eleven = (11.0, 0.0);
    let k = rows([[eleven, (0.0, 1.1000000000000001e-9)], [(0.0, 0.0), eleven]]);
    add(two(), k, refusal(10, 0, 1), 0, 0);
    let zero = (0.0, 0.0);
    let k = rows([[(9.0, 0.0), (5.4e-10, 7.200000000000001e-10)], [zero, zero]]);
    add(two(), k, accepted, 2, 6);

    // The skip rule: a pair, where the Rust skips, and the other way round.
    let k = rows([[one, (6e-15, 8e-15)], [(6e-15, -8e-15), zero]]);
    add(two(), k, accepted, 2, 6);
    let k = rows([[(7.0, 0.0), (7e-14, 0.0)], [(7e-14, 0.0), zero]]);
    add(two(), k, accepted, 2, 6);
    let edge = (5.400000000000001e-14, 7.2e-14);
    let k = rows([[(9.0, 0.0), edge], [(edge.0, -edge.1), zero]]);
    add(two(), k, accepted, 1, 4);

    // Thinning: a word that stays, where the Rust drops it.
    let thin = vec![operator(b"XI", one), operator(b"IX", (6e-15, 8e-15))];
    let k = rows([[zero, (2.0, 0.0)], [(2.0, 0.0), zero]]);
    add(thin, k, accepted, 1, 4);
}

/// Matrices at the limits of counts: one more is refused.
fn large(rng: &mut Rng, tallies: &mut Tallies) {
    let jumps = |count: usize| Items {
        n_qubits: 2,
        hamiltonian: Vec::new(),
        jumps: vec![(1.0, vec![(b"ZX".to_vec(), (1.0, 0.0))]); count],
    };
    let standing = Standing::built(rng, jumps(1));
    for operators in [0, 1, MAX_OPERATORS, MAX_OPERATORS + 1] {
        for terms in [1, 2] {
            let matrix = inputs::full(rng, 2, false, operators, terms);
            add_sized(rng, tallies, &standing, &matrix);
        }
    }
    for terms in [MAX_TERMS, MAX_TERMS + 1] {
        let matrix = inputs::full(rng, 2, false, 3, terms);
        add_sized(rng, tallies, &standing, &matrix);
    }
    let most = inputs::full(rng, 2, false, MAX_OPERATORS, MAX_TERMS);
    add_sized(rng, tallies, &standing, &most);

    // Three pairs, or two where an entry is skipped, beside as many jumps as there may be.
    for before in MAX_JUMPS - 4..=MAX_JUMPS {
        let standing = Standing::built(rng, jumps(before));
        for skipped in [false, true] {
            let mut matrix = inputs::full(rng, 2, false, 2, 1);
            if skipped {
                matrix.k[1][1] = (0.0, 0.0);
            }
            add_sized(rng, tallies, &standing, &matrix);
            // Room for no more than there may be.
            let sizes = matrix_sizes(2, 1);
            for places in [MAX_JUMPS, MAX_JUMPS - 1] {
                let sizes = Sizes {
                    jumps: 8 * places,
                    rates: places,
                    ..inputs::enough(standing.model, sizes)
                };
                let full = standing.with_room(rng, sizes);
                add(tallies, &full, &matrix, &matrix.flat(), true);
            }
        }
    }
}
