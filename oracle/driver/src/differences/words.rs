// SPDX-FileCopyrightText: 2026 The PPVM Authors
// SPDX-License-Identifier: Apache-2.0

//! Texts.

use super::{CANNOT, Case, error, refused};
use crate::{port, published};

pub fn cases() -> Vec<Case> {
    vec![
        Case {
            place: "non-ASCII text",
            input: "U+0080 (bytes 194, 128) at n 0",
            expected: ["3 (194, 0)", "wrong length (0, 1)"],
            found: read(&[194, 128], 0),
        },
        Case {
            place: "non-ASCII text",
            input: "\"é\" (bytes 195, 169) at n 1",
            expected: ["3 (195, 0)", "refused character 233"],
            found: read(&[195, 169], 1),
        },
        Case {
            place: "text that is not UTF-8",
            input: "byte 255 at n 1",
            expected: ["3 (255, 0)", CANNOT],
            found: read(&[255], 1),
        },
    ]
}

fn read(text: &[u8], n_qubits: usize) -> [String; 2] {
    let port = port::parse_pauli_string(text, n_qubits).status;
    let rust = match std::str::from_utf8(text) {
        Ok(text) => error(published::parse_pauli_string(text, n_qubits).status),
        Err(_) => CANNOT.into(),
    };
    [refused(port), rust]
}
