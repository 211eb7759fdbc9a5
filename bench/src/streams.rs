//! Standard input and output, whole.

use std::io::{self, Read, Write};

pub fn input() -> Vec<u8> {
    let mut bytes = Vec::new();
    io::stdin()
        .read_to_end(&mut bytes)
        .expect("input that can be read");
    bytes
}

pub fn output(bytes: &[u8]) {
    io::stdout()
        .write_all(bytes)
        .expect("output that can be written");
}
