//! What egui's text was asked and what it answered, for `replay` to ask again.

use std::cell::RefCell;
use std::fs::File;
use std::io::{BufWriter, Result, Write};

use egui::Kind;

use crate::tables;
use crate::words::in_bytes;

thread_local! {
    static FILE: RefCell<Option<BufWriter<File>>> = const { RefCell::new(None) };
}

/// Writes, from here on, what is asked in this thread.
pub fn begin(path: &str) -> Result<()> {
    let file = File::create(path)?;
    FILE.set(Some(BufWriter::with_capacity(1 << 20, file)));
    Ok(())
}

/// Writes what is left to be written; the end of a program does not.
pub fn end() -> Result<()> {
    FILE.with_borrow_mut(|file| file.as_mut().map_or(Ok(()), Write::flush))
}

/// The kind's number, the question and the answer; not under a table that is given, which a transcript does not hold.
pub(super) fn add(kind: Kind, question: &[u32], answer: &[u32]) {
    FILE.with_borrow_mut(|file| {
        let Some(file) = file else {
            return;
        };
        if tables::given().is_none() {
            let words = [&[kind as u32], question, answer].concat();
            file.write_all(&in_bytes(&words))
                .expect("the transcript is written");
        }
    });
}
