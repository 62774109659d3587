//! Asks egui's text again what a transcript has, and stops at the first answer that differs: `replay TRANSCRIPT`.
//!
//! Answers with a number that is not finite do not differ from each other, since the calls refuse them all with 8.

use std::fs::File;
use std::io::{self, BufRead, BufReader, Read};
use std::{env, process};

use egui::{Kind, answer};

/// The words of a frame's answer with which a double begins: the times of both scroll targets.
const DOUBLES: [usize; 4] = [6, 8, 12, 14];

fn main() {
    let Some(path) = env::args().nth(1) else {
        eprintln!("usage: replay TRANSCRIPT");
        process::exit(2)
    };
    let file = File::open(&path).unwrap_or_else(|why| {
        eprintln!("{path}: {why}");
        process::exit(2)
    });
    let mut transcript = BufReader::with_capacity(1 << 20, file);
    let mut answers = 0;
    while let Some(kind) = next_kind(&mut transcript) {
        answers += 1;
        let question = words(&mut transcript, kind.asked());
        let expected = words(&mut transcript, kind.answered());
        let found = answer(kind, &question);
        if let Some(word) = (0..expected.len()).find(|word| found[*word] != expected[*word]) {
            if is_refused(kind, &found) && is_refused(kind, &expected) {
                continue;
            }
            let (found, expected) = (found[word], expected[word]);
            println!("answer {answers}, {kind:?}: word {word} is {found:08x}, not {expected:08x}");
            process::exit(1)
        }
    }
    println!("{answers} answers, all alike");
}

/// Whether a number of the answer is not finite; a flag read as a number is.
fn is_refused(kind: Kind, answer: &[u32]) -> bool {
    let mut words = answer.to_vec();
    match kind {
        Kind::Fresh | Kind::Shown => return false,
        Kind::Drag | Kind::Step | Kind::Wheel => {}
        Kind::Frame => {
            for low in DOUBLES {
                let bits = u64::from(words[low + 1]) << 32 | u64::from(words[low]);
                let is_finite = f64::from_bits(bits).is_finite();
                words[low] = 0;
                words[low + 1] = if is_finite { 0 } else { f32::NAN.to_bits() };
            }
        }
    }
    !words.into_iter().map(f32::from_bits).all(f32::is_finite)
}

/// The kind of the next question; none at the end.
fn next_kind(transcript: &mut impl BufRead) -> Option<Kind> {
    let rest = transcript.fill_buf().unwrap_or_else(|why| fail(why));
    let is_end = rest.is_empty();
    (!is_end).then(|| Kind::ALL[words(transcript, 1)[0] as usize])
}

fn words(transcript: &mut impl Read, count: usize) -> Vec<u32> {
    let mut bytes = vec![0; 4 * count];
    transcript
        .read_exact(&mut bytes)
        .unwrap_or_else(|why| fail(why));
    let words = bytes
        .chunks_exact(4)
        .map(|word| u32::from_le_bytes(word.try_into().expect("four bytes")));
    words.collect()
}

fn fail(why: io::Error) -> ! {
    eprintln!("the transcript: {why}");
    process::exit(2)
}
