//! What is asked for on the command line.

use std::{env, process};

pub struct Wanted {
    /// Where what egui's text is asked and answers is written.
    pub transcript: Option<String>,
    pub seed: u64,
    pub frames: u64,
    pub states: u64,
    pub calls: u64,
    pub under: u64,
    pub runs: u64,
    pub drawers: u64,
}

impl Wanted {
    /// Ends the program where it is not understood.
    pub fn of_command_line() -> Wanted {
        let words: Vec<String> = env::args().skip(1).collect();
        let (transcript, numbers) = match &words[..] {
            [option, path, numbers @ ..] if option == "--transcript" => {
                (Some(path.clone()), numbers)
            }
            numbers => (None, numbers),
        };
        let numbers: Option<Vec<u64>> = numbers.iter().map(|word| word.parse().ok()).collect();
        let Some([seed, frames, states, calls, under, runs, drawers]) = numbers.as_deref() else {
            eprintln!(
                "usage: compare [--transcript FILE] SEED FRAMES STATES CALLS UNDER RUNS DRAWERS"
            );
            process::exit(2)
        };
        Wanted {
            transcript,
            seed: *seed,
            frames: *frames,
            states: *states,
            calls: *calls,
            under: *under,
            runs: *runs,
            drawers: *drawers,
        }
    }
}
