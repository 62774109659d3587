//! The arguments that every generator takes.

use std::{env, fs, process};

use crate::answers::{tally, Answer};

/// Two files to write, and the seed and count of a random list.
struct Request {
    input: String,
    output: String,
    random: Option<(u64, usize)>,
}

impl Request {
    /// Reads the program's arguments; other ones than a request end the program.
    fn read(program: &str) -> Request {
        let arguments: Vec<String> = env::args().skip(1).collect();
        Request::parse(&arguments).unwrap_or_else(|| {
            eprintln!("usage: {program} INPUT OUTPUT [SEED COUNT]");
            process::exit(2)
        })
    }

    fn parse(arguments: &[String]) -> Option<Request> {
        let (input, output, random) = match arguments {
            [input, output] => (input, output, None),
            [input, output, seed, count] => {
                let random = (seed.parse().ok()?, count.parse().ok()?);
                (input, output, Some(random))
            }
            _ => return None,
        };
        let (input, output) = (input.clone(), output.clone());
        Some(Request {
            input,
            output,
            random,
        })
    }

    /// The list that is asked for.
    fn list<C>(&self, fixed: fn() -> Vec<C>, random: fn(u64, usize) -> Vec<C>) -> Vec<C> {
        match self.random {
            None => fixed(),
            Some((seed, count)) => random(seed, count),
        }
    }

    /// Writes both files.
    fn write<C>(&self, list: &[C], record: fn(&C) -> Vec<u8>, lines: String) {
        let records: Vec<u8> = list.iter().flat_map(record).collect();
        fs::write(&self.input, records).expect("the input is written");
        fs::write(&self.output, lines).expect("the output is written");
    }
}

/// Writes the list that the arguments ask for, and hands it back.
pub fn write_list<C>(
    program: &str,
    fixed: fn() -> Vec<C>,
    random: fn(u64, usize) -> Vec<C>,
    record: fn(&C) -> Vec<u8>,
    line: fn(&C) -> String,
) -> Vec<C> {
    let request = Request::read(program);
    let list = request.list(fixed, random);
    request.write(&list, record, list.iter().map(line).collect());
    list
}

/// The same where an answer may depend on the records before it; counts the refusals by the records' names.
pub fn write_answers<C>(
    program: &str,
    fixed: fn() -> Vec<C>,
    random: fn(u64, usize) -> Vec<C>,
    record: fn(&C) -> Vec<u8>,
    name: fn(&C) -> &'static str,
    answers: fn(&[C]) -> Vec<Answer>,
) {
    let request = Request::read(program);
    let list = request.list(fixed, random);
    let answers = answers(&list);
    let lines = answers.iter().map(|answer| &answer.line[..]);
    request.write(&list, record, lines.collect());
    let refusals = answers.iter().map(|answer| answer.refusal);
    eprint!("{}", tally(list.iter().map(name).zip(refusals)));
}
