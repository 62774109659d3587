//! Marks for the feature `marked`: at every block, at every arm of a match, and at every condition of an `if` and every operand of `&&` and
//! `||`; of a `let` among these at what is looked into, which is an option in all of them.

use crate::tokens::{Token, tokens};

/// A text, its tokens, and of each bracket the one that it belongs to.
struct Text<'a> {
    tokens: Vec<Token<'a>>,
    partners: Vec<usize>,
    source: &'a str,
}

/// Marks that are to be put in, and the places that they count.
struct Marks<'a> {
    file: &'a str,
    inserted: Vec<(usize, String)>,
    sites: &'a mut Vec<String>,
}

/// The text with marks in the functions that begin so, or in all of it; the places are put behind those given.
pub fn marked(source: &str, file: &str, functions: &[&str], sites: &mut Vec<String>) -> String {
    let text = Text::of(source);
    let mut marks = Marks {
        file,
        inserted: Vec::new(),
        sites,
    };
    for (from, to) in text.ranges(functions) {
        text.mark_conditions(from, to, &mut marks);
        text.mark_blocks_and_arms(from, to, &mut marks);
    }
    marks.put_into(source)
}

impl Marks<'_> {
    /// A new place, by its line, its kind and its words.
    fn site(&mut self, line: usize, kind: &str, words: &str) -> usize {
        let words = words.split_whitespace().collect::<Vec<_>>().join(" ");
        self.sites
            .push(format!("{}:{line} {kind} {words}", self.file));
        self.sites.len() - 1
    }

    fn put_into(mut self, source: &str) -> String {
        self.inserted.sort_by_key(|(place, _)| *place);
        let mut text = String::new();
        let mut done = 0;
        for (place, mark) in self.inserted {
            text += &source[done..place];
            text += &mark;
            done = place;
        }
        text + &source[done..]
    }
}

impl<'a> Text<'a> {
    fn of(source: &'a str) -> Text<'a> {
        let tokens = tokens(source);
        let mut partners = vec![0; tokens.len()];
        let mut open = Vec::new();
        for (place, token) in tokens.iter().enumerate() {
            if token.opens() {
                open.push(place);
            } else if token.closes() {
                let partner: usize = open.pop().expect("brackets come in pairs");
                (partners[partner], partners[place]) = (place, partner);
            }
        }
        Text {
            tokens,
            partners,
            source,
        }
    }

    /// The token behind this one, or behind what it opens.
    fn behind(&self, place: usize) -> usize {
        match self.tokens[place].opens() {
            true => self.partners[place] + 1,
            false => place + 1,
        }
    }

    /// The first token from here on, not inside of brackets, of which that holds.
    fn next(&self, mut place: usize, is_it: impl Fn(&Token) -> bool) -> usize {
        while !is_it(&self.tokens[place]) {
            place = self.behind(place);
        }
        place
    }

    /// The brace behind the head of an `if`, a `match`, a `for` or a function.
    fn body(&self, place: usize) -> usize {
        self.next(place, |token| token.is(&["{"]))
    }

    fn ranges(&self, functions: &[&str]) -> Vec<(usize, usize)> {
        if functions.is_empty() {
            return vec![(0, self.tokens.len())];
        }
        let range = |function: &&str| {
            let start = self.source.find(function).expect("the function is there");
            let first = self.tokens.iter().position(|token| token.start >= start);
            let first = first.expect("a function has tokens");
            (first, self.partners[self.body(first)])
        };
        functions.iter().map(range).collect()
    }

    fn mark_conditions(&self, from: usize, to: usize, marks: &mut Marks) {
        for place in from..to {
            let token = &self.tokens[place];
            if token.is(&["if"]) {
                let body = self.body(place + 1);
                let is_operator = |token: &Token| token.is(&["&&", "||", "{"]);
                // Where there are operators, their operands are marked.
                if self.next(place + 1, is_operator) == body {
                    self.mark_operand(place + 1, body, marks);
                }
            } else if token.is(&["&&", "||"]) && self.is_behind_operand(place) {
                self.mark_operand(self.operand_before(place), place, marks);
                let after = self.operand_after(place);
                // An operand between two operators is marked as the one before the second.
                if !self.tokens[after].is(&["&&", "||"]) {
                    self.mark_operand(place + 1, after, marks);
                }
            }
        }
    }

    /// Not the `||` of a closure.
    fn is_behind_operand(&self, place: usize) -> bool {
        let before = &self.tokens[place - 1];
        before.closes() || before.is_word()
    }

    fn operand_before(&self, operator: usize) -> usize {
        let mut first = operator;
        loop {
            let before = &self.tokens[first - 1];
            if before.is(&[")", "]"]) {
                first = self.partners[first - 1];
            } else if before.opens() || before.closes() || before.is(&ENDS) {
                return first;
            } else {
                first -= 1;
            }
        }
    }

    fn operand_after(&self, operator: usize) -> usize {
        let is_let = self.tokens[operator + 1].is(&["let"]);
        self.next(operator + 1, |token| {
            let ends = token.closes() || token.is(&["{"]) || token.is(&ENDS);
            // The sign between the pattern and what is looked into is inside of the operand.
            ends && !(is_let && token.is(&["="]))
        })
    }

    /// One that is a test or, behind a `let` and its pattern, an option.
    fn mark_operand(&self, from: usize, to: usize, marks: &mut Marks) {
        let (first, last) = (&self.tokens[from], &self.tokens[to - 1]);
        let (counter, start) = match first.is(&["let"]) {
            true => ("is_some", self.next(from, |token| token.is(&["="])) + 1),
            false => ("cond", from),
        };
        let words = &self.source[first.start..last.end()];
        let site = marks.site(first.line, "condition", words);
        let call = format!("crate::marks::{counter}({site}, ");
        marks.inserted.push((self.tokens[start].start, call));
        marks.inserted.push((last.end(), ")".to_owned()));
    }

    fn mark_blocks_and_arms(&self, from: usize, to: usize, marks: &mut Marks) {
        let heads = (from..to).filter(|place| self.tokens[*place].is(&["match"]));
        let matches: Vec<usize> = heads.map(|place| self.body(place + 1)).collect();
        for place in from..to {
            let token = &self.tokens[place];
            if token.is(&["{"]) && !matches.contains(&place) && !self.is_of_struct(place) {
                let site = marks.site(token.line, "block", "");
                marks
                    .inserted
                    .push((token.end(), format!(" crate::marks::hit({site});")));
            } else if token.is(&["=>"]) && !self.tokens[place + 1].is(&["{"]) {
                let last = self.next(place + 1, |token| token.closes() || token.is(&[","])) - 1;
                let site = marks.site(token.line, "arm", "");
                marks
                    .inserted
                    .push((token.end(), format!(" {{ crate::marks::hit({site});")));
                marks
                    .inserted
                    .push((self.tokens[last].end(), " }".to_owned()));
            }
        }
    }

    /// Whether the brace is of a struct, an implementation or an import, and not of a function that answers one.
    fn is_of_struct(&self, brace: usize) -> bool {
        let before = &self.tokens[brace - 1];
        let is_type = before
            .text
            .starts_with(|first: char| first.is_ascii_uppercase());
        before.is(&["::"]) || is_type && !self.tokens[brace - 2].is(&["->"])
    }
}

/// What ends an operand.
const ENDS: [&str; 11] = [
    ",", ";", "=", "&&", "||", ":", "=>", "if", "return", "else", "|",
];
