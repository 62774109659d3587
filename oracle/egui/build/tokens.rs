//! Rust's tokens, as far as marks need them.

pub struct Token<'a> {
    pub text: &'a str,
    pub start: usize,
    pub line: usize,
}

impl Token<'_> {
    pub fn end(&self) -> usize {
        self.start + self.text.len()
    }

    pub fn is(&self, texts: &[&str]) -> bool {
        texts.contains(&self.text)
    }

    pub fn opens(&self) -> bool {
        self.is(&["(", "[", "{"])
    }

    pub fn closes(&self) -> bool {
        self.is(&[")", "]", "}"])
    }

    pub fn is_word(&self) -> bool {
        self.text.starts_with(is_of_word)
    }
}

/// Tokens of more than one character that are no words.
const LONG: [&str; 15] = [
    "..=", "&&", "||", "=>", "->", "==", "!=", "<=", ">=", "::", "+=", "-=", "*=", "..", "|=",
];

fn is_of_word(character: char) -> bool {
    character.is_ascii_alphanumeric() || character == '_'
}

/// The tokens of a text that has no character literals and no raw strings with quotes in them.
pub fn tokens(text: &str) -> Vec<Token<'_>> {
    let mut tokens = Vec::new();
    let (mut start, mut line) = (0, 1);
    while let Some(first) = text[start..].chars().next() {
        let length = length_of_next(&text[start..], first);
        let skipped = first.is_whitespace() || text[start..].starts_with("//");
        if !skipped {
            let text = &text[start..start + length];
            tokens.push(Token { text, start, line });
        }
        line += text[start..start + length].matches('\n').count();
        start += length;
    }
    tokens
}

/// How long a comment, a space or a token is.
fn length_of_next(rest: &str, first: char) -> usize {
    if rest.starts_with("//") {
        rest.find('\n').unwrap_or(rest.len())
    } else if first == '"' {
        let closing = rest[1..].find('"').expect("a string is closed");
        closing + 2
    } else if is_of_word(first) {
        rest.find(|character| !is_of_word(character))
            .unwrap_or(rest.len())
    } else {
        let long = LONG.iter().find(|long| rest.starts_with(**long));
        long.map_or(first.len_utf8(), |long| long.len())
    }
}
