"""Tokens of a Rust file that rustfmt wrote, and what an edit needs of its structure: brackets, blocks, operands, statements, arms."""
import re

TOKEN = re.compile(
    r"""(?P<skip>\s+|//[^\n]*|[^\x00-\x7f]+)
      | "(?:\\.|[^"\\])*" | '\w+\b(?!')
      | \d[\d_]*(?:\.\d[\d_]*)?(?:_?f32|_?f64)?
      | [A-Za-z_]\w*
      | \.\.= | && | \|\| | => | -> | == | != | <= | >= | :: | \+= | -= | \*= | \|= | \.\. | .""",
    re.X | re.S,
)
PRECEDENCE = {"*": 7, "/": 7, "+": 6, "-": 6, "<": 3, "<=": 3, ">": 3, ">=": 3, "==": 3, "!=": 3, "&&": 2, "||": 1}
CLOSERS = {"(": ")", "[": "]", "{": "}"}
# where an operand ends, whatever its operator is
STOPS = {",", ";", "=", "+=", "-=", "*=", "=>", "return", "if", "else", "in", "match", "let", "|", "..", "..=", ":", "{", "}", "->"}
WORD = re.compile(r"\w")


class Token:
    def __init__(self, text, at, line, column):
        self.text, self.at, self.end, self.line, self.column = text, at, at + len(text), line, column


class Text:
    """A file, read as bytes, so that places are byte offsets."""

    def __init__(self, name, source):
        self.name, self.source = name, source
        self.tokens = list(tokens_of(source))
        self.pair = pairs_of(self.tokens)

    def word(self, i):
        return self.tokens[i].text if 0 <= i < len(self.tokens) else ""

    def span(self, first, last):
        """The text from one token to another, both included."""
        return self.source[self.tokens[first].at : self.tokens[last].end]

    def is_spaced(self, i):
        """rustfmt puts spaces around binary operators, and none behind unary ones and around generics."""
        return self.source[self.tokens[i].at - 1].isspace() and self.source[self.tokens[i].end].isspace()

    def binary(self, i):
        """The operator's precedence, or None where the token is none with two operands."""
        return PRECEDENCE.get(self.word(i)) if self.is_spaced(i) else None

    def left_operand(self, i):
        """The first token of the operand that ends before the operator i."""
        strength, first = self.binary(i), i
        while True:
            before = first - 1
            if self.word(before) in (")", "]"):
                first = self.pair[before]
            elif self.word(before) in STOPS or self.word(before) in CLOSERS:
                return first
            elif self.binary(before) is not None and self.binary(before) < strength:
                return first
            else:
                first = before

    def right_operand(self, i):
        """The last token of the operand that begins behind the operator i."""
        strength, last = self.binary(i), i
        while True:
            after = last + 1
            if self.word(after) in ("(", "["):
                last = self.pair[after]
            elif self.word(after) in STOPS or self.word(after) in CLOSERS.values():
                return last
            elif self.binary(after) is not None and self.binary(after) <= strength:
                return last
            else:
                last = after

    def receiver(self, dot):
        """The first token of what a method is called on; None where that is a block."""
        first = dot
        while True:
            before = first - 1
            if self.word(before) == "}":
                return None
            if self.word(before) in (")", "]"):
                first = self.pair[before]
            elif self.word(before) in (".", "::") or (WORD.match(self.word(before)) and self.word(before) not in STOPS):
                # two words beside each other belong to two things
                if WORD.match(self.word(before)) and WORD.match(self.word(first)):
                    return first
                first = before
            else:
                return first

    def head_end(self, i):
        """The brace that ends the head of an if, a match or a for."""
        while self.word(i) != "{":
            i = self.pair[i] + 1 if self.word(i) in CLOSERS else i + 1
        return i

    def arguments(self, opening):
        """(first, last) of each part between a bracket's commas."""
        parts, first, i = [], opening + 1, opening + 1
        while i <= self.pair[opening]:
            if i == self.pair[opening] or self.word(i) == ",":
                if first < i:
                    parts.append((first, i - 1))
                first = i + 1
            i = self.pair[i] + 1 if self.word(i) in CLOSERS else i + 1
        return parts

    def is_block(self, i):
        """Whether the brace opens statements: not a struct's fields, a match's arms, an import's names."""
        before = self.word(i - 1)
        if self.word(i) != "{" or before == "::":
            return False
        if before[:1].isupper():
            return self.word(i - 2) == "->"
        return not self.is_match(i)

    def is_match(self, i):
        """Whether the brace opens a match's arms."""
        k = i - 1
        while self.word(k) not in (";", "{", "}", "match", "if", "for", "else"):
            k = self.pair[k] - 1 if self.word(k) in (")", "]") else k - 1
        return self.word(i) == "{" and self.word(k) == "match"

    def statements(self, opening):
        """(first, last) of each statement of a block; the last one may be its value."""
        first, end = opening + 1, self.pair[opening]
        while first < end:
            last = self.statement_end(first, end)
            yield first, last
            first = last + 1

    def statement_end(self, first, end):
        i = first
        while i < end:
            if self.word(i) == ";":
                return i
            if self.word(i) in CLOSERS:
                i = self.pair[i]
                # a block ends a statement that began as one, unless something follows that belongs to it
                starts_block = self.word(first) in ("if", "for", "match", "{")
                if self.word(i) == "}" and starts_block and self.word(i + 1) not in ("else", "."):
                    return i
            i += 1
        return end - 1

    def arms(self, opening):
        """(first, last) of the result of each arm of a match."""
        i, results = opening + 1, []
        while i < self.pair[opening]:
            if self.word(i) == "=>":
                last = i + 1
                while self.word(last) != "," and last < self.pair[opening]:
                    last = self.pair[last] + 1 if self.word(last) in CLOSERS else last + 1
                results.append((i + 1, last - 1))
                i = last
            else:
                i = self.pair[i] + 1 if self.word(i) in CLOSERS else i + 1
        return results


def tokens_of(source):
    line, line_start = 1, 0
    for found in TOKEN.finditer(source):
        if found.lastgroup != "skip":
            yield Token(found.group(), found.start(), line, found.start() - line_start + 1)
        breaks = found.group().count("\n")
        if breaks:
            line += breaks
            line_start = found.start() + found.group().rindex("\n") + 1


def pairs_of(tokens):
    """Each bracket's other one."""
    pair, opened = {}, []
    for i, token in enumerate(tokens):
        if token.text in CLOSERS:
            opened.append(i)
        elif token.text in CLOSERS.values():
            pair[i] = opened.pop()
            pair[pair[i]] = i
    return pair
