"""One edit, and all of them."""
import re

import places
from kinds import KINDS
from rust_text import tokens_of


class Edit:
    """`old`, which stands at the byte `at` of a file, becomes `new`."""

    def __init__(self, text, kind, first, last, new):
        start = text.tokens[first]
        self.kind, self.file, self.line, self.column, self.at = kind, text.name, start.line, start.column, start.at
        self.old, self.new = text.span(first, last), new
        # some tokens around it, so that a reader sees what is edited
        self.before = text.source[text.tokens[reach(text, first, -1)].at : start.at]
        self.after = text.source[text.tokens[last].end : text.tokens[reach(text, last, 1)].end]

    def place(self):
        return f"{self.file}:{self.line}:{self.column}"

    def key(self):
        return self.place(), *self.shown()

    def shown(self):
        """What differs, with two tokens around it, short enough to be quoted."""
        texts = [self.before + part + self.after for part in (self.old, self.new)]
        tokens = [list(tokens_of(text)) for text in texts]
        old, new = ([token.text for token in part] for part in tokens)
        start, end = alike(old, new), alike(old[::-1], new[::-1])
        end = min(end, len(old) - start, len(new) - start)
        return [fragment(text, part[max(start - 2, 0) : len(part) - max(end - 2, 0)]) for text, part in zip(texts, tokens)]


def reach(text, i, way):
    """The token up to three further that way, within the statement."""
    for _ in range(3):
        if text.word(i) == ";" or text.word(i + way) in ("", "{", "}", ";"):
            break
        i += way
    return i


def alike(one, other):
    """How many are the same at the beginning."""
    return next((i for i, (a, b) in enumerate(zip(one, other)) if a != b), min(len(one), len(other)))


def fragment(text, tokens):
    """The text of these tokens on one line, its beginning and end where it is long."""
    if not tokens:
        return ""
    words = re.sub(r"//[^\n]*", "", text[tokens[0].at : tokens[-1].end])
    words = " ".join(words.split())
    return words if len(words) < 60 else words[:34] + " .. " + words[-18:]


def all_edits(folder):
    """Every edit of both files, in the files' order."""
    edits = {}
    for text in places.texts(folder):
        tokens = places.edited_tokens(text)
        made = [Edit(text, kind, *made) for kind, function in KINDS.items() for made in function(text, tokens)]
        for edit in sorted(made, key=lambda edit: edit.at):
            # the same edit of another kind is not tried again
            edits.setdefault((edit.file, edit.at, edit.old, edit.new), edit)
    return list(edits.values())
