"""Where egui's text is edited: the functions that the library follows, without what document 01 leaves out."""
from rust_text import Text

AREA, PHYSICS = "scroll_area.rs", "scroll_physics.rs"

# how the edited functions of scroll_area.rs begin; of scroll_physics.rs it is all functions, and the constants
AREA_FUNCTIONS = ["impl Default for State", "fn clamped_offset(", "fn has_scrolling_ancestor(", "fn enabled(", "fn begin(", "fn end("]

# how a statement begins that is not edited, and what it serves
LEFT_OUT = [
    ("let id_salt =", "ids"),
    ("let id =", "ids"),
    ("ctx.check_for_id_clash(", "ids"),
    ("let mut content_max_size =", "where the content is laid out"),
    ("if true {", "where the content is laid out"),
    ("let content_max_rect = Rect", "where the content is laid out"),
    ("let content_max_rect = content_max_rect", "rounding to pixels"),
    ("if let Some(response) =", "cursors"),
    ("let is_hovering_outer_rect =", "opacity"),
    ("ui.advance_cursor_after_rect(", "where the host puts what follows"),
    ("paint_fade_areas_impl(ui,", "painting"),
    ("let max_bar_rect =", "where and how a bar is sensed"),
    ("let sense =", "where and how a bar is sensed"),
    ("response.widget_info(", "accessibility"),
    ("let outer_scroll_bar_rect =", "painting"),
    ("if ui.is_rect_visible(", "painting"),
]

# the second handle rectangle is worked out among the painting
KEPT = "let handle_rect ="


def texts(folder):
    """The two files, as they are."""
    return [Text(name, (folder / name).read_bytes().decode("latin-1")) for name in (AREA, PHYSICS)]


def tokens_at(text, words):
    """The tokens with which these words begin."""
    at, found = text.source.find(words), []
    while at >= 0:
        found.append(next(i for i, token in enumerate(text.tokens) if token.at >= at))
        at = text.source.find(words, at + 1)
    return found


def only(found, text, words):
    """The one that was found."""
    if len(found) != 1:
        raise ValueError(f"{text.name} is not egui 0.37.0's: {words!r} has {len(found)} places")
    return found[0]


def function_body(text, i):
    """The tokens of the body whose function begins there."""
    opening = text.head_end(i)
    return range(opening, text.pair[opening] + 1)


def statement_from(text, first):
    """The tokens of the statement that begins there."""
    return range(first, text.statement_end(first, len(text.tokens)) + 1)


def physics_tokens(text):
    """The bodies of all functions, and what the constants are."""
    for i in range(len(text.tokens)):
        if text.word(i) == "fn":
            yield from function_body(text, i)
        elif text.word(i) == "const":
            yield from statement_from(text, i)


def area_tokens(text):
    functions, left_out, kept = set(), set(), set()
    for words in AREA_FUNCTIONS:
        functions.update(function_body(text, only(tokens_at(text, words), text, words)))
    for words, _ in LEFT_OUT:
        inside = [i for i in tokens_at(text, words) if i in functions]
        left_out.update(statement_from(text, only(inside, text, words)))
    for first in tokens_at(text, KEPT):
        kept.update(statement_from(text, first))
    return functions - left_out | kept


def edited_tokens(text):
    """The numbers of the tokens at which an edit may begin."""
    return sorted(physics_tokens(text) if text.name == PHYSICS else area_tokens(text))
