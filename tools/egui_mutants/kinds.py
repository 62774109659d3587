"""The kinds of edit: each is a function that yields (first token, last token, new text) for every place where it applies."""
import re

KINDS = {}


def kind(name):
    def keep(function):
        KINDS[name] = function
        return function

    return keep


def wrapped(words):
    """In parentheses, where the words are more than a path with its calls and indices, and have none."""
    is_path = re.fullmatch(r"[\w.:]+(\([^()]*\)|\[[^\[\]]*\]|[\w.:])*", words)
    return words if is_path or re.fullmatch(r"\([^()]*(\([^()]*\)[^()]*)*\)", words) else f"({words})"


def operators(text, tokens, which):
    """Binary operators, but for an index, which the kind `axis` has."""
    return (i for i in tokens if text.word(i) in which and text.binary(i) and text.span(i - 2, i + 2) != "[1 - d]")


@kind("arithmetic")
def arithmetic(text, tokens):
    others = {"+": "-", "-": "+", "*": "/", "/": "*"}
    for i in operators(text, tokens, others):
        yield i, i, others[text.word(i)]
    for i in tokens:
        if text.word(i) in ("+=", "-=", "*="):
            yield i, i, {"+=": "-=", "-=": "+=", "*=": "/="}[text.word(i)]


@kind("operand dropped")
def operand_dropped(text, tokens):
    for i in operators(text, tokens, ("&&", "||")):
        first, last = text.left_operand(i), text.right_operand(i)
        yield first, last, text.span(first, i - 1)
        yield first, last, text.span(i + 1, last)


@kind("grouping")
def grouping(text, tokens):
    """(a - b) + c as a - (b + c)."""
    for i in operators(text, tokens, "+ - * /".split()):
        start = text.left_operand(i)
        inner = [k for k in range(start, i) if text.binary(k) == text.binary(i) and text.left_operand(k) == start]
        if inner:
            first, last = inner[-1] + 1, text.right_operand(i)
            yield first, last, f"({text.span(first, last)})"


@kind("operands exchanged")
def operands_exchanged(text, tokens):
    for i in operators(text, tokens, ("-", "/")):
        first, last = text.left_operand(i), text.right_operand(i)
        left, right = text.span(first, i - 1), text.span(i + 1, last)
        yield first, last, f"{wrapped(right)} {text.word(i)} {wrapped(left)}"


@kind("comparison")
def comparison(text, tokens):
    others = {"<": ["<=", ">"], "<=": ["<", ">="], ">": [">=", "<"], "==": ["!="], "!=": ["=="]}
    for i in operators(text, tokens, others):
        for other in others[text.word(i)]:
            yield i, i, other


@kind("and, or")
def and_or(text, tokens):
    others = {"&&": "||", "||": "&&"}
    for i in operators(text, tokens, others):
        yield i, i, others[text.word(i)]


@kind("not dropped")
def not_dropped(text, tokens):
    for i in tokens:
        # a macro's mark stands right behind its name
        if text.word(i) == "!" and text.tokens[i - 1].end != text.tokens[i].at:
            yield i, i, ""
        elif text.word(i) == "!" and text.word(i - 1) == "(":
            yield i, i, ""


@kind("minus dropped")
def minus_dropped(text, tokens):
    for i in tokens:
        if text.word(i) == "-" and text.binary(i) is None:
            yield i, i, ""


@kind("condition")
def condition(text, tokens):
    for i in tokens:
        last = text.head_end(i + 1) - 1 if text.word(i) == "if" else i
        if text.word(i) == "if" and text.word(i + 1) != "let":
            yield i + 1, last, "true"
            yield i + 1, last, "false"
        elif text.word(i) == "if":
            # the option is never there
            first = next(k for k in range(i, last) if text.word(k) == "=") + 1
            yield first, last, f"({text.span(first, last)}).into_iter().find(|_| false)"


# which arguments of a call are alike
ALIKE = {
    "new": [(0, 1)], "pos2": [(0, 1)], "from_min_max": [(0, 1)], "from_x_y_ranges": [(0, 1)], "clamp": [(0, 1)], "remap": [(1, 2)],
    "remap_clamp": [(1, 2)], "rubber_band_drag": [(0, 1), (3, 4)], "critically_damped_spring_step": [(0, 1), (1, 2), (2, 3)],
    "step": [(0, 1)], "wheel": [(0, 1)], "drag": [(0, 1)], "bounce_velocity": [(0, 1), (1, 2)],
}


def exchanged(text, one, other):
    """From the first to the last token of two parts, with the parts exchanged."""
    between = text.source[text.tokens[one[1]].end : text.tokens[other[0]].at]
    return one[0], other[1], text.span(*other) + between + text.span(*one)


@kind("arguments exchanged")
def arguments_exchanged(text, tokens):
    for i in tokens:
        if text.word(i) != "(":
            continue
        parts = text.arguments(i)
        is_call = re.match(r"[\w\])!>]", text.word(i - 1)) and text.word(i - 1) not in ("match", "return")
        is_pair = not is_call and len(parts) == 2 and text.word(text.pair[i] + 1) not in ("=>", "=")
        for one, other in [(0, 1)] if is_pair else ALIKE.get(text.word(i - 1), []):
            if text.word(i - 2) != "fn" and other < len(parts) and text.span(*parts[one]) != text.span(*parts[other]):
                yield exchanged(text, parts[one], parts[other])


@kind("range ends exchanged")
def range_ends_exchanged(text, tokens):
    for i in tokens:
        if text.word(i) != "..=":
            continue
        first, last = i - 1, i + 1
        while text.word(first - 1) not in (",", "(", "=", ";"):
            first = text.pair[first - 1] if text.word(first - 1) in (")", "]") else first - 1
        while text.word(last + 1) not in (",", ")", ";"):
            last = text.pair[last + 1] if text.word(last + 1) in ("(", "[") else last + 1
        yield first, last, f"{wrapped(text.span(i + 1, last))}..={wrapped(text.span(first, i - 1))}"


@kind("receiver and argument exchanged")
def receiver_and_argument_exchanged(text, tokens):
    for i in calls(text, tokens, ["max", "min", "at_most", "copysign", "intersect"]):
        first, (argument,) = text.receiver(i), text.arguments(i + 2)
        if first is not None:
            words = text.span(*argument)
            # a method needs to know the number's type
            words = words + "_f32" if re.fullmatch(r"[\d.]+", words) else words
            yield first, text.pair[i + 2], f"{wrapped(words)}.{text.word(i + 1)}({text.span(first, i - 1)})"


def calls(text, tokens, names):
    """The dots of calls of these methods."""
    return (i for i in tokens if text.word(i) == "." and text.word(i + 1) in names and text.word(i + 2) == "(")


@kind("call dropped")
def call_dropped(text, tokens):
    for i in calls(text, tokens, ["abs", "ceil", "max", "min", "at_most", "intersect", "signum", "copysign", "powi", "yx", "exp"]):
        # a velocity that is lent has to be read
        is_lent = text.word(i - 1) == "vel" and text.word(i - 2) != "."
        yield i, text.pair[i + 2], ".clone()" if is_lent else ""
    for i in calls(text, tokens, ["clamp", "drag"]):
        parts, first = text.arguments(i + 2), text.receiver(i)
        if len(parts) == 2 and text.word(i + 1) == "clamp":
            yield i, text.pair[i + 2], ""
        else:
            # the range clamps its argument
            yield first, text.pair[i + 2], wrapped(text.span(*parts[0]))
    for i in tokens:
        if text.word(i) == "take" and text.word(i - 1) == "::":
            yield i - 4, text.pair[i + 1], text.span(i + 4, text.pair[i + 1] - 1)
        elif text.word(i) == "take" and text.word(i - 1) == ".":
            yield i, i, "clone"


def in_pattern(text, i):
    """Whether an arm's arrow follows the bracket around the token."""
    while text.word(i) not in (")", ";", "}", "=>"):
        i += 1
    return text.word(i) == ")" and text.word(i + 1) == "=>"


@kind("constant")
def constant(text, tokens):
    others = {"0.0": ["1.0"], "1.0": ["0.0", "2.0"], "0.1": ["0.2"], "0.5": ["0.25"], "0.55": ["0.5", "0.3"], "0.3": ["0.35", "0.55"],
              "3.0": ["2.0"], "E": ["PI"], "FALSE": ["TRUE"], "TRUE": ["FALSE"], "INFINITY": ["MAX"]}
    for i in tokens:
        for other in others.get(text.word(i), []):
            yield i, i, other
        if text.word(i) in ("true", "false") and not in_pattern(text, i):
            yield i, i, {"true": "false", "false": "true"}[text.word(i)]
        elif text.word(i) == "ZERO" and text.word(i - 2) == "Vec2":
            yield i, i, "new(1.0, 1.0)"
        elif text.word(i) == "2" and text.word(i - 2) == "powi":
            yield i, i, "3"
        elif text.word(i) == "None" and text.word(i - 1) == "[":
            yield i, i, "Some(0.0)"
        elif text.word(i) == "None" and text.word(i - 1) == ":":
            yield i, i, "Some(Rect::from_min_size(Pos2::ZERO, Vec2::ZERO))"


@kind("axis")
def axis(text, tokens):
    for i in tokens:
        inside = text.span(i + 1, text.pair[i] - 1) if text.word(i) == "[" and text.pair[i] > i + 1 else ""
        other = {"0": "1", "1": "0", "d": "1 - d", "1 - d": "d"}.get(inside)
        if other:
            yield i + 1, text.pair[i] - 1, other
        elif text.word(i) in ("x", "y") and text.word(i - 1) == ".":
            yield i, i, {"x": "y", "y": "x"}[text.word(i)]
        elif text.word(i) == "." and text.span(i, i + 3) == ".any()":
            yield i, i + 3, "[0]"
            yield i, i + 3, "[1]"
        elif text.word(i) in ('"h"', '"v"'):
            yield i, i, {'"h"': '"v"', '"v"': '"h"'}[text.word(i)]
        elif text.word(i) == ".." and text.word(i - 1) == "0":
            yield i - 1, i + 1, "0..1"
            yield i - 1, i + 1, "1..2"


# names of one type that a reader could take for each other
NAMES = [("min", "max"), ("width", "height"), ("inner_rect", "outer_rect"), ("bar_inner_margin", "bar_outer_margin"),
         ("offset_x", "offset_y"), ("TOUCH_MAX_STRETCH", "TRACKPAD_MAX_STRETCH"), ("TOUCH_RUBBER_BAND_SLOPE", "TRACKPAD_RUBBER_BAND_SLOPE"),
         ("floating_width", "bar_width"), ("dragged", "drag_stopped"), ("remap", "remap_clamp"), ("is_some", "is_none"),
         ("is_some_and", "is_none_or"), ("Trackpad", "Momentum"), ("Trackpad", "Wheel"), ("Momentum", "Unknown"),
         ("ScrollArea", "CentralPanel")]


def is_name_used(text, i, other):
    """Not where a name is made, nor where it names a call of two numbers; the other name must be known there."""
    if text.word(i) in ("min", "max") and text.word(i + 1) == "(":
        return False
    if text.word(i - 1) in ("let", "mut", "fn", "|") or text.word(i + 1) in (":", "::"):
        return False
    if text.word(i - 1) in ("{", ",") and text.word(i + 1) in (",", "}") and not other.isupper():
        return False
    function = max((k for k in range(i) if text.word(k) == "fn"), default=0)
    return text.word(i - 1) in (".", "::") or any(text.word(k) == other for k in range(function, i)) or other.isupper() or "remap" in other


@kind("name")
def name(text, tokens):
    for i in tokens:
        for pair in NAMES:
            if text.word(i) in pair and is_name_used(text, i, pair[1 - pair.index(text.word(i))]):
                yield i, i, pair[1 - pair.index(text.word(i))]


@kind("other input")
def other_input(text, tokens):
    """Readings that tempt: the last frame's bounds, a drag without a rectangle, each frame's press a new one, no easing, all ancestors."""
    for i in tokens:
        if text.word(i) == "max_offset" and text.word(i - 1) in ("(", "..=") and text.word(i + 1) == "[":
            yield i, i, "state.max_offset"
        elif text.word(i) == "interact_rect" and text.word(i + 2) == "map":
            yield i, i, "interact_rect.or(Some(inner_rect))"
        elif text.word(i) == "get_or_insert_with":
            first = text.receiver(i - 1)
            held = text.span(first, i - 2)
            yield first, i - 2, f"{{ {held} = None; &mut {held} }}"
        elif text.word(i) == "ease_in_ease_out":
            yield i - 2, i, "|t| t"
        elif text.word(i) == "any" and text.word(i + 2) == "|":
            yield i, i, "all"


@kind("Some as None")
def some_as_none(text, tokens):
    for i in tokens:
        if text.word(i) == "Some" and text.word(i + 1) == "(" and text.word(text.pair[i + 1] + 1) not in ("=", "=>"):
            yield i, text.pair[i + 1], "None"


@kind("arms exchanged")
def arms_exchanged(text, tokens):
    for i in tokens:
        if text.word(i) == "{" and text.is_match(i):
            arms = text.arms(i)
            for k, one in enumerate(arms):
                for other in arms[k + 1 :]:
                    if text.span(*one) != text.span(*other):
                        yield exchanged(text, one, other)


@kind("statement dropped")
def statement_dropped(text, tokens):
    chosen = set(tokens)
    for i in tokens:
        if not text.is_block(i):
            continue
        for first, last in text.statements(i):
            # a block's statements are met one by one
            if first in chosen and text.word(last) == ";" and text.word(first) not in ("let", "if", "for", "match", "{"):
                yield first, last, ""
