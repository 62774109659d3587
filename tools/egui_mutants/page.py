"""What is said of the results: the counts, the survivors with their reasons, and the section of docs/MUTANTS.md."""
import collections, pathlib, textwrap

from trial import ENDLESS, NOT_BUILT, NOTICED, PANICKED, SURVIVED

HEADING = "## egui's text"
REASONS = pathlib.Path(__file__).with_name("survivors.tsv")
NO_REASON = "NOT EXPLAINED"


def reasons():
    """Why no answer can change, by place, old and new text of an edit."""
    rows = [line.split("\t") for line in REASONS.read_text().splitlines() if line and not line.startswith("#")]
    return {(place, old, new): why for place, old, new, why in rows}


def survivors(results):
    """(edit, why) of each."""
    known = reasons()
    return [(edit, known.get(edit.key(), NO_REASON)) for edit, result, _ in results if result == SURVIVED]


def unused_reasons(results):
    """Reasons for edits that were tried and did not survive."""
    noticed = {edit.key() for edit, result, _ in results if result != SURVIVED}
    return [key for key in reasons() if key in noticed]


def count_rows(results):
    """The table of counts by kind of edit."""
    columns = [NOTICED, PANICKED, ENDLESS, NOT_BUILT, SURVIVED]
    counts = collections.Counter((edit.kind, result) for edit, result, _ in results)
    kinds = sorted({edit.kind for edit, _, _ in results})
    rows = ["| kind of edit | edits | " + " | ".join(columns) + " |", "|---|" + "---:|" * (len(columns) + 1)]
    for kind in kinds:
        numbers = [counts[kind, column] for column in columns]
        rows.append(f"| {kind} | {sum(numbers)} | " + " | ".join(map(str, numbers)) + " |")
    totals = [sum(counts[kind, column] for kind in kinds) for column in columns]
    return rows + [f"| all | {sum(totals)} | " + " | ".join(map(str, totals)) + " |"]


def code(words):
    """A fragment inside a table's cell."""
    words = words.replace("|", "\\|")
    return f"`{words}`" if words else "nothing"


def survivor_rows(results):
    rows = ["| place | egui | edit | why no answer can change |", "|---|---|---|---|"]
    for edit, why in survivors(results):
        old, new = edit.shown()
        rows.append(f"| {edit.file.removesuffix('.rs')} {edit.line} | {code(old)} | {code(new)} | {why} |")
    return rows


def section(results, bench, left_out, questions):
    """The section, without its heading."""
    noticed = sum(result in (NOTICED, PANICKED, ENDLESS) for _, result, _ in results)
    built = sum(result != NOT_BUILT for _, result, _ in results)
    seed, frames, states, calls = (f"{int(word):,}" for word in questions[:4])
    what = f"""Would the comparison notice if egui's text were read wrongly somewhere? `tools/mutants egui DIR` edits egui 0.37.0's own
        scroll_area.rs and scroll_physics.rs, which the package oracle/egui compiles, in one place at a time, and asks the edited text again
        what the comparison of seed {seed} with {frames} frames, {states} frames on arbitrary states and {calls} axis calls asked egui's:
        {bench.answers:,} answers. Of {len(results):,} edits {built:,} build; {noticed:,} of these are noticed, and each of the other
        {built - noticed} stands below with the reason why no answer can change."""
    how = """An edit is noticed by the first answer that differs (answers that are refused with 8 do not differ from each other), by a
        panic, or by the time limit. The panics are of the names around egui's text: a scroll target for an area further out that is not put
        back, a bar's factor that is asked for twice or of the wrong axis, a state that is not stored, a clamp that panics outside of a press."""
    where = f"""Edited are `begin`, `end`, `State::default`, `clamped_offset`, `DragScroll::enabled` and `has_scrolling_ancestor`, and all
        functions and constants of scroll_physics.rs. Not edited is what document 01 leaves out or gives to the frame: {left_out}."""
    lines = []
    for text in (what, how, where):
        lines += textwrap.wrap(" ".join(text.split()), 140) + [""]
    return lines + count_rows(results) + [""] + survivor_rows(results)


def write(page, results, bench, left_out, questions):
    """Puts the section at the page's end, in the place of the present one."""
    above = page.read_text().split(f"\n{HEADING}\n")[0].rstrip("\n")
    page.write_text("\n".join([above, "", HEADING, ""] + section(results, bench, left_out, questions)) + "\n")
