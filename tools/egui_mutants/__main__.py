"""Edits egui's text in one place at a time and counts what the comparison with the library notices.

tools/mutants egui DIR [--write] [--only KIND].. [--line FILE:N].. [--jobs N] [--transcript FILE] [--package DIR] [--list] [--log FILE]

DIR holds egui 0.37.0's scroll_area.rs and scroll_physics.rs. The transcript of what they were asked and answered, by which each edit is
judged, is made by tools/compare unless one of the same questions is given. --only takes the edits of a kind, --line those that begin on a
line; --list prints them and tries none; --log writes what came of each. With --write, the section of docs/MUTANTS.md is written anew, for
which all must be tried. Exits 1 if an edit survives that survivors.tsv does not explain, or one is noticed that it explains.
"""
import argparse, pathlib, subprocess, sys, tempfile

import page, places
from edits import all_edits
from kinds import KINDS
from trial import Bench, try_all

root = pathlib.Path(__file__).resolve().parent.parent.parent

# seed, frames, states and calls of the transcript, and nothing of what egui does not answer
QUESTIONS = ["1", "150000", "60000", "60000", "0", "0", "0"]


def command_line():
    parser = argparse.ArgumentParser(prog="tools/mutants egui", description=__doc__.splitlines()[0])
    parser.add_argument("containers", metavar="DIR", type=pathlib.Path)
    parser.add_argument("--write", action="store_true")
    parser.add_argument("--list", action="store_true")
    parser.add_argument("--only", metavar="KIND", action="append", default=[], choices=list(KINDS))
    parser.add_argument("--line", metavar="FILE:N", action="append", default=[])
    parser.add_argument("--jobs", type=int, default=2)
    parser.add_argument("--transcript", type=pathlib.Path)
    parser.add_argument("--package", type=pathlib.Path, default=root / "oracle" / "egui")
    parser.add_argument("--log", type=pathlib.Path)
    words = parser.parse_args()
    if words.write and (words.only or words.line):
        parser.error("--write needs all edits")
    return words


def asked(words):
    """The edits that the command line takes."""
    edits = all_edits(words.containers)
    if words.only:
        edits = [edit for edit in edits if edit.kind in words.only]
    if words.line:
        edits = [edit for edit in edits if f"{edit.file}:{edit.line}" in words.line]
    return edits


def transcript(words, folder):
    """The transcript that is given, or one made by a comparison."""
    if words.transcript:
        return words.transcript.resolve()
    made = folder / "transcript"
    command = [root / "tools" / "compare", "--egui", words.containers.resolve(), "--transcript", made, *QUESTIONS]
    ran = subprocess.run(command, stdout=subprocess.PIPE, text=True)
    if ran.returncode != 0:
        sys.exit(f"{ran.stdout}\nthe comparison that makes the transcript fails")
    print(ran.stdout.splitlines()[-1], flush=True)
    return made


def left_out():
    """What the parts that are not edited serve, once each."""
    return ", ".join(dict.fromkeys(serves for _, serves in places.LEFT_OUT))


def report(words, results, bench):
    """Prints counts and survivors; answers how many of them are not as survivors.tsv has it."""
    print("\n".join(page.count_rows(results)))
    for edit, why in page.survivors(results):
        old, new = edit.shown()
        print(f"{edit.place()} ({edit.kind}): {old} -> {new}: {why}")
    unused = page.unused_reasons(results)
    for place, old, new in unused:
        print(f"{place}: {old} -> {new} is noticed, although survivors.tsv explains why it is not")
    if words.log:
        lines = ["\t".join([edit.kind, result, line, *edit.key()]) for edit, result, line in results]
        words.log.write_text("\n".join(lines) + "\n")
    if words.write:
        page.write(root / "docs" / "MUTANTS.md", results, bench, left_out(), QUESTIONS)
    return len(unused) + sum(why == page.NO_REASON for _, why in page.survivors(results))


def main():
    words = command_line()
    edits = asked(words)
    if words.list:
        for edit in edits:
            print(f"{edit.place()} ({edit.kind}): {' -> '.join(edit.shown())}")
        return
    with tempfile.TemporaryDirectory() as name:
        folder = pathlib.Path(name)
        bench = Bench(words.package.resolve(), words.containers.resolve(), transcript(words, folder), folder)
        bench.measure()
        print(f"{bench.answers:,} answers, {len(edits)} edits", flush=True)
        results = try_all(bench, edits, words.jobs)
    sys.exit(1 if report(words, results, bench) else 0)


try:
    main()
except (OSError, ValueError, RuntimeError) as why:
    sys.exit(f"tools/mutants egui: {why}")
