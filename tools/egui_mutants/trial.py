"""Tries edits: builds the package that compiles egui's text with one edit in it, and replays a transcript of questions and answers."""
import concurrent.futures, os, queue, re, subprocess, time

NOTICED, PANICKED, ENDLESS = "noticed by an answer", "noticed by a panic", "noticed by the time limit"
NOT_BUILT, SURVIVED = "does not build", "survived"


class Bench:
    """Where edits are tried: the package, egui's files, the transcript, and a folder for what is built."""

    def __init__(self, package, containers, transcript, folder):
        self.package, self.containers, self.transcript, self.folder = package, containers, transcript, folder
        self.answers, self.limit = None, 600.0

    def target(self, worker):
        return self.folder / f"target{worker}"

    def build(self, worker, edit):
        """Whether cargo builds the program with that edit, or without one."""
        env = dict(os.environ, EGUI_CONTAINERS=str(self.containers), CARGO_TARGET_DIR=str(self.target(worker)))
        env.pop("EGUI_EDIT", None)
        if edit is not None:
            env["EGUI_EDIT"] = str(written(edit, self.folder / f"edit{worker}"))
        command = ["cargo", "build", "--quiet", "--offline", "--profile", "mutant", "--bin", "replay"]
        command += ["--manifest-path", str(self.package / "Cargo.toml")]
        built = subprocess.run(command, env=env, capture_output=True, text=True)
        if built.returncode != 0 and (edit is None or "could not compile" not in built.stderr):
            raise RuntimeError(f"the package does not build for another reason than the edit:\n{built.stderr}")
        return built.returncode == 0

    def replay(self, worker):
        """(exit code, what was printed), or None where the time limit was met."""
        command = [str(self.target(worker) / "mutant" / "replay"), str(self.transcript)]
        try:
            ran = subprocess.run(command, capture_output=True, text=True, timeout=self.limit, errors="replace")
        except subprocess.TimeoutExpired:
            return None
        return ran.returncode, ran.stdout + ran.stderr

    def measure(self):
        """Replays the transcript with egui's text as it is, which must give every answer again; counts them, and sets the time limit."""
        self.build(0, None)
        start = time.monotonic()
        code, printed = self.replay(0)
        found = re.search(r"^([\d,_]+) answers, all alike", printed, re.M)
        if code != 0 or not found:
            raise RuntimeError(f"egui's text as it is does not give the transcript's answers:\n{printed}")
        self.answers = int(re.sub(r"[,_]", "", found.group(1)))
        # other programs may run beside it
        self.limit = max(30.0, 20 * (time.monotonic() - start))

    def tried(self, worker, edit):
        """What came of an edit, and the line that says where it was noticed."""
        if not self.build(worker, edit):
            return NOT_BUILT, ""
        ran = self.replay(worker)
        if ran is None:
            return ENDLESS, ""
        code, printed = ran
        if code == 2:
            raise RuntimeError(f"the transcript cannot be replayed: {printed}")
        lines = [line for line in printed.splitlines() if line.startswith("answer ") or "panicked at" in line]
        return {0: SURVIVED, 1: NOTICED}.get(code, PANICKED), lines[0] if lines else ""


def written(edit, path):
    """The edit in the form that the build reads: four lines, with breaks and backslashes escaped."""
    def escaped(part):
        return part.replace("\\", "\\\\").replace("\n", "\\n")

    path.write_text(f"{edit.file}\n{edit.at}\n{escaped(edit.old)}\n{escaped(edit.new)}\n", encoding="latin-1")
    return path


def try_all(bench, edits, workers):
    """(edit, result, line) of every edit, in their order; says on one line how far it is."""
    free, done, start = queue.SimpleQueue(), [], time.monotonic()
    for worker in range(workers):
        free.put(worker)

    def one(edit):
        worker = free.get()
        try:
            result = bench.tried(worker, edit)
        finally:
            free.put(worker)
        done.append(result)
        say(done, len(edits), start)
        return edit, *result

    with concurrent.futures.ThreadPoolExecutor(workers) as pool:
        results = list(pool.map(one, edits))
    print()
    return results


def say(results, count, start):
    done = len(results)
    kinds = [result for result, _ in results]
    noticed = sum(kind in (NOTICED, PANICKED, ENDLESS) for kind in kinds)
    left = (time.monotonic() - start) / done * (count - done)
    rest = f"{kinds.count(SURVIVED)} survived, {kinds.count(NOT_BUILT)} not built, {left / 60:.1f} min left"
    print(f"\r{done}/{count}: {noticed} noticed, {rest}   ", end="", flush=True)
