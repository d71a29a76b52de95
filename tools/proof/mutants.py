"""What the mutants of crates/NAME/must-fail do when they run, for `tools/edits --behaves`.

Each mutant is compiled without a proof, in a copy of the sources, and what its line `shows:` names is run: a worked
stream, which has to print something else than its .out, or a test, which has to fail."""
from __future__ import annotations

import gzip
import re
import runpy
import shutil
import subprocess
import tempfile
from concurrent.futures import ThreadPoolExecutor
from dataclasses import dataclass
from pathlib import Path

OVER_LISTS = """use planner_cli::{exit_status, run_lists};
use std::io::{self, BufReader, BufWriter};
use std::process::ExitCode;

fn main(rt: HostRuntime) -> ExitCode {
    let alloc = rt.alloc();
    let Ok(mut reader) = BufReader::new(alloc, rt.reader()) else {
        return ExitCode::from(9);
    };
    let Ok(mut writer) = BufWriter::new(alloc, io::writer(&rt)) else {
        return ExitCode::from(9);
    };
    ExitCode::from(exit_status(&run_lists(alloc, &mut reader, &mut writer)))
}
"""
# the program that is compiled for streams over lists, the crate that it uses, and the two that run over files
PROGRAM, PLANNER, STREAMS, OPCPLAN = "over_lists", "planner_cli", "test_streams", "opcplan"
# what is asked of a plan file of the worked streams, and the stream that an earlier program made it of
LISTS = b"list ltp\nlist cp\nlist history\nlist deletions\nlist dependencies\nlist links\n"
MADE_OF = {"schema-1.db": "two-hundred-statements"}
# the longest that a stream over files or a test may take, in seconds: compiled with checks it is slow, and slower still
# beside other runs
LONGEST = "3600"
# the libraries that each crate of the repository uses
Uses = dict[str, list[str]]


@dataclass(frozen=True, order=True)
class Show:
    """What has to fail with a mutant: of a worked stream the name, of a test or a tool all of its name; and how."""

    kind: str
    name: str

    @staticmethod
    def of(text: str) -> Show:
        """Reads the text after `shows:`."""
        if "::" in text:
            return Show("test", text)
        if text.startswith("tools/"):
            return Show("tool", text)
        if text.endswith(".db"):
            return Show("plan", text)
        name, _, over = text.partition(" ")
        return Show("files" if over == "files" else "lists", name)

    def crate(self) -> str:
        """The crate whose code it runs, or none where it is a tool."""
        crate = {"lists": PLANNER, "files": STREAMS, "plan": OPCPLAN, "test": self.name.partition("::")[0]}
        return crate.get(self.kind, "")

    def crates(self, uses: Uses) -> list[str]:
        """The crates that have to be compiled for it."""
        return closure(self.crate(), uses) if self.crate() else [*uses]

    def is_known(self, top: Path, uses: Uses) -> bool:
        """Whether there is such a stream, such a crate of tests or such a tool."""
        if self.kind in ("test", "plan"):
            return self.crate() in uses and (self.kind == "test" or self.name in MADE_OF)
        return (top / self.name).is_file() if self.kind == "tool" else self.name in listed_streams(
            top / "crates" / STREAMS / "data")


@dataclass
class Outcome:
    """Whether a run could be judged, whether what was run passed, and the first thing that differed or went wrong."""

    is_judged: bool
    passed: bool
    said: str


def closure(top: str, uses: Uses) -> list[str]:
    """The crate and all of the repository that it uses."""
    found, left = {top}, [top]
    while left:
        new = [it for it in uses[left.pop()] if it in uses and it not in found]
        found.update(new)
        left += new
    return sorted(found)


def shown_by(file: Path) -> Show | None:
    """What the mutant's line `shows:` names."""
    found = re.search(r"^shows: (.+)$", file.read_text(encoding="utf-8"), re.M)
    return Show.of(found[1].strip()) if found else None


def unnamed(top: Path, edit: Path, uses: Uses) -> str:
    """Why the mutant names nothing that shows it, or nothing."""
    show = shown_by(edit)
    if not show:
        return "it has no line `shows:`"
    return "" if show.is_known(top, uses) else f"there is no stream, crate or tool of the name {show.name}"


def mutate(text: str, crate: Path) -> bool:
    """Makes the wrong body of a copy of the crate; answers whether each old text stood once in its file."""
    path, old = crate, ""
    for line in text.split("\n"):
        if line.startswith("file: "):
            path = crate / line[6:].strip()
        elif line.startswith("old: "):
            old = line[5:]
        elif line.startswith("new:"):
            now = path.read_text(encoding="utf-8") if path.is_file() else ""
            if now.count(old) != 1:
                return False
            path.write_text(now.replace(old, line[4:].removeprefix(" ")), encoding="utf-8")
    return True


def copy_sources(top: Path, room: Path, show: Show, uses: Uses) -> None:
    """Copies what has to be compiled, and the program over lists beside it."""
    names = show.crates(uses)
    for name in names:
        shutil.copytree(top / "crates" / name / "src", room / "crates" / name / "src")
    if show.kind == "tool":
        shutil.copytree(top / "tools", room / "tools")
    shutil.copy(top / "HANDLES", room)
    listed = [f"{name}: {' '.join(uses[name])}\n" for name in names]
    if show.kind == "lists":
        (room / "crates" / PROGRAM / "src").mkdir(parents=True)
        (room / "crates" / PROGRAM / "src" / "main.rt").write_text(OVER_LISTS)
        listed.append(f"{PROGRAM}: {PLANNER}\n")
    (room / "crates.txt").write_text("".join(listed))


def ran(words: list[str], where: Path, text: bytes = b"") -> tuple[int, str]:
    """Runs a command there: its status, and all that it says."""
    run = subprocess.run(words, cwd=where, input=text, capture_output=True)
    return run.returncode, (run.stdout + run.stderr).decode(errors="replace")


def unjudged(said: str) -> Outcome:
    """The outcome of a run that was not compiled or did not end."""
    lines = [it.strip() for it in said.splitlines() if it.strip()]
    return Outcome(False, False, "it was not compiled, or did not end: " + " | ".join(lines[-3:])[:600])


def listed_streams(data: Path) -> dict[str, str]:
    """The line of each worked stream in streams.txt."""
    lines = (data / "streams.txt").read_text(encoding="utf-8").splitlines()
    return {line.split()[0]: line for line in lines if line.strip() and not line.startswith("#")}


def over_lists(rt: str, room: Path, data: Path, names: list[str]) -> dict[str, Outcome]:
    """Runs worked streams over lists, all by one program."""
    cases, streams = room / "cases", listed_streams(data)
    cases.mkdir()
    for name in names:
        shutil.copy(data / f"{name}.in", cases / name)
        shutil.copy(data / f"{name}.out", cases / f"{name}.stdout")
    _, said = ran([rt, "try", "--steps", "1", "--cases", str(cases)], room / "crates" / PROGRAM)
    found = {}
    for name in names:
        ended = re.search(rf"^case={re.escape(name)} run=(\S+) status=(\S+)? ?.* output=(\S+)", said, re.M)
        differs = re.search(rf"^the output differs from `{re.escape(name)}\.stdout`: (.*)", said, re.M)
        if not ended or ended[1] == "no-answer":
            found[name] = unjudged(said)
        elif differs or ended[1] != "ended":
            found[name] = Outcome(True, False, differs[1][:300] if differs else ended[0])
        else:
            passed = ended[3] == "expected" and ended[2] == streams[name].split()[1]
            found[name] = Outcome(True, passed, f"status {ended[2]}, output {ended[3]}")
    return found


def over_files(rt: str, room: Path, data: Path, names: list[str]) -> dict[str, Outcome]:
    """Runs worked streams by the program `test_streams`, as streams.txt says."""
    streams, listed = listed_streams(data), room / "streams.txt"
    listed.write_text("".join(f"{streams[name]}\n" for name in names))
    words = [rt, "try", "--steps", "1", "--seconds", LONGEST, "--data", f"streams.txt={listed}"]
    for name in names:
        words += ["--data", f"{name}.in={data / name}.in", "--data", f"{name}.out={data / name}.out"]
    _, said = ran(words, room / "crates" / STREAMS)
    found = {}
    for name in names:
        wrong = re.search(rf"^{re.escape(name)} (GOES WRONG.*(?:\n  .*)*)", said, re.M)
        if wrong:
            found[name] = Outcome(True, False, " | ".join(it.strip() for it in wrong[1].splitlines())[:400])
        elif "run=ended" in said and re.search(rf"^{re.escape(name)} holds", said, re.M):
            found[name] = Outcome(True, True, "it holds")
        else:
            found[name] = unjudged(said)
    return found


def over_plan(rt: str, top: Path, room: Path, name: str) -> dict[str, Outcome]:
    """Runs `opcplan` over a plan file that an earlier program made, and compares its lists with the plain planner's."""
    data, plan = top / "crates" / STREAMS / "data", room / "plan.db"
    plan.write_bytes(gzip.decompress((data / f"{name}.gz").read_bytes()))
    plain = runpy.run_path(str(top / "tools" / "reference" / "plain_planner.py"))
    planner = plain["Planner"]()
    plain["run"]((data / f"{MADE_OF[name]}.in").read_bytes(), planner)
    wanted = "".join(f"{line}\n" for line in plain["run"](LISTS, planner))
    words = [rt, "try", "--steps", "1", "--seconds", LONGEST, "--data", f"plan.db={plan}", "--", "--db", "plan.db"]
    _, said = ran(words, room / "crates" / OPCPLAN, LISTS)
    if "run=ended" not in said:
        return {name: unjudged(said)}
    passed = said.startswith(wanted)
    return {name: Outcome(True, passed, "it lists all" if passed else "it answers " + said[:60].replace("\n", " | "))}


def of_tests(rt: str, room: Path, crate: str, names: list[str]) -> dict[str, Outcome]:
    """Runs the tests of a crate, and judges these."""
    _, said = ran([rt, "try", "--test", "--seconds", LONGEST], room / "crates" / crate)
    found = {}
    for name in names:
        test = name.partition("::")[2]
        line = re.search(rf"^test {re.escape(test)} \.\.\. (.*(?:\n(?!test ).*)*)", said, re.M)
        judged = Outcome(True, line[1].startswith("ok"), " | ".join(line[1].split("\n"))[:400]) if line else None
        found[name] = judged or unjudged(said)
    return found


def of_tool(room: Path, name: str) -> dict[str, Outcome]:
    """Runs a tool of the copy that compiles a test."""
    status, said = ran([str(room / name)], room)
    if status and "test result: FAILED" not in said:
        return {name: unjudged(said)}
    lines = [it for it in said.splitlines() if "FAILED" in it or "panicked" in it or "assert" in it]
    return {name: Outcome(True, not status, " | ".join(lines[:2] or said.splitlines()[-1:])[:400])}


def tried(rt: str, top: Path, kind: str, names: list[str], uses: Uses, edit: Path | None) -> dict[str, Outcome]:
    """Compiles the sources, with the edit or as they are, and runs what is named, which is all of one kind."""
    data, show = top / "crates" / STREAMS / "data", Show(kind, names[0])
    if not show.is_known(top, uses):
        return {name: Outcome(False, False, "there is no such stream, crate or tool") for name in names}
    with tempfile.TemporaryDirectory(prefix="behaves-") as path:
        room = Path(path)
        copy_sources(top, room, show, uses)
        if edit:
            crate = room / "crates" / edit.parent.parent.name
            if not crate.is_dir():
                return {names[0]: Outcome(False, False, "it does not run this crate")}
            if not mutate(edit.read_text(encoding="utf-8"), crate):
                return {names[0]: Outcome(False, False, "the edit can't be applied: see tools/edits --apply")}
        if kind == "lists":
            return over_lists(rt, room, data, names)
        if kind == "files":
            return over_files(rt, room, data, names)
        if kind == "plan":
            return over_plan(rt, top, room, names[0])
        return of_tests(rt, room, show.crate(), names) if kind == "test" else of_tool(room, names[0])


def unchanged(rt: str, top: Path, shows: list[Show], uses: Uses, jobs: int) -> bool:
    """Whether all that is to fail passes over the sources as they are; prints what does not."""
    groups: dict[tuple[str, str], list[str]] = {}
    for show in shows:
        part = show.crate() if show.kind == "test" else show.name if show.kind in ("tool", "plan") else ""
        groups.setdefault((show.kind, part if show.is_known(top, uses) else show.name), []).append(show.name)
    with ThreadPoolExecutor(jobs) as pool:
        found = list(pool.map(lambda group: tried(rt, top, group[0][0], group[1], uses, None), groups.items()))
    outcomes = [(name, outcome) for group in found for name, outcome in group.items()]
    for name, outcome in outcomes:
        if not outcome.passed:
            print(f"unchanged, {name}: {outcome.said}", flush=True)
    passed = sum(outcome.passed for _, outcome in outcomes)
    print(f"unchanged: {passed} of {len(shows)} streams and tests pass", flush=True)
    return passed == len(shows)


def judged(rt: str, top: Path, edit: Path, uses: Uses) -> bool:
    """Tries one mutant, prints what it does otherwise, and answers whether that shows."""
    show, label = shown_by(edit), f"{edit.parent.parent.name}/{edit.stem}"
    why = unnamed(top, edit, uses)
    if why or not show:
        print(f"{label}: NOT SHOWN: {why}", flush=True)
        return False
    outcome = tried(rt, top, show.kind, [show.name], uses, edit)[show.name]
    does_show = outcome.is_judged and not outcome.passed
    print(f"{label}: {'fails' if does_show else 'NOT SHOWN by'} {show.name}: {outcome.said}", flush=True)
    return does_show


def behaves(rt: str, top: Path, edits: list[Path], uses: Uses, jobs: int, tries_unchanged: bool) -> int:
    """Prints of each mutant what it does otherwise, and a count; the status is 0 where each shows."""
    named = sorted({show for show in map(shown_by, edits) if show})
    is_sound = not (named and tries_unchanged) or unchanged(rt, top, named, uses, jobs)
    with ThreadPoolExecutor(jobs) as pool:
        shown = sum(pool.map(lambda edit: judged(rt, top, edit, uses), edits))
    print(f"{len(edits)} mutants: {shown} show when they run, {len(edits) - shown} not")
    return 0 if is_sound and shown == len(edits) else 1
