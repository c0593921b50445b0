"""Tests `tools/try_edits.py` by edits that are planted in a copy of `ipcz_edge`: it must tell each of them as it is.

    python3 tools/test_try_edits.py    prints what is told otherwise, and fails if there is something

By hand, and not in the gate: it takes two to four minutes of a processor. It begins with what `rt check` kept in the folders `out` of `ipcz_device`,
`ipcz_base` and `ipcz_edge`, or proves them first.
"""
import os
import pathlib
import re
import shutil
import subprocess
import sys
import tempfile

import asked
import find_lost_edits
import try_edits
from asked import TOP
from narrowing import Narrowing, Record, write_records

CRATES = ("ipcz_device", "ipcz_base", "ipcz_edge")
EDGE, SPEC = "src/edge.rt", "specs/Edge.antt"
CHOICE = re.search(r"^choose e n = .*$", (TOP / "crates/ipcz_edge" / SPEC).read_text(), re.M)[0]
# What is planted: what must be told of it, its file, old text and new one, and if need be the function of which it says that it refuses it.
PLANTED = {
    # (all others of bodies stand beside this one: what calls it has no proof, and is no nearer to a goal that fails)
    "wrong_callee": ("refused", "src/link_slot.rt", "=> (LinkId::Central(word), side, other)", "=> (LinkId::Central(other as u64), side, word as u8)"),
    "harmless_in_what_calls_it": ("NOT REFUSED", EDGE, "        self.primary.end()", "        let slot = &self.primary; slot.end()"),
    "harmless_two_calls_above_it": ("NOT REFUSED", EDGE, "self.primary().is_none() &&", "!self.primary().is_some() &&"),
    "wrong_in_what_calls_it": ("refused", EDGE, "is_link(self.primary(), link, side) ||", "self.decays() ||"),
    # (these two change copies of the function that the one above changes)
    "wrong_beside_a_wrong_one": ("refused", EDGE, "|| is_link(self.decaying(), link, side)", "|| is_link(self.decaying(), link, side.opposite())"),
    "harmless_beside_wrong_ones": ("NOT REFUSED", EDGE, "|| is_link(self.decaying(), link, side)", "|| { is_link(self.decaying(), link, side) }"),
    "does_not_compile": ("BAD EDIT", EDGE, "        self.length_from = Some(length);", "        self.length_from = Some(true);"),
    "stands_nowhere": ("BAD EDIT", EDGE, "self.tertiary.end()", "self.primary.end()"),
    "stands_twice": ("BAD EDIT", EDGE, "LinkSlot::of(None)", "LinkSlot::of(Some(link))"),
    "changes_nothing": ("BAD EDIT", EDGE, "n < length", "n < length"),
    "harmless_clause": ("NOT REFUSED", EDGE, "ensures { result ≡ edge_of link }", "ensures { edge_of link ≡ result }"),
    "wrong_definition": ("refused", SPEC, CHOICE, "choose e n = e.primary"),
    "named_refuser": ("refused", SPEC, CHOICE, "choose e n = e.decaying", "edge::Edge::choose"),
    "named_function_lets_it_pass": ("refused", SPEC, CHOICE, "choose e n = None", "edge::Edge::primary"),
    "names_what_is_not_there": ("BAD EDIT", SPEC, CHOICE, "choose e n = None", "edge::Edge::chosen"),
    "names_a_refuser_of_a_body": ("BAD EDIT", EDGE, "n < length", "n <= length", "edge::Edge::choose"),
    # (these have records, some of which are wrong)
    "known_goal": ("refused", EDGE, "if can_finish {", "if self.decays() {"),
    "known_goal_is_proved": ("refused", EDGE, "self.length_from = None;", "let _ = self.length_from;"),
    "known_goal_is_not_there": ("refused", EDGE, "self.length_to = None;", "let _ = self.length_to;"),
    "harmless_with_a_known_goal": ("NOT REFUSED", EDGE, "let can_finish = self.can_finish(sent, received);", "let can_finish = { self.can_finish(sent, received) };"),
    "known_function": ("refused", SPEC, CHOICE, "choose e n = if is_short_of n e.length_to then e.primary else e.decaying"),
    "known_function_lets_it_pass": ("refused", SPEC, CHOICE, "choose e n = if is_short_of n e.length_to then None else e.decaying"),
    "cannot_be_read": ("BAD EDIT", EDGE, "ensures { result ≡ is_short_of n length }", "ensures { result ≡ is_shorter_than n length }"),
}
# What is said to refuse some of these, and how many checks must tell something of each.
KNOWN = {
    "known_goal": (Record("returns-then-decays-clause-edge"), 1),
    "known_goal_is_proved": (Record("returns-clause-given_up"), 2),
    "known_goal_is_not_there": (Record("returns-else", ("returns-elsewhere",)), 2),
    "harmless_with_a_known_goal": (Record("returns-then-can_finish-clause-edge"), 2),
    "known_function": (Record("edge::Edge::choose"), 1),
    "known_function_lets_it_pass": (Record("edge::Edge::primary"), 2),
}
HEAD = ["    requires { n < 8 }", "    ensures low { result ≡", "        n }", "    ensures high { n ≡ result }"]
ANSWERS = """use Rattle.a.proofs.Common.{one, two}
use Rattle.a.proofs.Lemmas.{lemma}
use Rattle.a.proofs.f.Goals as goal

helper : one
helper = lemma

pub g-requires : goal.g-requires
g-requires c = two

pub returns-then-n-clause-low : goal.returns-then-n-clause-low
returns-then-n-clause-low c = helper

pub returns-then-n-clause-high : goal.returns-then-n-clause-high
returns-then-n-clause-high c = two
"""
# What stays of those answers, by the goal to which the function is narrowed.
NARROWED = {
    "returns-then-n-clause-low": ("helper", "g-requires = ?", "returns-then-n c = helper", "Lemmas"),
    "g-requires": ("g-requires c = two",),
    "returns-then-n": ("g-requires = ?", "returns-then-n-clause-low = ?", "returns-then-n-clause-high = ?"),
}


def narrowed_wrongly() -> list[str]:
    """Returns what is wrong with what stays of a function and its answers."""
    wrong = []
    for goal, wanted in NARROWED.items():
        narrow = Narrowing(HEAD, Record(goal))
        text, head = narrow.answers(ANSWERS, "Rattle.a.proofs.f.Goals"), narrow.head(HEAD)
        every = {it for them in NARROWED.values() for it in them}
        if lost := [it for it in every if (it in text) != (it in wanted)]:
            wrong.append(f"narrowed to {goal}: {lost[0]}\n{text}")
        kept = {"returns-then-n-clause-low": "ensures { result ≡\n        n }", "g-requires": "", "returns-then-n": "\n".join(HEAD[1:])}[goal]
        if "\n".join(head[1:]).strip() != kept.strip() or len(head) != len(HEAD):
            wrong.append(f"narrowed to {goal}: {head}")
    return wrong


def plant(folder: pathlib.Path) -> None:
    folder.mkdir()
    write_records({f"ipcz_edge/{name}": record for name, (record, _) in KNOWN.items()}, folder.parents[2] / "tools/data/refused_at.txt")
    for name, (_, file, old, new, *refusers) in PLANTED.items():
        lines = [f"file: {file}", f"old: {old}", f"new: {new}", *(f"refused by: {it}" for it in refusers)]
        (folder / f"{name}.edit").write_text("".join(f"{line}\n" for line in lines))


def told_of_answers(crate: pathlib.Path, *whats: str) -> str:
    """Returns what the tool tells of the edit `wrong_callee` if a check says this of the answers of its function."""
    edit = try_edits.Edit(crate, crate / "edits" / "wrong_callee.edit")
    room = try_edits.Room(crate, crate.with_name("room"), [edit])
    (function,) = edit.functions
    path = "/".join(function.name.split("::")[1:])
    errors = [f"./proofs/{path}/Answers.antt:{at}:1: error: `goal`: {what}" for at, what in enumerate(whats, 1)]
    lines = [*errors, f"fn {function.name}: not proved: see its answers", "logic=not-proved"]
    room.remove()
    return try_edits.Said(room, 1, "\n".join(lines), False).verdict(edit)[0]


def tried(room: pathlib.Path, *flags: str, **more: str) -> tuple[str, int, dict[str, str]]:
    """Returns what the tool says, its status, and what it tells of each edit."""
    words = [sys.executable, "tools/try_edits.py", *flags, "ipcz_edge"]
    ran = subprocess.run(words, cwd=room, stdout=subprocess.PIPE, stderr=subprocess.STDOUT, text=True, env={**os.environ, **more})
    return ran.stdout, ran.returncode, dict(re.findall(r"^ipcz_edge/(\w+): ([A-Za-z ]+): ", ran.stdout, re.M))


def main() -> None:
    asked.parser(__doc__).parse_args()
    failed, texts = [], []
    with tempfile.TemporaryDirectory() as folder:
        room = pathlib.Path(folder)
        crate = room / "crates" / "ipcz_edge"
        shutil.copytree(TOP / "tools", room / "tools")
        lines = (TOP / "crates.txt").read_text().split("\n")
        (room / "crates.txt").write_text("".join(f"{line}\n" for line in lines if line.partition(":")[0] in CRATES))
        shutil.copy(TOP / "HANDLES", room)
        for name in CRATES:
            shutil.copytree(TOP / "crates" / name, room / "crates" / name, ignore=shutil.ignore_patterns("edits", "harmless-edits", "must-fail"))
        plant(crate / "edits")
        (room / "logs").mkdir()
        text, status, told = tried(room, EDIT_LOGS=str(room / "logs"))
        failed += [f"{name}: {told.get(name)}, and not {wanted}" for name, (wanted, *_) in PLANTED.items() if told.get(name) != wanted]
        logs = [it.read_text() for it in (room / "logs").glob("*")]
        # (some checks judge nothing, since an edit in them is no code)
        judged = [it.partition("\n\n")[0].split("\n") for it in logs if re.search(r"^(?:only|logic)=", it, re.M)]
        for name, (_, wanted) in KNOWN.items():
            if (count := sum(f"ipcz_edge/{name}" in it for it in judged)) != wanted:
                failed.append(f"{name} was tried in {count} checks, and not in {wanted}")
        count = sum(wanted == "refused" for wanted, *_ in PLANTED.values())
        if status != 1 or not re.search(rf"^edits: {count} as they must be, {len(PLANTED) - count} failed", text, re.M):
            failed.append(f"status {status}, and the last line doesn't tell {count} as they must be")
        texts.append(text)
        # (no function of this crate has its answers in a file, so what a check would say of some is made up)
        late = f"this is not {'so ' * 100}, and `item` is not in scope"
        for whats, wanted in ((late,), "ONLY NAMES"), (("these are not the same", late), "refused"), ((late, "these are not the same"), "refused"):
            if (what := told_of_answers(crate, *whats)) != wanted:
                failed.append(f"of answers that a check gives {len(whats)} errors: {what}, and not {wanted}")
        failed += narrowed_wrongly()
        if len([*find_lost_edits.lost_records([], ["ipcz_edge/gone"])]) != 1:
            failed.append("it isn't told of a record that its edit is gone")
        for name in PLANTED:
            if name not in ("wrong_callee", "known_goal_is_proved"):
                (crate / "edits" / f"{name}.edit").unlink()
        # what is written is where the whole contract refuses an edit, and others' records stay
        text, status, told = tried(room, "--write")
        written = (room / "tools/data/refused_at.txt").read_text()
        if status or "ipcz_edge/known_goal_is_proved: invariant_of-self\n" not in written or "ipcz_edge/known_goal: " not in written:
            failed.append(f"it wrote: {written}")
        texts.append(text)
        (crate / "edits" / "known_goal_is_proved.edit").unlink()
        # a check that takes too long tells nothing of its edits
        text, status, told = tried(room, EDIT_SECONDS="1")
        if status != 1 or told.get("wrong_callee") != "NOT TRIED":
            failed.append(f"after a second: status {status}, {told}")
        texts.append(text)
        # a wrong body where harmless ones belong isn't as it must be
        (crate / "edits").rename(crate / "harmless-edits")
        text, status, told = tried(room)
        if status != 1 or told.get("wrong_callee") != "refused":
            failed.append(f"a wrong body among the harmless ones: status {status}, {told}")
        texts.append(text)
    print(*(texts + failed if failed else []), sep="\n", end="")
    sys.exit(bool(failed))


if __name__ == "__main__":
    main()
