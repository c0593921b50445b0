"""Tests the tools themselves: what they say to whoever calls them wrongly, and that the model writes the stored transcript. And whether each
link of a page, and each part of a page that a page or a comment names, is there; no page is too long to be read in one go; what a page shows as out of a file stands in
it; and the scripts that a page shows print, by the model, what stands beneath them, and those of docs/TOUR.md what a turned model prints; docs/reference
and docs/theorem.html are what the sources say, and docs/SIZES.md is so nearly; the table of what is
taken as given counts docs/trusted.txt, and no crate has an axiom of its own; and each source file begins with what it is about.

    python3 tools/test_tools.py    prints what is otherwise, and fails if there is something

Nothing needs to be built for it, and it takes some seconds.
"""
import pathlib
import re
import subprocess
import sys
import tempfile

import asked
import count_sizes
import judge
import judge_events
import make_reference
import make_theorem
import model
import ready
import shrink
import tour
import trusted
import try_pages
from asked import TOP

HERE = pathlib.Path(__file__).resolve().parent
# Not tools but what they share.
SHARED = ("asked", "mutations", "narrowing", "peers")
# A page and the title of a part of it, as pages and comments name it, there perhaps over the end of a line.
NAMED = re.compile(r'([A-Z_]+)\.md\)?,\s+(?:(?://[/!]?|--|#)\s+)?"([^"]+)"(?: and "([^"]+)")?')
# A part that a page names in brackets by itself: it is one of the same page.
OWN = re.compile(r'(?<!\.md\)) ?\("([A-Z][^"]+)"(?:(?: and|,) "([^"]+)")?\)')
# No page has more words than this, but the rules of the protocol and what is looked up in docs/reference.
MOST_WORDS = 6000
# What a page shows as out of a file.
QUOTED = re.compile(r"^<!-- out of (\S+) -->\n```\w*\n(.*?)^```$", re.MULTILINE | re.DOTALL)
# A script on four nodes that needs one, whose commands stand on the last.
MERGED = {"nodes": 4, "words": 7, "commands": [["open", 3, "a", "b"], ["put", "a", "more", ["3>1"]], ["settle", 100], ["get", "b"]]}
# Tools that run a program which is given to them, with the options that they need for it.
OF_A_PROGRAM = ("benchmark", "compare_judges", "compare_with_model", "make_cases --check", "refuse_growth", "soak", "try_example", "try_logs", "try_pages")
# A log in which names are opened again while a portal that has one of them travels: a get tells it by the name that it was opened by.
OPENED_AGAIN = r"""{"nodes": 1, "words": 3}
{"call": ["open", 0, "x", "y"], "answer": "open x y ok"}
{"call": ["open", 0, "u", "v"], "answer": "open u v ok"}
{"call": ["put", "u", "m", ["y"]], "answer": "put u 0"}
{"call": ["open", 0, "x", "y"], "answer": "open x y ok"}
{"node": 0, "event": "r2 send out 0 C1"}
{"node": 0, "event": "post 0"}
{"node": 0, "event": "look 0"}
{"node": 0, "event": "hand item 0 C1"}
{"call": ["get", "v"], "answer": "get v 0 [y] \"m\""}
"""
# What seeds draw of so many things each, by docs/JUDGE.md, "Drawing an order of acts", computed by hand.
DRAWN = {0: [(1000, 614), (1000, 849), (1000, 874)], 7: [(10, 6), (7, 2), (3, 0)]}
# The end of a log on two nodes, and what is told of its last line: each act that node 0 could take behind the lines before, by docs/PROTOCOL.md, "Turns".
POSSIBLE = r"""{"nodes": 2, "words": 4, "seed": 9}
{"call": ["put", "0>1", "m"], "answer": "put 0>1 0"}
{"node": 0, "event": "r0 send out 0 C0"}
{"node": 0, "event": "look 1"}
"""
TOLD = "line 4: refused\npossible: post 1\npossible: r0 rest"
# What the model answers of bytes that are no script, or barely one, by docs/SCRIPTS.md, "The script".
SCRIPT = b'{"nodes":1,"words":1,"commands":[["put","x",%s]]}'
TEXTS = {
    b"": "NotJson", b"[]": "BadShape 0", b"\xef\xbb\xbf" + SCRIPT % b'""': "NotJson", b" " * 1048577: "TooLong", b" " * 1048576: "NotJson",
    SCRIPT % b'"\xe9"': "NotJson", SCRIPT % b'"\xc0\x80"': "NotJson", SCRIPT % rb'"\ud800"': "NotJson", SCRIPT % rb'"\ud83d\ude00"': None, SCRIPT % rb'"\\ud800"': None,
    SCRIPT % b'"\t"': "NotJson", SCRIPT % b"NaN": "NotJson", SCRIPT % b"-Infinity": "NotJson", SCRIPT % b"1e400": "NotJson", SCRIPT % (b"9" * 400): "NotJson",
    SCRIPT % (b"9" * 5000): "NotJson", SCRIPT % b"1e300": "BadShape 1", SCRIPT % (b"[" * 124 + b"]" * 124): "BadShape 1", SCRIPT % (b"[" * 125 + b"]" * 125): "NotJson",
    b"[" * 5000: "NotJson", b'{"a\xff":1}': "NotJson",
    b'{"nodes":1,"words":-0,"commands":[]}': "BadShape 0", b'{"nodes":1.0,"words":0,"commands":[]}': "BadShape 0", b'{"nodes":1,"words":0,"commands":[["settle",-0]]}': "BadShape 1",
    b'{"nodes":9,"nodes":1,"words":18446744073709551616,"words":0,"commands":[]}': None,
}


def call(*words: str, given: str = "") -> subprocess.CompletedProcess:
    """A run of a tool; one that goes on for long was begun by mistake, and counts as failed."""
    try:
        return subprocess.run([sys.executable, *words], cwd=HERE, input=given, capture_output=True, text=True, timeout=20)
    except subprocess.TimeoutExpired:
        return subprocess.CompletedProcess(words, -1, "", "it goes on for more than 20 seconds")


def faults_of(tool: str) -> list[str]:
    """What is wrong with a tool by itself."""
    faults = []
    helped = call(f"{tool}.py", "--help")
    if helped.returncode or not helped.stdout.startswith("usage: ") or helped.stderr:
        faults.append(f"{tool} --help: status {helped.returncode}, {helped.stderr[-200:]}")
    imported = call("-c", f"import {tool}")
    if imported.returncode or imported.stdout or imported.stderr:
        faults.append(f"import {tool}: status {imported.returncode}, {(imported.stdout + imported.stderr)[-200:]}")
    refused = call(f"{tool}.py", "--no-such-argument")
    if refused.returncode != 2 or "Traceback" in refused.stderr:
        faults.append(f"{tool} --no-such-argument: status {refused.returncode}, {refused.stderr[-200:]}")
    return faults


def faults_of_a_missing_program() -> list[str]:
    ran = {}
    for tool in OF_A_PROGRAM:
        name, *options = tool.split()
        ran[tool] = call(f"{name}.py", *options, "crates/nobody/out/nobody")
    return [f"{tool} of a program that isn't there: {it.stderr[-200:]}" for tool, it in ran.items() if it.returncode != 2 or "isn't built" not in it.stderr]


def faults_of_ready() -> list[str]:
    """Of a machine that has nothing each missing thing is named, and there is no traceback; and README names the kit that it wants."""
    ran = subprocess.run([sys.executable, "ready.py"], cwd=HERE, env={"PATH": ""}, capture_output=True, text=True, timeout=20)
    unnamed = [name for name in ("rt,", "cc isn't", "ar isn't", *(f"no {it}" for it in ready.LEFT_OUT)) if name not in ran.stdout]
    faults = [f"ready without any program: status {ran.returncode}, {ran.stderr[-200:]}, not named: {unnamed}"] if ran.returncode != 1 or ran.stderr or unnamed else []
    if f"`{ready.KIT}`" not in (TOP / "README.md").read_text():
        faults.append("README names another kit than tools/ready.py wants")
    return faults


def faults_of_the_model() -> list[str]:
    faults = []
    crate = TOP / "crates/ipcz_run"
    if call("model.py", given=(crate / "stdin").read_text()).stdout != (crate / "stdout").read_text():
        faults.append("model: it doesn't write the stored transcript")
    broken = call("model.py", given='{"nodes":2,\n"words":}')
    if (broken.returncode, broken.stdout) != (2, "refused NotJson\n") or "line 2 column 9" not in broken.stderr:
        faults.append(f"model of what is no JSON: status {broken.returncode}, {broken.stdout}{broken.stderr}")
    for script, refusal in TEXTS.items():
        text, status, _ = model.answer(script)
        if (status == 2, text if status == 2 else "") != (refusal is not None, f"refused {refusal}\n" if refusal else ""):
            faults.append(f"model of {script[:60]!r}: status {status}, {text[:60]!r}")
    said = judge_events.verdict(OPENED_AGAIN)
    return faults + ([] if said == "allowed" else [f"judge_events of names that are opened again: {said}"])


def faults_of_events() -> list[str]:
    """What is told of a line that isn't allowed, and what seeds draw."""
    faults = [] if (said := judge_events.verdict(POSSIBLE)) == TOLD else [f"judge_events of a line that isn't allowed: {said}"]
    for seed, wanted in DRAWN.items():
        draw = judge_events.Draw(seed)
        drawn = [(count, draw.choice(list(range(count)))) for count, _ in wanted]
        if drawn != wanted:
            faults.append(f"judge_events draws {drawn} by the seed {seed}")
    script = {"nodes": 2, "words": 4, "commands": [["open", 0, "x", "y"], ["put", "0>1", "m", ["y"]], ["turn", 0, 3], ["settle", 100]]}
    logs = [judge_events.written(judge_events.log_of(script, seed)) for seed in (5, 5, 6)]
    if logs[0] != logs[1] or logs[0] == logs[2] or any(judge_events.verdict(log) != "allowed" for log in logs):
        faults.append("judge_events --run: the same seed draws two logs, or another one the same, or one isn't allowed")
    return faults


def faults_of_readme() -> list[str]:
    """README shows the example of the library, but for its main; and a script with what it prints, each line with a remark behind it."""
    text = (TOP / "README.md").read_text()
    shown = re.search(r"^```rust\n(.*?)^```$", text, re.M | re.S)
    source = (TOP / "crates/ipcz_example/src/main.rt").read_text()
    faults = [] if shown and shown[1].strip() == source.partition("fn main(")[0].strip() else ["README.md doesn't show crates/ipcz_example but for its main"]
    script = re.search(r'^```\n(\{"nodes"[^\n]*)\n```\n.*?^```\n(.*?)^```$', text, re.M | re.S)
    printed = [re.sub(r" {3,}.*", "", line) for line in script[2].splitlines()] if script else []
    if not script or printed != model.answer(script[1].encode())[0].splitlines():
        faults.append("README.md doesn't show a script with what it prints")
    return faults


def faults_of_cases() -> list[str]:
    """Each case has the model's transcript, and a log that is allowed; and of a script on which a command fails that looks for a text in the transcript, the shortest is
    found, on the fewest nodes."""
    faults = []
    with tempfile.TemporaryDirectory() as folder:
        made = call("make_cases.py", folder, "--times", "1", "--most", "12")
        cases = sorted(pathlib.Path(folder).glob("*.json"))
        if made.returncode not in (0, 1) or not made.stdout.startswith(f"{len(cases)} cases\n") or not cases:
            faults.append(f"make_cases: status {made.returncode}, {made.stdout[:60]!r} {made.stderr[-200:]}")
        faults += [f"make_cases: {case.name}" for case in cases if model.answer(case.read_bytes())[0] != case.with_suffix(".txt").read_text()]
        faults += [f"make_cases: the log of {case.name}" for case in cases if judge.verdict(case.with_suffix(".log").read_bytes()) != "allowed"]
        script = pathlib.Path(folder, "script")
        script.write_text('{"nodes":3,"words":9,"commands":[["open",0,"x","y"],["put","x","a",["2>1"]],["put","0>1","b"],["close","0>1"],["settle",100],["get","1>0"],["get","1>0"],["show"]]}')
        smaller = shrink.shrunk(model.read_json(script.read_text()), lambda it: model.first_fault(it) is None and "get 1>0 PeerClosed" in model.transcript(it)[0])
        # Node 0 sends the close, posts it and rests, and node 1 looks and takes it: five acts.
        if smaller != {"nodes": 2, "words": 1, "commands": [["close", "0>1"], ["settle", 5], ["get", "1>0"]]}:
            faults.append(f"shrink: {smaller}")
        merged = shrink.shrunk(MERGED, lambda it: model.first_fault(it) is None and 'get b 0 [] "m' in model.transcript(it)[0])
        if merged != {"nodes": 1, "words": 1, "commands": [["open", 0, "a", "b"], ["put", "a", "m"], ["settle", 4], ["get", "b"]]}:
            faults.append(f"shrink of nodes: {merged}")
        passing = call("shrink.py", str(script), "--", "true")
        if passing.returncode != 1 or "no script on which the command fails" not in passing.stderr:
            faults.append(f"shrink of what passes: status {passing.returncode}, {passing.stderr[-200:]}")
    return faults


def titles(page: pathlib.Path) -> list[str]:
    """What the parts of a page are called: its headings, and what stands in bold."""
    return [one or other for one, other in re.findall(r"^#+ (.*)$|\*\*(.+?)\.?\*\*", page.read_text(), re.MULTILINE)]


def faults_of_links() -> list[str]:
    pages = [*sorted(TOP.glob("*.md")), *sorted((TOP / "docs").rglob("*.md")), *sorted((TOP / "crates").glob("*/README.md"))]
    code = [path for folder in ("crates", "callers", "include", "tools") for path in (TOP / folder).rglob("*") if "out" not in path.parts and path.is_file()]
    named = {page.stem: titles(page) for page in pages if page.parent.parent != TOP / "crates"}
    faults = []
    for page in pages:
        for target, part in re.findall(r"\]\((?!https?:)([^)#]*)#?([^)]*)\)", page.read_text()):
            at = page.parent / target if target else page
            if not at.exists() or part and part not in [re.sub(r"[^\w -]", "", it.lower()).replace(" ", "-") for it in titles(at)]:
                faults.append(f"{page.name}: a link to {target}#{part}, which isn't there")
    for path in [*pages, *(it for it in code if it.suffix in (".rt", ".antt", ".py", ".h", ".hpp", ".rs", ".c", ".html"))]:
        for name, *parts in NAMED.findall(path.read_text()):
            faults += [f"{path.relative_to(TOP)}: {name}.md has no part {it!r}" for it in parts if it and it not in named.get(name, [])]
    return faults


def faults_of_pages() -> list[str]:
    """A page that is too long, a part that a page says that it has, and a script of the tutorial without a picture."""
    pages = [*sorted(TOP.glob("*.md")), *sorted((TOP / "docs").glob("*.md"))]
    faults = [f"{it.name} has more than {MOST_WORDS} words" for it in pages if it.stem != "PROTOCOL" and len(it.read_text().split()) > MOST_WORDS]
    faults += [f"TUTORIAL.md, script {it.number}, has no picture" for it in try_pages.every_script() if it.page == "TUTORIAL" and not it.picture]
    for page in pages:
        faults += [f"{page.name} has no part {it!r}" for named in OWN.findall(page.read_text()) for it in named if it and it not in titles(page)]
    return faults


def faults_of_quotes() -> list[str]:
    """What a page shows as out of a file and isn't; and code of a page that isn't out of one, but for the example that README shows in part."""
    faults = []
    for page in [TOP / "README.md", *sorted((TOP / "docs").glob("*.md")), *sorted((TOP / "callers").glob("*/README.md"))]:
        text = page.read_text()
        for name, shown in QUOTED.findall(text):
            if not (TOP / name).is_file() or f"\n{shown}" not in "\n" + (TOP / name).read_text():
                faults.append(f"{page.relative_to(TOP)}: what it shows as out of {name} doesn't stand there: {shown.splitlines()[0]}")
        blocks = [it for it in re.finditer(r"^```(?:rust|c|cpp|go|python)$", text, re.MULTILINE) if not text[:it.start()].endswith(" -->\n")]
        if len(blocks) > (page == TOP / "README.md"):
            faults.append(f"{page.relative_to(TOP)} shows code that is out of no file")
    return faults


def faults_of_sources() -> list[str]:
    """A source file that doesn't begin with what it is about."""
    files = [path for path in sorted((TOP / "crates").glob("*/src/**/*.rt")) if not path.read_text().startswith("//!")]
    return [f"{path.relative_to(TOP)} doesn't begin with `//!` and what it is about" for path in files]


def main() -> None:
    asked.parser(__doc__).parse_args()
    tools = sorted(path.stem for path in HERE.glob("*.py") if path.stem not in SHARED)
    faults = [fault for tool in tools for fault in faults_of(tool)]
    faults += faults_of_a_missing_program() + faults_of_ready() + faults_of_the_model() + faults_of_events()
    faults += faults_of_readme() + faults_of_links() + faults_of_pages() + faults_of_quotes() + faults_of_cases() + faults_of_sources()
    faults += try_pages.faults(try_pages.by_model) + tour.faults() + make_reference.faults() + make_theorem.faults() + count_sizes.faults() + trusted.faults()
    if faults:
        sys.exit("\n".join(faults))


if __name__ == "__main__":
    main()
