"""Opens stored pictures in tools/view.html by a headless Chromium, and prints what it shows that it must not; nothing if all is well.

    python3 tools/try_view.py                  looks for chromium
    python3 tools/try_view.py --shot FILE.png  stores a screenshot, too

By hand, and not in the gate: it needs the package `chromium`.
"""
import functools
import html
import http.server
import json
import re
import shutil
import subprocess
import sys
import tempfile
import threading
import time
from pathlib import Path

import asked
from asked import TOP

# a picture, what to do with it, and what must be so of what is shown
VIEWS = [
    ("one_bypass", "", {"rows": 47, "messages": 5, "lit": 0, "strips": 1, "marked": 0, "now": 0}),
    ("one_bypass", "row=3", {"lit": 1, "parts": [4], "now": 3, "marked": 4}),
    ("one_bypass", "row=3&steps=1", {"lit": 1, "now": 4}),
    ("one_bypass", "row=27", {"lit": 2, "now": 27}),
    ("one_bypass", "search=C2", {"rows": 47, "lit": 0, "marked": 2}),
    ("one_bypass", "search=P0.0 C1", {"lit": 4}),
    ("one_bypass", "fold", {"strips": 7}),
    ("one_bypass", "fold&row=9&steps=1", {"now": 11}),
    ("one_bypass", "search=n0r2", {"lit": 3}),
    ("one_bypass", "search=pair1", {"lit": 4}),
    ("one_bypass", "", {"heads": "r0 r2 r0 r1"}),
    ("lost_flush", "search=flush", {"lit": 1, "marked": 0}),
    ("lost_flush", "row=44", {"lit": 1, "now": 44}),
    ("two_bypasses_in_a_chain", "row=79", {"rows": 79, "now": 79, "lit": 0}),
]


# The long picture: so many copies of a stored one, one below the other, what to do with it, and the seconds that it may take, most of which
# Chromium takes to begin.
COPIES = 43
LONG_VIEWS = [
    ("row=900&steps=20", {"rows": 2021, "messages": 215, "now": 920}),
    ("search=C2", {"rows": 2021, "marked": 86}),
    ("fold&row=900&steps=20", {"rows": 2021, "strips": 259}),
]
LONG_SECONDS = 20


class Quiet(http.server.SimpleHTTPRequestHandler):
    def log_message(self, *given: object) -> None:
        pass


def shifted(body: str, lines: int, down: int) -> str:
    """The parts of a picture that stand further down, and say lines that many further on."""
    for much, pattern in ((lines, r'( id="l| data-last="| data-message="|\bline )(\d+)'), (down, r'( y[12]?="|translate\(0 |[ML]\d+ |V(?=\d))(\d+)')):
        body = re.sub(pattern, lambda found, much=much: found[1] + str(int(found[2]) + much), body)
    return body


def long_picture(text: str, copies: int) -> str:
    """A picture of so many copies of one."""
    height, lines = int(re.search(r'height="(\d+)"', text)[1]), max(map(int, re.findall(r'data-last="(\d+)"', text)))
    head, body = re.match(r"(.*?</style>)(.*)</svg>", text, re.S).groups()
    head = head.replace(f'height="{height}"', f'height="{height * copies}"', 1).replace(f" {height}\"", f' {height * copies}"', 1)
    return head + "".join(shifted(body, lines * n, height * n) for n in range(copies)) + "</svg>"


def shown(chromium: str, address: str, *more: str) -> str:
    command = [chromium, "--headless", "--no-sandbox", "--disable-gpu", "--hide-scrollbars", "--virtual-time-budget=5000", *more, address]
    return subprocess.run(command, stdout=subprocess.PIPE, stderr=subprocess.DEVNULL, timeout=120, check=True).stdout.decode()


def differences(chromium: str, address: str, what: str, wanted: dict[str, object]) -> list[str]:
    """What is otherwise than wanted in a view."""
    page = shown(chromium, f"{address}#{what.replace(' ', '%20')}", "--dump-dom")
    found = re.search(r'data-state="([^"]*)"', page)
    said = json.loads(html.unescape(found[1])) if found else {}
    name = address.rpartition("/")[2]
    return [f"{name} #{what}: {key} is {said.get(key)} for {value}; {said.get('said')}" for key, value in wanted.items() if said.get(key) != value]


def long_differences(chromium: str, host: str, folder: Path) -> list[str]:
    """Likewise in the views of the long picture; and what took too long."""
    (folder / "long.svg").write_text(long_picture((TOP / "docs/pictures/one_bypass.svg").read_text(), COPIES))
    shutil.copy(TOP / "tools/view.html", folder)
    wrong = []
    for what, wanted in LONG_VIEWS:
        begun = time.monotonic()
        try:
            wrong += differences(chromium, f"{host}/view.html?/long.svg", what, wanted)
        except subprocess.TimeoutExpired:
            wrong.append(f"long.svg #{what}: no end")
        took = time.monotonic() - begun
        if took > LONG_SECONDS:
            wrong.append(f"long.svg #{what}: {took:.0f} seconds for {LONG_SECONDS}")
    return wrong


def host_of(folder: Path) -> str:
    server = http.server.ThreadingHTTPServer(("127.0.0.1", 0), functools.partial(Quiet, directory=folder))
    threading.Thread(target=server.serve_forever, daemon=True).start()
    return f"http://127.0.0.1:{server.server_port}"


def main() -> None:
    parser = asked.parser(__doc__)
    parser.add_argument("--shot", type=Path, metavar="FILE.png", help="store a screenshot")
    shot = parser.parse_args().shot
    chromium = shutil.which("chromium") or shutil.which("chromium-browser")
    if not chromium:
        sys.exit("no chromium is there")
    view = f"{host_of(TOP)}/tools/view.html?/docs/pictures/"
    wrong = [it for picture, what, wanted in VIEWS for it in differences(chromium, f"{view}{picture}.svg", what, wanted)]
    with tempfile.TemporaryDirectory() as folder:
        wrong += long_differences(chromium, host_of(Path(folder)), Path(folder))
    if shot:
        shown(chromium, f"{view}one_bypass.svg#fold&row=19", "--window-size=1310,760", "--force-device-scale-factor=0.7", f"--screenshot={shot.resolve()}")
    if wrong:
        sys.exit("\n".join(wrong))


if __name__ == "__main__":
    main()
