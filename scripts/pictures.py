#!/usr/bin/env python3
"""Makes the pictures of the pages, in docs/images.

  scripts/pictures.py [NAME ..]

It runs the commands of the tutorials (examples/pages.py), opens the marker pages that they write in a headless Chromium, and writes what it
shows as PNG. Two pictures show the report of a tutorial in KLayout, and one a check by the package for KLayout. It needs the built programs, a
Chromium and for these three KLayout and Xvfb (apt-get install -y --no-install-recommends chromium klayout xvfb). A picture must have less than 150 KB.
"""
import os
import shutil
import subprocess
import sys
import tempfile

HERE = os.path.dirname(os.path.abspath(__file__))
TOP = os.path.dirname(HERE)
IMAGES = f"{TOP}/docs/images"
sys.dont_write_bytecode = True
sys.path[:0] = [f"{TOP}/examples", f"{TOP}/clients/python/tests"]

import browser  # noqa: E402
import pages  # noqa: E402

SIZE = (1200, 640)
LARGEST = 150_000
FIRM, SHUTTLE = "docs/tutorial-firm.md", "docs/tutorial-shuttle.md"
# The folder that each tutorial makes.
FOLDERS = {FIRM: "try-firm", SHUTTLE: "try-shuttle"}
# For each picture the tutorial, the file that it writes, and the key of the marker that is selected there. Of a report in KLayout, which window.
PICTURES = {
    "amp.png": (FIRM, "amp.html", ""),
    "amp-via.png": (FIRM, "amp.html", "m1.via:H:0:1200:1210:6000:6100"),
    "amp-klayout.png": (FIRM, "amp.lyrdb", "window"),
    "amp-browser.png": (FIRM, "amp.lyrdb", "browser"),
    "wafer.png": (SHUTTLE, "wafer.html", ""),
    "gamma.png": (SHUTTLE, "gamma.html", ""),
    "signed.png": (SHUTTLE, "signed.html", ""),
    "waiver.png": (SHUTTLE, "signed.html", "m1.space:V:0:24800:24910:1300:2200"),
}
CHECKED = "klayout-check.png"  # by the package for KLayout


def draw(source, target, key):
    """Writes what a browser shows of a page."""
    with browser.Browser(SIZE) as tab:
        tab.show(source + (f"#{key}" if key else ""))
        tab.picture(target)


def draw_in_klayout(source, target, which):
    """Writes what a window of KLayout shows of a report; the layout has the report's name."""
    with tempfile.TemporaryDirectory(prefix="mpw-klayout-") as room:
        words = {"layout": source.replace(".lyrdb", ".gds"), "report": source}
        words.update({word: f"{room}/{word}.png" for word in ("window", "browser")})
        given = [part for word, path in words.items() for part in ("-rd", f"{word}={path}")]
        environment = {**os.environ, "QT_QPA_PLATFORM": "offscreen"}
        subprocess.run(["klayout", "-rx", *given, "-rm", f"{HERE}/klayout_window.py"], env=environment, timeout=300, check=False)
        shutil.copy(words[which], target)


def draw_check(target):
    """Writes what KLayout shows of an example that the package for KLayout checks."""
    words = [f"{TOP}/integrations/test", "test_klayout.Windows.test_picture"]
    subprocess.run(words, env={**os.environ, "MPW_PICTURE": target}, timeout=300, check=True)


def make(folder, name):
    """Makes a picture of the files in this folder. Returns a fault, or nothing."""
    page, source, key = PICTURES[name]
    target = f"{IMAGES}/{name}"
    (draw_in_klayout if source.endswith(".lyrdb") else draw)(f"{folder}/{FOLDERS[page]}/{source}", target, key)
    return weighed(name)


def weighed(name):
    """Prints how large a picture is. Returns a fault if it is too large."""
    size = os.path.getsize(f"{IMAGES}/{name}")
    print(f"{name}: {size} bytes", flush=True)
    return f"{name} has {size} bytes, and may have {LARGEST}" if size >= LARGEST else None


def main(names):
    names = names or [*PICTURES, CHECKED]
    known = [name for name in names if name in PICTURES]
    is_drawn = any(PICTURES[name][1].endswith(".html") for name in known)
    if len(known) + names.count(CHECKED) != len(names) or is_drawn and browser.installed() is None:
        print(__doc__, file=sys.stderr)
        return 2
    os.makedirs(IMAGES, exist_ok=True)
    faults = []
    if CHECKED in names:
        draw_check(f"{IMAGES}/{CHECKED}")
        faults.append(weighed(CHECKED))
    for page in dict.fromkeys(PICTURES[name][0] for name in known):
        with tempfile.TemporaryDirectory(prefix="mpw-pictures-") as folder:
            pages.run_page(page, folder)
            faults += [make(folder, name) for name in known if PICTURES[name][0] == page]
    for fault in filter(None, faults):
        print(fault, file=sys.stderr)
    return 1 if any(faults) else 0


if __name__ == "__main__":
    sys.exit(main(sys.argv[1:]))
