"""What page/bundle takes of scripts, and what it refuses."""
import os
import shutil
import subprocess
import tempfile

from driver import TOP, check

# A script, what is put before its text and what is replaced in it, and what is said of that.
REFUSED = [
    ("elements", "import * as words from './words.js';\n", None, "elements.js has another form"),
    ("elements", "export default 1;\n", None, "elements.js has another form"),
    ("elements", "import {hex} from './words.js';\n", None, "imports hex and does not use it"),
    ("elements", "import {decode} from './decode.js';\nexport const again = decode;\n", None,
     "scripts import one another"),
    ("words", "", ("export const count", "const count"), "words.js exports no count"),
    ("words", "export const idle = 1;\n", None, "nothing uses words.js: idle"),
]


def bundled(room, name="main", before="", change=None):
    """What bundle ends with and says of the scripts, one of them changed."""
    shutil.copytree(f"{TOP}/page/src", f"{room}/src")
    shutil.copy(f"{TOP}/page/bundle", room)
    with open(f"{room}/src/{name}.js", encoding="utf-8") as script:
        text = script.read()
    with open(f"{room}/src/{name}.js", "w", encoding="utf-8") as script:
        script.write(before + (text.replace(*change) if change else text))
    words = [f"{room}/bundle", f"{room}/site", f"{room}/bundle"]
    return subprocess.run(words, capture_output=True, text=True)


def try_bundling():
    with tempfile.TemporaryDirectory() as room:
        ran = bundled(room)
        check("the scripts are bundled", ran.returncode == 0, ran.stderr)
        made = ["index.html", "page.css", "page.js"]
        check("three files are made", sorted(os.listdir(f"{room}/site")) == made)
    for name, before, change, said in REFUSED:
        with tempfile.TemporaryDirectory() as room:
            ran = bundled(room, name, before, change)
            check(f"refused: {said}", ran.returncode == 1 and said in ran.stderr, ran.stderr)
