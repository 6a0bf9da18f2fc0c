#!/usr/bin/env python3
"""tools/spell_pages.py COMMIT: spells the names of definitions and lemmas in pages, comments and scripts as the crates now do. COMMIT is
the last one in the older spelling: what was declared there with a hyphen is a name, and every other word with one is left alone.
Only what stands between backticks is a name, but for tests/papers, which has them in its own lists."""

import os
import re
import subprocess
import sys

ROOT = os.path.dirname(os.path.dirname(os.path.abspath(__file__)))
NAME = re.compile(r"(?<![\w'./-])([A-Za-z][\w']*(?:-[\w'₀-₉]+)+)")
DECLARED = re.compile(r"^\s*(?:(?:abbrev|unfoldable|pub|instance|ruleset)\s+)*([A-Za-z][\w']*(?:-[\w'₀-₉]+)+)\s*:", re.M)


def git(*words):
    return subprocess.run(["git", *words], cwd=ROOT, capture_output=True, text=True, check=True).stdout


def main():
    commit = sys.argv[1]
    own = set()
    for path in git("ls-tree", "-r", "--name-only", commit, "crates").split("\n"):
        if path.endswith(".antt") and "/out/" not in path:
            own |= set(DECLARED.findall(git("show", f"{commit}:{path}")))
    turn = lambda text: NAME.sub(lambda m: m.group(1).replace("-", "_") if m.group(1) in own else m.group(1), text)
    for path in git("ls-files").split("\n"):
        if not re.search(r"\.(md|rs|py|h|c|rt|antt)$|^(README|list|tests/|bench/)", path) or path.startswith(("docs/PORT.md", "tools/")):
            continue
        full = os.path.join(ROOT, path)
        with open(full, encoding="utf-8", errors="surrogateescape") as file:
            text = file.read()
        new = re.sub(r"`[^`\n]*`", lambda m: turn(m.group(0)), text)
        if new != text:
            with open(full, "w", encoding="utf-8", errors="surrogateescape") as file:
                file.write(new)
            print(path)


if __name__ == "__main__":
    main()
