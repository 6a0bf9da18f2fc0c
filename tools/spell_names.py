#!/usr/bin/env python3
"""tools/spell_names.py: spells this repository's own definitions and lemmas as today's Rattle spells words, `wrong_size` for
`wrong-size`. It was run once, after port.py, and is kept so that the port can be followed: on a folder that port.py has turned it
does the same again. It names what falls together; with --dry behind the folder it writes nothing."""

import os
import re
import sys

ROOT = sys.argv[1] if len(sys.argv) > 1 else os.path.dirname(os.path.dirname(os.path.abspath(__file__)))
NAME = re.compile(r"(?<![\w'\u25cc-])([A-Za-z][\w']*(?:-[\w']+)+)")
USE = re.compile(r"^\s*(?:pub )?(?:ghost )?use ([^;{]*?)(?:\.\{([^}]*)\})?(?: as \S+?)?;?$", re.M)
DECLARED = re.compile(r"^(?:(?:abbrev|unfoldable|pub|instance|ruleset)\s+)*([A-Za-z][\w']*(?:-[\w']+)+)\s*:")
MADE = ("invariant-", "decreases-", "Need-", "loop-")


def texts(*kinds):
    for folder, dirs, files in os.walk(os.path.join(ROOT, "crates")):
        dirs[:] = sorted(d for d in dirs if d != "out")
        for f in sorted(files):
            if f.endswith(kinds):
                yield os.path.join(folder, f)


def own_crates():
    return set(os.listdir(os.path.join(ROOT, "crates")))


OWN = own_crates()


def is_own(module):
    parts = module.split(".")
    if parts[0] != "Rattle" or len(parts) < 3 or parts[1] not in OWN:
        return False
    return not (parts[2] == "proofs" and parts[-1] in ("Tie", "Goals", "Given", "Code", "Met"))


def split(line, path):
    """The code of a line, and its comment."""
    mark = "//" if path.endswith(".rt") else "--"
    at = line.find(mark) if path.endswith(".rt") else (line.find("--") if re.match(r"\s*--", line) else -1)
    return (line, "") if at < 0 else (line[:at], line[at:])


def scan():
    """The names that are declared here, those of other libraries, and each plain name that stands anywhere."""
    own, foreign, plain = set(), set(), set()
    for path in texts(".antt", ".rt"):
        with open(path, encoding="utf-8") as f:
            text = f.read()
        for m in USE.finditer(text):
            names = set(NAME.findall(m.group(2) or ""))
            if not is_own(m.group(1)):
                foreign |= names
        for line in text.split("\n"):
            code, _ = split(line, path)
            m = DECLARED.match(code.strip() if path.endswith(".antt") else "")
            if m:
                own.add(m.group(1))
            plain |= set(re.findall(r"(?<![\w'.-])([A-Za-z]\w*_\w*)(?![\w-])", code))
    return own, foreign, plain


def spelled(name):
    return name.replace("-", "_")


def turn_code(code, foreign, own):
    def one(m):
        name = m.group(1)
        before = code[: m.start()]
        if name in foreign or name.startswith(MADE):
            return name
        if re.search(r"(?:tie|goal|goals)\.$", before):
            return name
        if before.endswith(".") and name not in own:
            return name
        return spelled(name)

    return NAME.sub(one, code)


def turn_words(text, own):
    """In a comment or a page only what stands between backticks is a name."""
    return re.sub(r"`[^`\n]*`", lambda m: NAME.sub(lambda n: spelled(n.group(1)) if n.group(1) in own else n.group(1), m.group(0)), text)


def main():
    own, foreign, plain = scan()
    both = sorted(n for n in own & foreign)
    for n in both:
        print("look:", n, "is declared here and in a library")
    fall = sorted(n for n in own if spelled(n) in plain)
    for n in fall:
        print("look:", n, "and", spelled(n))
    if "--dry" in sys.argv:
        return
    for path in texts(".antt", ".rt"):
        with open(path, encoding="utf-8") as f:
            text = f.read()
        lines = []
        for line in text.split("\n"):
            code, comment = split(line, path)
            if path.endswith(".rt") and '"' in code:
                lines.append(line)
                continue
            lines.append(turn_code(code, foreign, own) + turn_words(comment, own))
        new = "\n".join(lines)
        if new != text:
            with open(path, "w", encoding="utf-8") as f:
                f.write(new)


if __name__ == "__main__":
    main()
