#!/usr/bin/env python3
"""Counts the places of docs/DESIGN-PASS.md in src/: python3 tools/places.py [COMMIT] [--lines].

Without a commit the files as they stand are read. --lines prints each place that is found."""
import re
import subprocess
import sys

POINTS = [
    ("1 own enums like Option or Result", r"^ +(?:Nothing|Wrong|Missing|Absent)\b,?(?:\(|$)|^ +Refuse\("),
    ("1 a flag with a value beside it", r"^ +held: bool,$"),
    ("1 refusals by number", r"^(?:pub )?const (?!BLANK)[A-Z_]+: u8 = (?:\d|11);|pub number: u8|[(] ?number: u8|, number: u8|fn (?:pages_number|number_of|first_tests|format|istrovell_format)\b.*-> u8"),
    ("1 a number for nothing, or for a kind", r"//.*(?:\b0 if |else 0\b|any other 0|0 for any|says 193|193 says|`other` for a|0 says|these numbers:)|kind: u(?:8|32)\b|edition: u8\b|\b(?:timer|marks): bool\b"),
    ("2 twins", r"fn (?:insert_address|insert_value|ranks_of|spares_of|rank_of|spare_of|unclean|others|refused_lookup|put_pages|put_order|put_broken)\b|fn refused\(number"),
    ("3 loops that count by hand", r"^ +(?:'\w+: )?while "),
    ("3 loops written as recursion", r"fn (?:line_up|put_number)\b"),
    ("4 conversion by hand", r"% 256|/ 256|/ 65536|256 \*|\bput_byte\(out, \w+, 48|\(n % 10\) as u8"),
    ("4 equality, order, copying and sums by hand", r"!= 255\b|fn (?:greater|and|of)\((?:a: u16|self, other|half)|== 65535|rest - 3|return self\.(?:first|last)"),
    ("5 a fact in contracts", r"(?:requires|ensures).*\b(?:Lawful\w*|Holds|Become|Lent)\b|→ (?:Holds|Become)\b"),
    ("5 parameters that travel together", r"\baddresses: [&\[]|^ +addresses,$|form: Form,.*left: u16|^ +left: u16,$|[(, ]marks: bool[,)]"),
    ("6 parallel arrays, buffers with a length", r"\bvalues: [&\[]|spares: [&\[]|out: &mut \[u8\], at: usize|^ +out: &mut \[u8\],$|line: &?(?:mut )?\[u8; PAGES_MAX\]"),
    ("6 sorted lists searched by hand", r"fn place\("),
    ("7 switches and tables of what to do", r"picks: \[bool|-> \[bool;"),
]


def source(commit):
    if commit:
        names = subprocess.run(["git", "ls-tree", "-r", "--name-only", commit, "crates"], capture_output=True, text=True, check=True).stdout.split()
        return {n: subprocess.run(["git", "show", f"{commit}:{n}"], capture_output=True, text=True, check=True).stdout for n in names if n.endswith(".rt")}
    names = subprocess.run(["git", "ls-files", "crates"], capture_output=True, text=True, check=True).stdout.split()
    return {n: open(n).read() for n in names if n.endswith(".rt")}


def main():
    words = sys.argv[1:]
    lines = "--lines" in words
    commit = next((w for w in words if not w.startswith("--")), None)
    files = source(commit)
    for name, pattern in POINTS:
        found = [(f, k, line) for f, text in sorted(files.items()) for k, line in enumerate(text.split("\n"), 1)
                 if re.search(pattern, line) and not line.startswith("ghost use") and not (line.lstrip().startswith("//") and not pattern.startswith("//"))]
        print(f"{len(found):4}  {name}")
        if lines:
            for f, k, line in found:
                print(f"        {f}:{k}: {line.strip()[:110]}")


main()
