"""measure.py DIRECTORY FILE: measures DIRECTORY/library and DIRECTORY/second (see calls.c), prints the tables and writes
them to FILE."""

import os
import platform
import random
import re
import subprocess
import sys

SIZES = (1024, 2048)
PAGES = (2, 8, 32)
# Each store, by its page size and its number of pages.
STORES = [(size, pages) for size in SIZES for pages in PAGES]
HELD = 192
FIRST_OF_TIMER = 32768
GROUP = 4
SEED = 1
# The most that a call may cost beside another.
LIMITS = {
    "group write of four": ("plain write", 1.1),
    "write that moves": ("read", 1.6),
    "recovery of one page": ("read", 1.2),
    "recovery of lost wears": ("read beside lost wears", 1.2),
}
STACK_LIMIT = 4096


def word(number):
    """Three bytes, low first, and the number of their 0 bits."""
    return number.to_bytes(3, "little") + bytes([24 - bin(number).count("1")])


def record(address, value):
    return word(address | value << 16)


def wear(count, edition):
    return word(count | edition << 16)


def slots_of(size):
    """How many slots a page of this size has, behind its three header words."""
    return size // 4 - 3


def page(order, records, edition, size):
    content = wear(1 + order % 9, edition) + word(order * 4 + 1) + b"\xff" * 4 + b"".join(records)
    return content + b"\xff" * (size - len(content))


def full_store(size, pages, edition):
    """All pages but one full, 192 addresses held, half of them the handset's and half the timer's, each once to begin with and
    then at random; pages in random places. Gives the pages, the places of the active and of the cleared one, and the addresses
    that the handset holds."""
    dice = random.Random(SEED)
    slots = slots_of(size)
    handsets = dice.sample(range(FIRST_OF_TIMER), HELD // 2)
    pool = handsets + dice.sample(range(FIRST_OF_TIMER, 65535), HELD // 2)
    dice.shuffle(pool)
    named = (pool + [dice.choice(pool) for _ in range((pages - 1) * slots)])[: (pages - 1) * slots]
    records = [record(address, dice.randrange(256)) for address in named]
    places = dice.sample(range(pages), pages)
    image = [b""] * pages
    for order in range(pages - 1):
        image[places[order]] = page(order, records[order * slots : (order + 1) * slots], edition, size)
    image[places[-1]] = wear(3, edition) + b"\xff" * (size - 4)
    return image, places[pages - 2], places[-1], handsets


def address_in(content):
    """The address in a slot in the middle of a page."""
    return int.from_bytes(content[512:514], "little")


def with_free_slots(image, place, count):
    """The last slots of that page blank."""
    content = image[place][: -4 * count] + b"\xff" * (4 * count)
    return [content if other == place else page for other, page in enumerate(image)]


def cases(size, pages):
    """Name, call, image, addresses, and the answer that is expected: its number and, of a call in steps, its steps."""
    plain, grouped = (1, 2) if size == 1024 else (3, 3)
    image, active, cleared, handsets = full_store(size, pages, plain)
    with_groups = full_store(size, pages, grouped)[0]
    address, group = handsets[0], handsets[:GROUP]
    torn = list(image)
    torn[cleared] = image[cleared][:-1] + b"\x00"
    lost = [content if place == active else b"\xff" * size for place, content in enumerate(image)]
    moved = 2 + 2 * HELD + 2 + 3 * (pages - 1)
    return [
        ("read", "read", image, [address], (0, None)),
        ("plain write", "write", with_free_slots(image, active, 1), [address], (0, 2)),
        ("group write of four", "write_group", with_free_slots(with_groups, active, GROUP + 2), group, (0, 2 * GROUP + 4)),
        ("write that moves", "write", image, [address], (0, moved)),
        ("recovery of one page", "recover", torn, [address], (0, 3)),
        ("read beside lost wears", "read", lost, [address_in(image[active])], (0, None)),
        ("recovery of lost wears", "recover", lost, [address], (0, 3 * (pages - 1))),
    ]


def output(words):
    done = subprocess.run(words, capture_output=True, text=True)
    if done.returncode != 0:
        sys.exit(f"{' '.join(words)}: status {done.returncode}\n{done.stderr}")
    return done


def answer_of(done, expected):
    number, other, stack = map(int, done.stdout.split())
    if number != expected[0] or expected[1] not in (None, other):
        sys.exit(f"{done.args}: answered {number} {other}, expected {expected}")
    return stack


def words_of(call, image, size, addresses, times):
    """The arguments of the program calls.c."""
    return [call, image, str(size), ",".join(map(str, addresses)), str(times)]


def collected(program, call, image, size, addresses, expected, times):
    words = ["valgrind", "--tool=callgrind", "--callgrind-out-file=/dev/null", f"--toggle-collect=istrovell_{call}"]
    done = output(words + [program] + words_of(call, image, size, addresses, times))
    answer_of(done, expected)
    return int(re.search(r"Collected : (\d+)", done.stderr).group(1))


def instructions(program, call, image, size, addresses, expected):
    """Of the second of two calls: what only a first call does (a heap set up, say) is not counted."""
    once, twice = (collected(program, call, image, size, addresses, expected, times) for times in (1, 2))
    return twice - once


def written(directory, name, pages):
    path = os.path.join(directory, name)
    with open(path, "wb") as file:
        file.write(b"".join(pages))
    return path


def measure_instructions(directory):
    counts = {}
    for size, pages in STORES:
        for name, call, image, addresses, expected in cases(size, pages):
            path = written(directory, "image", image)
            for which in ("library", "second"):
                program = os.path.join(directory, which)
                counts[name, size, pages, which] = instructions(program, call, path, size, addresses, expected)
            print(f"{name}, {pages} pages of {size:,}", file=sys.stderr)
    return counts


def measure_stack(directory):
    """The most that any of the cases uses, by exported call."""
    used = {}
    for size, pages in STORES:
        found = cases(size, pages)
        image, addresses = found[0][2:4]
        others = [(call, call, image, addresses, (0, None)) for call in ("format", "blank_read", "lookup")]
        for _, call, image, addresses, expected in found + others:
            path = written(directory, "image", image)
            done = output([os.path.join(directory, "library")] + words_of(call, path, size, addresses, "stack"))
            used[call, size, pages] = max(used.get((call, size, pages), 0), answer_of(done, expected))
    return used


def table(head, rows):
    lines = ["| " + " | ".join(head) + " |", "|---" + "|---:" * (len(head) - 1) + "|"]
    lines += ["| " + " | ".join(row) + " |" for row in rows]
    return "\n".join(lines)


def instruction_table(counts, size):
    rows = []
    for name in dict.fromkeys(key[0] for key in counts):
        for pages in PAGES:
            library, second = counts[name, size, pages, "library"], counts[name, size, pages, "second"]
            rows.append([name, str(pages), f"{library:,}", f"{second:,}", f"{second / library:.2f}"])
    return table([f"call, pages of {size:,} bytes", "pages", "library", "second", "second / library"], rows)


def store_heads():
    return [f"{pages} x {size:,}" for size, pages in STORES]


def ratio_table(counts):
    rows = []
    for name, (other, limit) in LIMITS.items():
        ratios = [counts[name, *store, "library"] / counts[other, *store, "library"] for store in STORES]
        kept = "yes" if max(ratios) <= limit else "NO"
        rows.append([f"{name} / {other}", *(f"{ratio:.2f}" for ratio in ratios), f"{limit}", kept])
    return table(["ratio", *store_heads(), "at most", "kept"], rows)


def stack_table(used):
    rows = []
    for call in ("format", "recover", "write", "write_group", "read", "blank_read", "lookup"):
        depths = [used[call, *store] for store in STORES]
        kept = "yes" if max(depths) <= STACK_LIMIT else "NO"
        rows.append([f"`istrovell_{call}`", *(f"{depth:,}" for depth in depths), f"{STACK_LIMIT:,}", kept])
    return table(["call", *store_heads(), "at most", "kept"], rows)


def version(*words):
    return output(list(words)).stdout.splitlines()[0].strip()


def report(counts, used):
    machine = platform.machine().replace("_", "-")
    tools = ", ".join([version("rt", "version"), version("rustc", "--version"), version("valgrind", "--version")])
    return f"""# Benchmarks

Made by `bench/run`, which writes this page. {machine}; {tools}.

## Instructions per call

Counted by callgrind inside the exported function, in a second call, so that nothing is counted that only a first call
does. {HELD} addresses are held, half of them the handset's and half the glaze timer's, their records in random order (seed
{SEED}); all pages but one are full, and the last slot is free for the plain write, the last {GROUP + 2} for the group write, which is
of held addresses. Reads and writes are by the owner of the address. Pages of 1,024 bytes are of the second edition for the
group write, and of the first for all other calls. Where wears are lost, every page but the active one is blank and so without
a wear. `second` is the second implementation of `outside/`, in Rust, built for release: it is written to be clear, and not to
be fast.

{instruction_table(counts, 1024)}

{instruction_table(counts, 2048)}

## What a change costs beside another call

{ratio_table(counts)}

## Bytes of stack

Painted before the call; the return address is counted, and the seventh argument of both writes, which x86-64 has on the
stack too. `outside/tests/stack.rs` holds each call to the limit on many more images.

{stack_table(used)}
"""


def main():
    directory, path = sys.argv[1:]
    text = report(measure_instructions(directory), measure_stack(directory))
    print(text)
    with open(path, "w") as file:
        file.write(text)


if __name__ == "__main__":
    main()
