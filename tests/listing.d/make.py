#!/usr/bin/env python3
"""Images for tests/listing, and their listings by a small model written from the rules in words.

make.py NAME     write that image to standard output
make.py --store  write NAME.txt for each image, and NAME.bin for each of at most 4,096 bytes
"""
import os
import sys

BLANK = b"\xff" * 4


def checked(a, b, c):
    return bytes([a, b, c, sum(8 - bin(x).count("1") for x in (a, b, c))])


def number(n):
    return checked(n & 255, n >> 8 & 255, n >> 16)


def wear(n):
    return number(n | 1 << 16)


def record(address, value):
    return number(address | value << 16)


def opens(n):
    return record(65535, n)


def closes(n):
    return record(65535, 128 + n)


def page(*words):
    return b"".join(words).ljust(1024, b"\xff")


def plain(order, records, n=1):
    return page(wear(n), number(order * 4 + 1), BLANK, *records)


def moved(order, records, n=1):
    return page(wear(n), number(order * 4 + 2), number(order * 4 + 3), *records)


def cleared(n=1):
    return page(wear(n))


def second(image):
    """The same with the wear words of edition 2."""
    pages = [image[k : k + 1024] for k in range(0, len(image), 1024)]
    return b"".join(checked(p[0], p[1], 2) + p[4:] for p in pages)


EXAMPLE_12 = plain(0, [record(5, 65), record(7, 200), record(5, 66)]) + cleared()
TOP = 4194303
HALF = bytes([5, 0, 255, 255])
SPOILED = bytes([5, 0, 0x43, 0x14])
NO_ADDRESS = bytes([255, 255, 255, 0])
BROKEN = [HALF, SPOILED, NO_ADDRESS]
ONE_BYTE_255 = [bytes([5, 0, 255, 0x14]), bytes([5, 0, 0x43, 255])]  # of the second half, so that they are spoiled


def worn():
    """32 pages: the newest of the top order, older ones of falling order, an old move's pages, and pages of no use.
    Used pages and others have broken words, and a used one has a half-written done word."""
    pages = [cleared(3), plain(5, [record(9, 9)] + BROKEN)]
    pages += [moved(TOP - 4, [record(300 * k, k) for k in range(188)] + [HALF, HALF, BLANK, HALF] + ONE_BYTE_255)]
    pages += [plain(TOP - 2, [record(300 * (k % 188), 255 - k % 256) for k in range(253)])]
    pages += [plain(TOP, [record(65534, 255), SPOILED, NO_ADDRESS, BLANK, record(0, 0), HALF, record(1, 10), HALF])]
    pages += [page(wear(9), number(TOP * 4 + 2), HALF, record(2, 2), *BROKEN), page(b"\0" * 12, *BROKEN), page()]
    late = [record(10, 100), SPOILED, record(10, 99), HALF, record(100, 10)]
    pages += [page(wear(1), number((TOP - 1) * 4 + 1), HALF, *late)]
    return b"".join(pages + [cleared(k) for k in range(32 - len(pages))])


ABANDONS = record(65535, 0)


def row(text, k):
    """A row of X12: a and b are records of the addresses k and k + 1."""
    words = {"a": record(k, 65), "b": record(k + 1, 66), "sp": SPOILED, "hw": HALF, "--": BLANK, "ab": ABANDONS}
    words.update(("o%d" % n, opens(n)) for n in range(1, 9))
    words.update(("c%d" % n, closes(n)) for n in range(1, 9))
    return [words[name] for name in text.split()]


def groups():
    """Groups that count and groups that do not, one behind the other: a mark that abandons ends what a row leaves open. Behind
    them are values that no mark has; and each used page ends in an open group, the older one being full."""
    rows = ["o2 a b c2", "o1 a c1 b", "o2 a b c1", "o1 a b c1", "o2 a c2", "o2 a sp c2", "o2 a -- c2", "o2 a b sp c2"]
    rows += ["o2 a hw c2", "o2 a ab b", "o2 a o1 b c1", "o2 a o2 b c2", "c2 a ab b", "o2 a b sp", "o8 a b b b b b b b c8"]
    words = [word for k, text in enumerate(rows) for word in row(text, 100 + 2 * k) + [ABANDONS]]
    words += [record(65535, value) for value in (9, 127, 128, 137, 255)]
    filled = [record(300, k % 256) for k in range(253 - len(words) - 3)]
    late = row("o2 a b c2", 100) + [record(300, 7)] + row("o3 a b sp", 400)
    return plain(0, words + filled + row("o2 a b", 500)) + plain(1, late) + cleared()


def two_editions():
    """The open page of lowest index is of edition 2, and the pages of edition 1 are bad: an open one and a cleared one."""
    used = second(plain(0, row("o2 a b c2", 5)))
    return cleared() + used + plain(1, [record(5, 1), SPOILED]) + second(cleared())


def larger(slots):
    """Two pages of 2,048 bytes, the first with these slots: the listing takes them for four of 1,024."""
    used = b"".join([checked(1, 0, 3), number(1), BLANK] + slots).ljust(2048, b"\xff")
    return used + checked(1, 0, 3).ljust(2048, b"\xff")


# Behind 253 slots the records of 1 and then 0 at address 1 stand where page 1 of 1,024 bytes has its header.
PASSING = [record(5, k % 256) for k in range(253)] + [record(1, 1), record(1, 0), record(7, 7), record(9, 9)]

IMAGES = {
    "example_12": EXAMPLE_12,
    "power_cut": EXAMPLE_12[:24] + record(7, 201)[:2] + EXAMPLE_12[26:],
    "nothing_held": plain(0, []) + cleared(),
    "broken_words": plain(0, BROKEN) + cleared(),
    "broken_words_not_used": plain(0, BROKEN) + moved(1, []),
    "broken_words_only": b"".join(plain(k, [BROKEN[k % 2]] * 253) for k in range(31)) + cleared(),
    "worn": worn(),
    "size_empty": b"",
    "size_one_page": EXAMPLE_12[:1024],
    "size_cut_in_mid_page": EXAMPLE_12[:1500],
    "size_one_byte_over": worn() + b"\xff",
    "size_33_pages": worn() + cleared(),
    "size_1000_pages": worn() + cleared() * 968,
    "no_store": b"\xff" * 2048,
    "no_store_receiving": page(wear(1), number(2), BLANK, record(1, 1)) + cleared(),
    "damaged_one_order_twice": plain(0, [record(1, 1)]) + plain(0, [record(1, 2)]) + cleared(),
    "damaged_every_page_used": plain(0, [record(1, 1)]) + plain(1, [record(1, 2)]),
    "damaged_193_held": plain(0, [record(k, 1) for k in range(193)]) + cleared(),
    "held_192": plain(0, [record(k, k) for k in range(192)]) + cleared(),
    "groups": second(groups()),
    "groups_in_edition_1": groups(),
    "two_editions": two_editions(),
    "held_192_beside_an_open_group": second(plain(0, [record(k, k) for k in range(192)] + row("o1 a", 192)) + cleared()),
    "damaged_193_by_a_group": second(plain(0, [record(k, k) for k in range(192)] + row("o1 a c1", 192)) + cleared()),
    "larger_chip": larger([record(5, 65)]),
    "larger_chip_passing_for_a_store": larger(PASSING),
    "damaged_193_in_edition_1": plain(0, [record(k, k) for k in range(192)] + row("o1 a", 192)) + cleared(),
}


def sound(w):
    return checked(*w[:3]) == w


def state(p, edition):
    """("cleared",), ("open", kind, order) or None"""
    w, o, d = p[0:4], p[4:8], p[8:12]
    if not (sound(w) and w[2] == edition):
        return None
    if p[4:] == b"\xff" * 1020:
        return ("cleared",)
    n = int.from_bytes(o[:3], "little")
    if sound(o) and n % 4 == 1:
        return ("open", 1, n // 4)
    if sound(o) and n % 4 == 2 and d == number(n + 1):
        return ("open", 2, n // 4)
    return None


def is_open(s):
    return s is not None and s[0] == "open"


def kind(w, edition):
    """What stands in a slot by itself."""
    if sound(w) and w[:2] != b"\xff\xff":
        return "record"
    if sound(w) and edition == 2 and 1 <= w[2] <= 8:
        return "opens"
    if sound(w) and edition == 2 and (w[2] == 0 or 129 <= w[2] <= 136):
        return "ends"
    if w == BLANK:
        return "blank"
    return "half" if w[2:] == b"\xff\xff" else "spoiled"


def look(p, edition):
    """The records of a page that count, and how many slots are half-written and spoiled."""
    counted, half, spoiled, group = [], 0, 0, None
    for k in range(12, 1024, 4):
        w = p[k : k + 4]
        what = kind(w, edition)
        if what == "opens" and group is not None:
            what = "spoiled"
        half += what == "half"
        spoiled += what == "spoiled"
        setting = (int.from_bytes(w[:2], "little"), w[2]) if what == "record" else None
        if what == "opens":
            group = (w[2], [])
        elif what == "ends" and group is not None:
            n, inside = group
            if w[2] == 128 + n and len(inside) == n and None not in inside:
                counted += inside
            group = None
        elif group is not None:
            group[1].append(setting)
        elif what == "record":
            counted.append(setting)
    return counted, half, spoiled


def listing(image):
    if len(image) % 1024 or not 2 <= len(image) // 1024 <= 32:
        return "refused 1\n"
    pages = [image[k : k + 1024] for k in range(0, len(image), 1024)]
    edition = next((e for p in pages for e in (1, 2) if is_open(state(p, e))), 1)
    states = [state(p, edition) for p in pages]
    opened = [(s[2], s[1], p) for s, p in zip(states, pages) if is_open(s)]
    if not opened:
        return "refused 2\n"
    base = max([o for o, kind, _ in opened if kind == 2], default=0)
    used = sorted((o, p) for o, _, p in opened if o >= base)
    values, half, spoiled = {}, 0, 0
    for _, p in used:
        counted, half_here, spoiled_here = look(p, edition)
        values.update(counted)
        half += half_here
        spoiled += spoiled_here
    orders = [o for o, _ in used]
    if len(set(orders)) < len(orders) or len(used) == len(pages) or len(values) > 192:
        return "refused 3\n"
    first = (len(pages), len(used), states.count(("cleared",)), max(orders), len(values), half, spoiled)
    lines = ["pages %d used %d cleared %d order %d held %d half %d spoiled %d\n" % first]
    return "".join(lines + ["%d %d\n" % (a, values[a]) for a in sorted(values)])


def store():
    here = os.path.dirname(os.path.abspath(__file__))
    for name, image in IMAGES.items():
        with open(os.path.join(here, name + ".txt"), "w") as f:
            f.write(listing(image))
        if len(image) <= 4096:
            with open(os.path.join(here, name + ".bin"), "wb") as f:
                f.write(image)


if __name__ == "__main__":
    if sys.argv[1] == "--store":
        store()
    else:
        sys.stdout.buffer.write(IMAGES[sys.argv[1]])
