#!/usr/bin/env python3
"""Makes the cases of crates/text_check/data from documents 01 and 02: texts to read and tables to write.

A case is a line of nine numbers, in columns of seven and the last of eleven, and a label: where the next case starts, where the
label ends, where the bytes given start and how many they are, the length of the text, the byte FILL, WHAT, PLACE and VALUE. Behind
it stand the bytes given, unless the last case has the same, and a line feed. The text is the bytes given, and after them as many bytes
FILL as make its length. WHAT, PLACE and VALUE say what is done to the tables or to the text.
"""
import os
import re

DATA = os.path.join(os.path.dirname(os.path.abspath(__file__)), "..", "crates", "text_check", "data")

# What is done to the rack and the tables that a case lends: nothing; a place of a table set; how many entries the rack has, the
# slots or the streams at a place of it, or the number of left films set; the rack or a table lent with fewer places.
NOTHING = 0
SET_FILM, SET_VIEWERS, SET_COUNT, SET_LEFT_FILM, SET_LEFT_AMOUNT = 1, 2, 3, 4, 5
SET_DISKS, SET_SLOTS, SET_STREAMS, SET_LEFT = 6, 7, 8, 9
LEND_RACK, LEND_COPIES, LEND_COUNTS, LEND_LEFT, LEND_SPACE = 10, 11, 12, 13, 14
# A byte of the text set.
SET_BYTE = 15
# The disk at a place made like the one at place VALUE, and the rack as many disks as that needs.
SET_LIKE = 16

CASE_A = b"""(rack 3 4 6)
(disk 1 (8 1) (9 1) (10 1) (11 3))
(disk 2 (6 1) (7 1) (11 1) (12 3))
(disk 3 (3 1) (4 1) (5 1) (12 1))
(left (1 1) (2 1))
(served 16 2)
"""
SMALL = b"(rack 1 2 5)\n(disk 1 (7 4))\n(left (3 9))\n(served 4 9)\n"
EMPTY = b"(rack 2 1 2)\n(disk 1)\n(disk 2)\n(left)\n(served 0 0)\n"
# Copies with 0 viewers, and left films with amount 0, in all places of a line.
SHELF = b"""(rack 3 3 5)
(disk 1 (9 5) (1 0))
(disk 2 (7 0) (2 3) (3 2))
(disk 3 (5 0) (4 0))
(left (6 0) (8 4) (10 0))
(served 10 4)
"""
VARIED = (b"(rack 3 2 65535)\n(disk 1 (65535 65534) (1 1))\n(disk 2)\n(disk 3 (100 90))\n"
          b"(left (1 1000000) (100 10) (65535 999999))\n(served 65625 2000009)\n")
# A large disk and a small one; and disks of three sizes, two of them equal.
UNEQUAL = b"(mixed (4 8) (2 4))\n(disk 1 (2 3) (3 5))\n(disk 2 (1 3) (2 1))\n(left)\n(served 12 0)\n"
# Marked copies, with viewers and without.
HELD = b"""(rack 2 2 5)
(disk 1 (8 1 held) (65535 4))
(disk 2 (8 0) (3 0 held))
(left (8 2))
(served 5 2)
"""
SIZES = (b"(mixed (10 25) (2 5) (32 80) (2 5))\n(disk 1 (7 0) (65535 25))\n(disk 2 (1 5))\n(disk 3)\n(disk 4 (1 4) (9 1))\n"
         b"(left (1 1000000) (3 0))\n(served 35 1000000)\n")


class Cases:
    """One file of cases."""

    def __init__(self):
        self.data = b""
        self.labels = set()
        self.last, self.start = None, 0

    def add(self, label, text, total=None, fill=0, what=NOTHING, place=0, value=0):
        assert re.fullmatch(r"[a-z0-9_]+", label), label
        assert label not in self.labels, label
        self.labels.add(label)
        total = len(text) if total is None else total
        label_end = len(self.data) + 67 + len(label)
        given = b"" if text == self.last else text
        if given:
            self.last, self.start = text, label_end + 1
        numbers = (label_end + 2 + len(given), label_end, self.start, len(text), total, fill, what, place)
        assert all(n < 10 ** 6 for n in numbers)
        head = "".join("%-7d" % n for n in numbers) + "%-11d" % value + label + "\n"
        self.data += head.encode() + given + b"\n"

    def write(self, name):
        assert len(self.data) <= 131_072, name
        os.makedirs(DATA, exist_ok=True)
        with open(os.path.join(DATA, name), "wb") as f:
            f.write(self.data)


def pairs(entries):
    return "".join(" (%d %d)" % p for p in entries)


def text_of(disks, slots, streams, copies, left, served=None, unserved=None):
    """The text of a plan by 01's form, whether or not the plan is well formed; copies maps a disk to its pairs."""
    lines = ["(rack %d %d %d)" % (disks, slots, streams)]
    for d in range(1, disks + 1):
        lines.append("(disk %d%s)" % (d, pairs(copies.get(d, []))))
    lines.append("(left%s)" % pairs(left))
    s = sum(v for c in copies.values() for _, v in c) if served is None else served
    u = sum(a for _, a in left) if unserved is None else unserved
    lines.append("(served %d %d)" % (s, u))
    return ("\n".join(lines) + "\n").encode()


def text_of_disks(rack, copies, left):
    """The text of a plan of these disks, each its slots and its streams, with a mixed line whatever they are."""
    first, rest = text_of(len(rack), 1, 1, copies, left).split(b"\n", 1)
    return b"(mixed" + pairs(rack).encode() + b")\n" + rest


def all_held(text):
    """The text with a mark at each copy of its disks."""
    lines = text.split(b"\n")
    marked = [re.sub(rb"(\([0-9]+ [0-9]+)\)", rb"\1 held)", line) if line.startswith(b"(disk ") else line for line in lines]
    return b"\n".join(marked)


def largest_unequal():
    """The longest text of a well-formed plan without marks: 44,565 bytes."""
    # Some disk has fewer than 32 slots, since the disks differ with one ratio.
    rack = [(32, 65504)] * 63 + [(31, 63457)]
    viewers = [10000] * 3 + [1000] * 29
    copies = {d: list(zip(range(65535 - slots + 1, 65536), viewers)) for d, (slots, _) in enumerate(rack, 1)}
    return text_of_disks(rack, copies, [(f, 1000000) for f in range(65535 - 1023, 65536)])


def largest():
    """The longest text of a well-formed plan of equal disks without marks: 43,885 bytes."""
    # 32 viewers of most digits whose sum is at most 65,535: three of five digits, the others of four.
    viewers = [16535, 10000, 10000] + [1000] * 29
    copies = {d: list(zip(range(65535 - 31, 65536), viewers)) for d in range(1, 65)}
    left = [(f, 1000000) for f in range(65535 - 1023, 65536)]
    return text_of(64, 32, 65535, copies, left)


# ---- every line kind, damaged in every way that 01 names ----

def damages(line):
    """Damaged forms of one line, without its line feed: label and bytes."""
    out = []
    words = [m.start() for m in re.finditer(rb"[a-z]+", line)]
    numbers = [(m.start(), m.end()) for m in re.finditer(rb"[0-9]+", line)]
    spaces = [i for i in range(len(line)) if line[i] == 32]
    opens = [i for i in range(len(line)) if line[i] == 40]
    closes = [i for i in range(len(line)) if line[i] == 41]
    for n, (a, e) in enumerate(numbers, 1):
        out.append(("leading_zero_%d" % n, line[:a] + b"0" + line[a:]))
        out.append(("leading_zeros_%d" % n, line[:a] + b"0000000000" + line[a:]))
        out.append(("zero_%d" % n, line[:a] + b"0" + line[e:]))
        out.append(("two_zeros_%d" % n, line[:a] + b"00" + line[e:]))
        out.append(("no_digits_%d" % n, line[:a] + line[e:]))
        out.append(("no_number_%d" % n, line[:a - 1] + line[e:]))
        out.append(("plus_%d" % n, line[:a] + b"+" + line[a:]))
        out.append(("minus_%d" % n, line[:a] + b"-" + line[a:]))
        out.append(("letter_%d" % n, line[:a] + b"a" + line[e:]))
        out.append(("letter_after_%d" % n, line[:e] + b"a" + line[e:]))
        out.append(("capital_%d" % n, line[:a] + b"A" + line[e:]))
        out.append(("comma_%d" % n, line[:a] + b"1,000" + line[e:]))
        out.append(("point_%d" % n, line[:e] + b".0" + line[e:]))
        out.append(("twice_%d" % n, line[:e] + b" " + line[a:]))
        out.append(("digit_more_%d" % n, line[:e] + b"0" + line[e:]))
        out.append(("bracketed_%d" % n, line[:a] + b"(" + line[a:e] + b")" + line[e:]))
        for bits in (8, 16, 32, 64):
            wrapped = b"%d" % (int(line[a:e]) + 2 ** bits)
            out.append(("plus_2_to_%d_at_%d" % (bits, n), line[:a] + wrapped + line[e:]))
    for n, i in enumerate(spaces, 1):
        out.append(("two_spaces_%d" % n, line[:i] + b" " + line[i:]))
        out.append(("no_space_%d" % n, line[:i] + line[i + 1:]))
        out.append(("tab_%d" % n, line[:i] + b"\t" + line[i + 1:]))
        out.append(("line_feed_%d" % n, line[:i] + b"\n" + line[i + 1:]))
        out.append(("return_%d" % n, line[:i] + b"\r" + line[i + 1:]))
        out.append(("no_break_space_%d" % n, line[:i] + b"\xa0" + line[i + 1:]))
    for n, i in enumerate(opens, 1):
        out.append(("no_open_%d" % n, line[:i] + line[i + 1:]))
        out.append(("two_opens_%d" % n, line[:i] + b"(" + line[i:]))
        out.append(("square_open_%d" % n, line[:i] + b"[" + line[i + 1:]))
        out.append(("close_for_open_%d" % n, line[:i] + b")" + line[i + 1:]))
        out.append(("space_after_open_%d" % n, line[:i + 1] + b" " + line[i + 1:]))
    for n, i in enumerate(closes, 1):
        out.append(("no_close_%d" % n, line[:i] + line[i + 1:]))
        out.append(("two_closes_%d" % n, line[:i] + b")" + line[i:]))
        out.append(("square_close_%d" % n, line[:i] + b"]" + line[i + 1:]))
        out.append(("open_for_close_%d" % n, line[:i] + b"(" + line[i + 1:]))
        out.append(("space_before_close_%d" % n, line[:i] + b" " + line[i:]))
    i = words[0]
    out.append(("capital_word", line[:i] + bytes([line[i] - 32]) + line[i + 1:]))
    out.append(("capital_last", re.sub(rb"[a-z](?=[^a-z])", lambda m: m.group().upper(), line, count=1)))
    out.append(("other_word", line[:i] + b"film" + line[i + 4:]))
    out.append(("letter_fewer", line[:i] + line[i + 1:]))
    out.append(("letter_more", line[:i] + line[i:i + 1] + line[i:]))
    out.append(("no_word", re.sub(rb"[a-z]+", b"", line, count=1)))
    out.append(("space_before", b" " + line))
    out.append(("space_after", line + b" "))
    out.append(("tab_after", line + b"\t"))
    out.append(("return_after", line + b"\r"))
    out.append(("comment_after", line + b" ;"))
    out.append(("blank_before", b"\n" + line))
    out.append(("blank_after", line + b"\n"))
    out.append(("empty_pair_last", line[:-1] + b" ())"))
    out.append(("pair_of_one_last", line[:-1] + b" (9))"))
    out.append(("pair_of_three_last", line[:-1] + b" (9 1 1))"))
    out.append(("pair_last", line[:-1] + b" (9 1))"))
    out.append(("pair_without_space_last", line[:-1] + b"(9 1))"))
    out.append(("only_brackets", b"()"))
    out.append(("refusal", b"(refused 1)"))
    out.append(("quoted", b'"' + line + b'"'))
    out.append(("byte_order_mark", b"\xef\xbb\xbf" + line))
    for b in (0, 13, 47, 58, 96, 123, 127, 128, 255):
        out.append(("foreign_%d" % b, line[:5] + bytes([b]) + line[5:]))
    out.append(("foreign_first", b"\0" + line))
    out.append(("foreign_last", line[:-1] + b"\xff" + line[-1:]))
    return out


def kinds(text):
    """The lines of a text, each with the name of its kind."""
    lines = text.split(b"\n")[:-1]
    return [(re.sub(rb"[^a-z]", b"", line).decode(), line) for line in lines]


def misplaced(c, base, lines, n):
    """Line n of these missing, twice, unended, joined, cut, or in the place of another."""
    line, before, after = lines[n - 1], joined(lines[:n - 1]), joined(lines[n:])
    c.add(base + "missing", before + after)
    c.add(base + "missing_from_here", before)
    c.add(base + "twice", before + line + b"\n" + line + b"\n" + after)
    c.add(base + "unended", before + line)
    c.add(base + "joined", before + line + after)
    c.add(base + "cut_inside", before + line[:6])
    c.add(base + "feed_for_close", before + line[:-1] + b"\n" + after)
    for m, other in enumerate(lines, 1):
        if other != line:
            c.add(base + "is_line_%d" % m, before + other + b"\n" + after)
    if after:
        c.add(base + "after_the_next", before + joined([lines[n], line] + lines[n + 1:]))


def joined(lines):
    """Lines, each ended by a line feed."""
    return b"".join(line + b"\n" for line in lines)


def damaged_lines(c, name, text, damaged):
    """Each line of a text misplaced, those of these numbers also damaged in every way, and bytes after the text."""
    lines = text.split(b"\n")[:-1]
    for n, (kind, line) in enumerate(kinds(text), 1):
        base = "%s_%d_%s_" % (name, n, kind)
        for label, other in damages(line) if n in damaged else ():
            c.add(base + label, joined(lines[:n - 1] + [other] + lines[n:]))
        misplaced(c, base, lines, n)
    for label, tail in (("byte", b"("), ("feed", b"\n"), ("space", b" "), ("zero", b"\0"), ("foreign", b"\xff"),
                        ("return", b"\r"), ("line", b"(served 0 0)\n"), ("left", b"(left)\n"), ("text", text)):
        c.add("%s_then_%s" % (name, label), text + tail)


def lines_file():
    c = Cases()
    for name, text in (("case_a", CASE_A), ("small", SMALL), ("empty", EMPTY), ("varied", VARIED)):
        c.add(name, text)
    damaged_lines(c, "small", SMALL, (1, 2, 3, 4))
    damaged_lines(c, "empty", EMPTY, (3, 4))
    c.add("no_bytes", b"")
    for label, text in (("feed_only", b"\n"), ("two_feeds", b"\n\n"), ("refused_1", b"(refused 1)\n"),
                        ("refused_9_1", b"(refused 9 1)\n"), ("zero_byte", b"\0"), ("open_only", b"("),
                        ("rack_only", b"(rack 1 1 1)\n"), ("rack_unended", b"(rack 1 1 1)"),
                        ("return_feeds", SMALL.replace(b"\n", b"\r\n")), ("returns", SMALL.replace(b"\n", b"\r")),
                        ("capitals", SMALL.upper()), ("tabs", SMALL.replace(b" ", b"\t")),
                        ("one_line", SMALL.replace(b"\n", b" ")), ("wide", SMALL.decode().encode("utf-16-le"))):
        c.add(label, text)
    c.add("shelf", SHELF)
    held_lines(c)
    c.write("lines")


# ---- marked copies ----

# A disk's copies, of two slots and load 5: those that are accepted with marks, and those with a mark in another form or place.
HELD_COPIES = (("alone", "(8 1 held)"), ("shelf", "(8 0 held)"), ("last_film", "(65535 5 held)"), ("first", "(8 1 held) (9 1)"),
               ("last", "(8 1) (9 1 held)"), ("both", "(8 1 held) (9 4 held)"), ("no_space", "(8 1held)"),
               ("two_spaces", "(8 1  held)"), ("tab", "(8 1\theld)"), ("space_behind", "(8 1 held )"), ("space_alone", "(8 1 )"),
               ("letter_fewer", "(8 1 hel)"), ("letter_more", "(8 1 heldd)"), ("capital", "(8 1 Held)"), ("capitals", "(8 1 HELD)"),
               ("other_word", "(8 1 hold)"), ("one", "(8 1 1)"), ("zero", "(8 1 0)"), ("twice", "(8 1 held held)"),
               ("before_viewers", "(8 held 1)"), ("before_film", "(held 8 1)"), ("for_viewers", "(8 held)"),
               ("outside", "(8 1) held"), ("before", "held (8 1)"), ("no_close", "(8 1 held"), ("no_gap", "(8 1 held)(9 1)"),
               ("film_0", "(0 1 held)"), ("film_65536", "(65536 1 held)"), ("film_65544", "(65544 1)"),
               ("film_65544_held", "(65544 1 held)"), ("load_exceeded", "(8 6 held)"), ("film_twice", "(8 1 held) (8 1)"),
               ("film_twice_held", "(8 1) (8 1 held)"), ("one_too_many", "(8 1 held) (9 0 held) (10 0 held)"))


def held_lines(c):
    """Marks in every form and place: on a disk's copies, and on what has none."""
    c.add("held", HELD)
    for label, copies in HELD_COPIES:
        served = sum(int(v) for v in re.findall(r"\([0-9]+ ([0-9]+)", copies))
        text = text_of(1, 2, 5, {}, [(2, 1)], served=served)
        c.add("held_" + label, text.replace(b"(disk 1)", b"(disk 1 %s)" % copies.encode()))
    lines = HELD.split(b"\n")[:-1]
    for label, n, other in (("rack", 1, b"(rack 2 2 5 held)"), ("disk_number", 3, b"(disk 2 held (8 0) (3 0 held))"),
                            ("left_film", 4, b"(left (8 2 held))"), ("left_alone", 4, b"(left held)"),
                            ("left_line", 4, b"(left (8 2) held)"), ("served", 5, b"(served 5 2 held)")):
        c.add("held_on_" + label, joined(lines[:n - 1] + [other] + lines[n:]))
    for n, line in enumerate((b"(mixed (4 8 held) (2 4))\n", b"(mixed (4 8) (2 4 held))\n"), 1):
        c.add("held_on_mixed_%d" % n, line + UNEQUAL.split(b"\n", 1)[1])
    for label, other in damages(lines[1]):
        # What stands before the first mark is damaged in lines without marks.
        if other.startswith(b"(disk 1 (8 1"):
            c.add("held_2_disk_" + label, joined([lines[0], other] + lines[2:]))


# ---- copies with 0 viewers and left films with amount 0 ----

def zero_viewers(c):
    """Disks of three slots and load 5 with copies of 0 viewers."""
    for label, copies in (("first", [(7, 0), (1, 2), (2, 3)]), ("between", [(1, 2), (7, 0), (2, 3)]),
                          ("last", [(1, 2), (2, 3), (7, 0)]), ("alone", [(7, 0)]), ("all", [(3, 0), (1, 0), (2, 0)]),
                          ("one_too_many", [(1, 0), (2, 0), (3, 0), (4, 0)]), ("then_load_exceeded", [(7, 0), (1, 6)]),
                          ("after_load_exceeded", [(1, 6), (7, 0)]), ("film_twice", [(7, 0), (7, 0)]),
                          ("film_apart", [(7, 0), (8, 0), (7, 0)]), ("film_then_viewers", [(7, 0), (7, 1)]),
                          ("film_after_viewers", [(7, 1), (7, 0)]), ("film_0", [(0, 0)]), ("film_0_first", [(0, 0), (1, 1)]),
                          ("film_0_last", [(1, 1), (0, 0)]), ("film_65535", [(65535, 0)]), ("film_65536", [(65536, 0)])):
        c.add("zero_viewers_" + label, text_of(1, 3, 5, {1: copies}, []))


def zero_viewers_in_32_slots(c):
    """A disk of 32 slots with copies of 0 viewers alone, and one copy too many."""
    for n in (32, 33):
        c.add("zero_viewers_%d_of_32" % n, text_of(1, 32, 1, {1: [(f, 0) for f in range(1, n + 1)]}, []))


def zero_amounts(c):
    """Left films with amount 0."""
    for label, left in (("first", [(1, 0), (2, 3), (3, 4)]), ("between", [(1, 3), (2, 0), (3, 4)]),
                        ("last", [(1, 3), (2, 4), (3, 0)]), ("alone", [(3, 0)]), ("all", [(1, 0), (2, 0), (65535, 0)]),
                        ("beside_1000000", [(1, 0), (2, 1000000), (3, 0)]), ("beside_1000001", [(1, 0), (2, 1000001), (3, 0)]),
                        ("film_twice", [(7, 0), (7, 0)]), ("film_then_amount", [(7, 0), (7, 1)]),
                        ("descending", [(8, 0), (7, 0)]), ("film_0", [(0, 0)]), ("film_65536", [(65536, 0)])):
        c.add("zero_amount_" + label, text_of(1, 3, 5, {}, left))


def two_zeros(c):
    """Zero in two digits."""
    for film in (1, 7, 6, 10):
        c.add("shelf_film_%d_two_zeros" % film, SHELF.replace(b"(%d 0)" % film, b"(%d 00)" % film))


def zeros(c):
    """0 viewers, amount 0, both in one text, and sums that count a zero."""
    zero_viewers(c)
    zero_viewers_in_32_slots(c)
    zero_amounts(c)
    c.add("zero_film_on_two_disks_and_left", text_of(2, 1, 5, {1: [(7, 0)], 2: [(7, 0)]}, [(7, 0)]))
    two_zeros(c)
    for s, u in ((11, 4), (10, 5)):
        c.add("served_%d_%d_of_shelf" % (s, u), SHELF.replace(b"served 10 4", b"served %d %d" % (s, u)))


# ---- numbers at and beyond each limit ----

def limits_file():
    c = Cases()
    big = (2 ** 8, 2 ** 16, 2 ** 32 - 1, 2 ** 32, 2 ** 32 + 1, 2 ** 63, 2 ** 64 - 1, 2 ** 64, 2 ** 64 + 1, 10 ** 20, 10 ** 40)

    def one(film=7, viewers=4, left_film=3, amount=9, slots=2, streams=5):
        return text_of(1, slots, streams, {1: [(film, viewers)]}, [(left_film, amount)])

    for n in (0, 1, 2, 9, 10, 63, 64, 65, 66, 99, 100):
        c.add("disks_%d" % n, text_of(n, 1, 1, {}, []))
    for n in big + (2 ** 32 + 64, 2 ** 64 + 64):
        c.add("disks_%d" % n, text_of(1, 1, 1, {}, []).replace(b"rack 1", b"rack %d" % n))
    for k in (0, 1, 2, 9, 10, 31, 32, 33, 64) + big + (2 ** 32 + 32, 2 ** 64 + 32):
        c.add("slots_%d" % k, text_of(1, k, 1, {}, []))
    for load in (0, 1, 2, 65534, 65535, 65537, 99999, 100000) + big + (2 ** 32 + 65535, 2 ** 64 + 65535):
        c.add("streams_%d" % load, text_of(1, 1, load, {}, []))
    for f in (0, 1, 2, 65534, 65535, 65541, 99999, 131071) + big + (2 ** 32 + 7, 2 ** 64 + 7):
        c.add("film_%d" % f, one(film=f))
        c.add("left_film_%d" % f, one(left_film=f))
    for v in (0, 1, 4, 5, 6, 10, 65535) + big + (2 ** 32 + 5, 2 ** 64 + 5):
        c.add("viewers_%d" % v, one(viewers=v))
    for v in (65534, 65535, 65536):
        c.add("viewers_%d_of_65535" % v, one(viewers=v, streams=65535))
    for a in (0, 1, 2, 999999, 1000000, 1000001, 1000002, 9999999) + big + (2 ** 32 + 9, 2 ** 64 + 9):
        c.add("amount_%d" % a, one(amount=a))
    for k in (1, 2, 31, 32):
        for n in (k - 1, k, k + 1):
            c.add("copies_%d_of_%d" % (n, k), text_of(1, k, 100, {1: [(f, 1) for f in range(1, n + 1)]}, []))
    c.add("copies_64_of_32", text_of(1, 32, 100, {1: [(f, 1) for f in range(1, 65)]}, []))
    for n in (1023, 1024, 1025, 1026, 2048):
        c.add("left_films_%d" % n, text_of(1, 1, 1, {}, [(f, 1) for f in range(1, n + 1)]))
    for load, vs in ((5, (2, 3)), (5, (3, 3)), (5, (5, 1)), (5, (1, 5)), (65535, (65534, 1)), (65535, (65535, 1)),
                     (65535, (2 ** 32 - 1, 2)), (5, (2 ** 32 - 1, 5)), (5, (2 ** 64 - 1, 5)), (5, (2 ** 31, 2 ** 31))):
        c.add("sum_%d_%d_of_%d" % (vs[0], vs[1], load), text_of(1, 2, load, {1: [(1, vs[0]), (2, vs[1])]}, []))
    every = [(f, 65535 // 32) for f in range(1, 33)]
    c.add("sum_of_32_below", text_of(1, 32, 65535, {1: every}, []))
    c.add("sum_of_32_exact", text_of(1, 32, 65535, {1: every[:-1] + [(32, 65535 - 31 * 2047)]}, []))
    c.add("sum_of_32_above", text_of(1, 32, 65535, {1: every[:-1] + [(32, 65536 - 31 * 2047)]}, []))
    for label, films in (("twice", (7, 7)), ("apart", (7, 8, 7)), ("descending", (9, 8, 7)), ("first_and_last", (7, 1, 2, 7))):
        c.add("copies_film_%s" % label, text_of(1, 4, 9, {1: [(f, 1) for f in films]}, []))
        c.add("left_films_%s" % label, text_of(1, 4, 9, {}, [(f, 1) for f in films]))
    c.add("film_on_two_disks_and_left", text_of(2, 1, 9, {1: [(7, 1)], 2: [(7, 2)]}, [(7, 3)]))
    c.add("left_films_ascending", text_of(1, 4, 9, {}, [(7, 1), (8, 1), (65535, 1)]))
    c.add("left_films_wrapped", text_of(1, 4, 9, {}, [(7, 1), (2 ** 32 + 8, 1)]))
    numbers = ((0, 0), (1, 0), (0, 1), (15, 2), (17, 2), (16, 1), (16, 3), (2, 16), (18, 2), (16, 18), (160, 2), (1, 62),
               (16 + 2 ** 32, 2), (16 + 2 ** 64, 2), (16, 2 + 2 ** 32), (16, 2 + 2 ** 64))
    for s, u in numbers:
        c.add("served_%d_%d_of_16_2" % (s, u), CASE_A.replace(b"served 16 2", b"served %d %d" % (s, u)))
    for d in (0, 2, 3, 9, 10, 11, 64, 65, 100) + big:
        c.add("disk_%d_for_1" % d, text_of(12, 1, 1, {}, []).replace(b"(disk 1)", b"(disk %d)" % d))
        c.add("disk_%d_for_12" % d, text_of(12, 1, 1, {}, []).replace(b"(disk 12)", b"(disk %d)" % d))
    c.add("disk_01_for_1", text_of(12, 1, 1, {}, []).replace(b"(disk 1)", b"(disk 01)"))
    c.add("disks_one_more", text_of(3, 1, 1, {}, []).replace(b"rack 3", b"rack 2"))
    c.add("disks_one_fewer", text_of(3, 1, 1, {}, []).replace(b"rack 3", b"rack 4"))
    for n in (20, 30, 1000):
        nines = b"9" * n
        one_zeros = b"1" + b"0" * n
        for label, digits in (("nines", nines), ("zeros", one_zeros)):
            for where, old in (("disks", b"rack 1"), ("film", b"((7"), ("amount", b"(3 9"), ("served", b"served 4")):
                text = SMALL.replace(b"disk 1 (7", b"disk 1 ((7") if where == "film" else SMALL
                text = text.replace(old, old[:-1] + digits)
                text = text.replace(b"((", b"(") if where == "film" else text
                c.add("%s_%d_%s" % (where, n, label), text)
    zeros(c)
    c.write("limits")


# ---- long texts ----

def long_file():
    c = Cases()
    text = largest()
    assert len(text) == 43885
    c.add("largest", text)
    for total in (43886, 65535, 65536, 65537, 65540):
        c.add("largest_and_spaces_%d" % total, text, total, 32)
    c.add("largest_unended", text, len(text) - 1)
    for label, old, new in (("served_one_more", b"(served 4194240 ", b"(served 4194241 "),
                            ("unserved_other", b" 1024000000)", b" 1024000001)"),
                            ("left_film_repeated", b"(65534 1000000)", b"(65535 1000000)"),
                            ("left_amount_leading_zero", b"(65534 1000000)", b"(65534 0000000)"),
                            ("disk_64_is_65", b"(disk 64 ", b"(disk 65 "),
                            ("load_exceeded", b" 16535)", b" 16536)"),
                            ("film_repeated", b"(65505 10000)", b"(65504 10000)")):
        place = text.index(old) + [a == b for a, b in zip(old, new)].index(False)
        value = new[place - text.index(old)]
        c.add("largest_" + label, text, what=SET_BYTE, place=place, value=value)
    last = text.rindex(b" 16535)") + 5
    c.add("largest_load_exceeded_last", text, what=SET_BYTE, place=last, value=54)
    for total in (0, 1, 43885, 65535, 65536, 65537, 65538):
        c.add("zeros_%d" % total, b"", total, 0)
        c.add("feeds_%d" % total, b"", total, 10)
    for total in (65535, 65536, 65537):
        c.add("small_and_feeds_%d" % total, SMALL, total, 10)
        c.add("small_and_digits_%d" % total, SMALL, total, 57)
        c.add("rack_of_digits_%d" % total, b"(rack ", total, 57)
        c.add("rack_of_zeros_%d" % total, b"(rack ", total, 48)
        c.add("film_of_digits_%d" % total, b"(rack 1 2 5)\n(disk 1 (", total, 57)
        c.add("amount_of_zeros_%d" % total, b"(rack 1 2 5)\n(disk 1)\n(left (1 1", total, 48)
        c.add("served_of_zeros_%d" % total, b"(rack 1 2 5)\n(disk 1)\n(left)\n(served 0", total, 48)
        c.add("brackets_%d" % total, b"(rack 1 2 5)\n(disk 1 ", total, 40)
        c.add("letters_%d" % total, b"(", total, 114)
    c.add("largest_one_film_more", text.replace(b"(left (", b"(left (1 1) ("))
    for n in (1024, 1025):
        c.add("zero_amounts_%d" % n, text_of(1, 1, 1, {}, [(f, 0) for f in range(1, n + 1)]))
    c.write("long")


# ---- tables too short for reading, and calls of writing ----

def lending_file():
    c = Cases()
    for name, text, copies, disks, left in (("case_a", CASE_A, 12, 3, 2), ("small", SMALL, 2, 1, 1), ("empty", EMPTY, 2, 2, 0),
                                            ("shelf", SHELF, 9, 3, 3), ("largest", largest(), 2048, 64, 1024)):
        for table, what, needed in (("copies", LEND_COPIES, copies), ("counts", LEND_COUNTS, disks), ("left", LEND_LEFT, left)):
            sizes = (needed - 1, needed) if name in ("shelf", "largest") else (0, needed - 1, needed, needed + 1)
            if name == "largest" and table == "counts":
                continue
            for size in sorted(set(x for x in sizes if x >= 0)):
                c.add("%s_%s_%d" % (name, table, size), text, what=what, value=size)
    text = all_held(largest())
    assert len(text) == 54125
    c.add("largest_held", text)
    c.add("largest_held_unended", text, len(text) - 1)
    c.add("largest_held_copies_2047", text, what=LEND_COPIES, value=2047)
    for table, what in (("copies", LEND_COPIES), ("counts", LEND_COUNTS), ("left", LEND_LEFT)):
        c.add("nine_before_seven_%s" % table, SMALL.replace(b"served 4", b"served 5"), what=what, value=0)
        c.add("eight_before_seven_%s" % table, SMALL, 65537, 10, what=what, value=0)
    c.write("lending")


# ---- racks of unequal disks ----

def unequal_file():
    c = Cases()
    line, rest = UNEQUAL.split(b"\n", 1)
    damaged_lines(c, "unequal", UNEQUAL, (1, 3, 4, 5))
    c.add("unequal_then_rack_line", line + b"\n(rack 2 4 8)\n" + rest)
    c.add("rack_line_then_unequal", b"(rack 2 4 8)\n" + line + b"\n" + rest)
    c.add("unequal_as_rack_of_disk_1", b"(rack 2 4 8)\n" + rest)
    c.add("unequal_as_rack_of_disk_2", b"(rack 2 2 4)\n" + rest)
    c.write("unequal")


def disks_of_a_line(c):
    """Mixed lines of disks that may stand together, and of disks that may not."""
    for label, rack in (("equal", [(4, 8), (4, 8)]), ("equal_three", [(1, 2)] * 3), ("one", [(4, 8)]), ("none", []),
                        ("ratio_at_2", [(4, 8), (2, 5)]), ("ratio_at_3", [(2, 4), (4, 8), (3, 7)]),
                        ("ratio_of_slots", [(2, 4), (3, 4)]), ("ratio_of_1", [(2, 5), (4, 8), (2, 4)]),
                        ("parts_not_whole", [(2, 5), (4, 10)]), ("parts_below_one", [(4, 1), (32, 8)]),
                        ("slots_0", [(0, 8), (2, 4)]), ("slots_0_streams_0", [(0, 0), (2, 4)]), ("streams_0", [(4, 0), (2, 0)]),
                        ("slots_32", [(32, 64), (2, 4)]), ("slots_33", [(33, 66), (2, 4)]), ("slots_33_last", [(2, 4), (33, 66)]),
                        ("streams_65535", [(5, 65535), (1, 13107)]), ("streams_65536", [(1, 4096), (16, 65536)]),
                        ("slots_wrapped", [(2 ** 32 + 4, 8), (2, 4)]), ("streams_wrapped", [(4, 2 ** 32 + 8), (2, 4)]),
                        ("both_wrapped", [(4, 8), (2 ** 64 + 2, 2 ** 64 + 4)]), ("product_wrapped", [(1, 2), (2 ** 31, 2 ** 32)]),
                        ("last_differs", [(1, 2)] * 63 + [(2, 4)]), ("first_differs", [(2, 4)] + [(1, 2)] * 63),
                        ("equal_64", [(1, 2)] * 64), ("disks_65", [(1, 2)] * 64 + [(2, 4)]), ("disks_200", [(1, 2), (2, 4)] * 100)):
        c.add("disks_" + label, text_of_disks(rack, {}, []))


def copies_of_disks(c):
    """Disks that have their own slots and streams, and no others."""
    for label, copies in (("slots_full", {1: [(f, 1) for f in range(1, 5)], 2: [(1, 1), (2, 1)]}),
                          ("slots_passed_1", {1: [(f, 1) for f in range(1, 6)]}),
                          ("slots_passed_2", {2: [(1, 1), (2, 1), (3, 1)]}),
                          ("streams_full", {1: [(1, 8)], 2: [(1, 4)]}), ("streams_passed_1", {1: [(1, 9)]}),
                          ("streams_passed_2", {2: [(1, 5)]}), ("exchanged", {1: [(1, 3), (2, 1)], 2: [(2, 3), (3, 5)]})):
        c.add("unequal_" + label, text_of_disks([(4, 8), (2, 4)], copies, []))


def racks_lent(c):
    """Racks and tables too short for reading unequal disks, and racks too short for equal ones."""
    for name, text, rack, copies in (("unequal", UNEQUAL, 2, 6), ("sizes", SIZES, 4, 46)):
        for table, what, needed in (("rack", LEND_RACK, rack), ("copies", LEND_COPIES, copies), ("counts", LEND_COUNTS, rack)):
            for size in (0, needed - 1, needed, needed + 1):
                c.add("%s_%s_%d" % (name, table, size), text, what=what, value=size)
    for name, text, rack in (("case_a", CASE_A, 3), ("small", SMALL, 1)):
        for size in sorted({0, rack - 1, rack, rack + 1}):
            c.add("%s_rack_%d" % (name, size), text, what=LEND_RACK, value=size)
    c.add("nine_before_seven_rack", SMALL.replace(b"served 4", b"served 5"), what=LEND_RACK, value=0)
    c.add("eight_before_seven_rack", SMALL, 65537, 10, what=LEND_RACK, value=0)


def racks_file():
    c = Cases()
    c.add("unequal", UNEQUAL)
    c.add("sizes", SIZES)
    disks_of_a_line(c)
    copies_of_disks(c)
    racks_lent(c)
    text = largest_unequal()
    assert len(text) == 44565
    c.add("largest_unequal", text)
    for size in (63, 64):
        c.add("largest_unequal_rack_%d" % size, text, what=LEND_RACK, value=size)
    for size in (2046, 2047):
        c.add("largest_unequal_copies_%d" % size, text, what=LEND_COPIES, value=size)
    text = all_held(largest_unequal())
    assert len(text) == 54800
    c.add("largest_unequal_held", text)
    for total in (54801, 65536, 65537):
        c.add("largest_unequal_held_and_spaces_%d" % total, text, total, 32)
    c.add("largest_unequal_held_last_mark", text, what=SET_BYTE, place=text.rindex(b"held") + 3, value=ord("e"))
    for total in (65536, 65537):
        c.add("mixed_of_digits_%d" % total, b"(mixed (", total, 57)
        c.add("mixed_of_opens_%d" % total, b"(mixed ", total, 40)
    c.write("racks")


# Texts and the places of two disks, of which the first is made like the second: unequal disks become equal, or one of another
# size, a rack has one disk more, 65, or one that nobody filled.
FEW = b"(mixed (2 4) (4 8))\n(disk 1 (1 1))\n(disk 2 (2 1) (3 3))\n(left)\n(served 5 0)\n"
THREE = b"(mixed (2 4) (4 8) (2 4))\n(disk 1 (1 1) (5 3))\n(disk 2)\n(disk 3)\n(left (5 1))\n(served 4 1)\n"
MOST = text_of_disks([(1, 2)] * 63 + [(2, 4)], {}, [])
LIKE = (("few", FEW, 1, 0), ("few", FEW, 0, 1), ("few", FEW, 0, 0), ("few", FEW, 2, 0), ("three", THREE, 1, 0),
        ("three", THREE, 1, 2), ("three", THREE, 2, 1), ("three", THREE, 0, 1), ("three", THREE, 2, 3), ("sizes", SIZES, 0, 1),
        ("sizes", SIZES, 2, 0), ("sizes", SIZES, 1, 3), ("empty", EMPTY, 2, 0), ("most", MOST, 63, 0), ("most", MOST, 62, 63),
        ("most", MOST, 64, 0), ("most", MOST, 64, 63))


def unequal_writing(c, sets):
    """Calls of writing on unequal disks."""
    c.add("unequal", UNEQUAL)
    c.add("sizes", SIZES)
    sets("unequal", UNEQUAL, SET_DISKS, "disks", 0, (0, 1, 2, 3))
    sets("unequal", UNEQUAL, SET_SLOTS, "slots", 0, (0, 2, 4, 5, 33))
    sets("unequal", UNEQUAL, SET_SLOTS, "slots", 1, (0, 2, 4, 33, 2 ** 32 - 1))
    sets("unequal", UNEQUAL, SET_STREAMS, "streams", 0, (0, 4, 8, 65536))
    sets("unequal", UNEQUAL, SET_STREAMS, "streams", 1, (0, 4, 8, 65536, 2 ** 32 - 1))
    sets("sizes", SIZES, SET_STREAMS, "streams", 3, (0, 4, 5, 6))
    sets("sizes", SIZES, SET_SLOTS, "slots", 2, (31, 32, 33))
    # The places 2 and 3 of disk 1 are not used, and place 4 is the first of disk 2.
    sets("unequal", UNEQUAL, SET_FILM, "film", 3, (0, 9))
    sets("unequal", UNEQUAL, SET_FILM, "film", 4, (0, 2, 9))
    sets("unequal", UNEQUAL, SET_FILM, "film", 6, (9,))
    sets("unequal", UNEQUAL, SET_VIEWERS, "viewers", 1, (5, 6))
    sets("unequal", UNEQUAL, SET_VIEWERS, "viewers", 5, (1, 2))
    sets("unequal", UNEQUAL, SET_COUNT, "count", 0, (1, 2, 3, 4, 5))
    sets("unequal", UNEQUAL, SET_COUNT, "count", 1, (1, 2, 3))
    for table, what, needed in (("copies", LEND_COPIES, 6), ("counts", LEND_COUNTS, 2), ("space", LEND_SPACE, len(UNEQUAL))):
        for size in (0, needed - 1, needed, needed + 1):
            c.add("unequal_lent_%s_%d" % (table, size), UNEQUAL, what=what, value=size)
    for name, text, place, value in LIKE:
        c.add("%s_disk_%d_like_%d" % (name, place + 1, value + 1), text, what=SET_LIKE, place=place, value=value)
    text = largest_unequal()
    c.add("largest_unequal", text)
    for size in (44564, 44565):
        c.add("largest_unequal_lent_space_%d" % size, text, what=LEND_SPACE, value=size)


def held_writing(c, sets):
    """Calls of writing with marks. What is set as a film is the low half of an entry, so that 65,544 is film 8 with mark 1."""
    c.add("held", HELD)
    mark = 2 ** 16
    sets("held", HELD, SET_FILM, "film", 0, (8, mark, mark + 7, mark + 8, 2 * mark + 8, 2 ** 31 + 8, 2 ** 32 - 1))
    sets("held", HELD, SET_FILM, "film", 1, (8, mark + 8, mark + 9, 2 * mark - 1, 2 * mark + 9))
    sets("held", HELD, SET_FILM, "film", 3, (3, mark + 65535, 3 * mark + 3))
    sets("held", HELD, SET_VIEWERS, "viewers", 3, (5, 6))
    sets("held", HELD, SET_COUNT, "count", 1, (1,))
    sets("held", HELD, SET_LEFT_FILM, "left_film", 0, (mark + 8, 2 ** 31 + 8))
    for size in (len(HELD) - 5, len(HELD) - 1, len(HELD)):
        c.add("held_lent_space_%d" % size, HELD, what=LEND_SPACE, value=size)
    # Place 1 is not used.
    sets("small", SMALL, SET_FILM, "low_half", 1, (mark, 2 * mark, 2 ** 31))


def writing_file():
    c = Cases()
    big = (2 ** 16, 2 ** 31, 2 ** 32 - 1)

    def sets(name, text, what, label, place, values):
        for v in values:
            c.add("%s_%s_%d_is_%d" % (name, label, place, v), text, what=what, place=place, value=v)

    c.add("case_a", CASE_A)
    c.add("small", SMALL)
    c.add("empty", EMPTY)
    c.add("varied", VARIED)
    sets("small", SMALL, SET_DISKS, "disks", 0, (0, 1, 2, 64, 65) + big)
    sets("small", SMALL, SET_SLOTS, "slots", 0, (0, 1, 2, 3, 32, 33) + big)
    sets("small", SMALL, SET_STREAMS, "streams", 0, (0, 1, 3, 4, 65535, 65536, 2 ** 32 - 1))
    sets("empty", EMPTY, SET_SLOTS, "slots", 0, (0, 1, 2, 32, 33))
    sets("empty", EMPTY, SET_DISKS, "disks", 0, (0, 1, 2, 3, 65))
    for place in (0, 1, 2):
        sets("small", SMALL, SET_FILM, "film", place, (0, 1, 7, 65535, 65536, 65543, 2 ** 32 - 1))
        sets("small", SMALL, SET_VIEWERS, "viewers", place, (0, 1, 5, 6, 65536, 2 ** 32 - 1))
    for place in (0, 1):
        sets("small", SMALL, SET_COUNT, "count", place, (0, 1, 2, 3, 32, 33) + big)
        sets("small", SMALL, SET_LEFT_FILM, "left_film", place, (0, 1, 3, 65535, 65536) + big[1:])
        sets("small", SMALL, SET_LEFT_AMOUNT, "left_amount", place, (0, 1, 1000000, 1000001) + big[1:])
    sets("small", SMALL, SET_LEFT, "left", 0, (0, 1, 2, 1024, 1025, 1032, 1033) + big)
    for place, values in ((0, (9, 8, 7)), (1, (8, 10, 20)), (4, (6, 7, 11)), (11, (3, 4, 12, 65535))):
        sets("case_a", CASE_A, SET_FILM, "film", place, values)
    for place, values in ((0, (0, 2, 2 ** 32 - 1)), (3, (1, 3, 4)), (7, (2 ** 32 - 3,)), (11, (0, 1, 2, 3, 4))):
        sets("case_a", CASE_A, SET_VIEWERS, "viewers", place, values)
    for place in (0, 1, 2, 3):
        sets("case_a", CASE_A, SET_COUNT, "count", place, (0, 3, 4, 5, 2 ** 30, 2 ** 32 - 1))
    sets("case_a", CASE_A, SET_SLOTS, "slots", 0, (1, 3, 4, 5))
    sets("case_a", CASE_A, SET_STREAMS, "streams", 0, (5, 6, 7))
    sets("case_a", CASE_A, SET_DISKS, "disks", 0, (1, 2, 4))
    sets("case_a", CASE_A, SET_LEFT_FILM, "left_film", 0, (1, 2, 3))
    sets("case_a", CASE_A, SET_LEFT_FILM, "left_film", 1, (0, 1, 2, 65535, 65536))
    sets("case_a", CASE_A, SET_LEFT, "left", 0, (0, 1, 2, 3))
    for name, text, copies, disks, left in (("case_a", CASE_A, 12, 3, 2), ("small", SMALL, 2, 1, 1), ("empty", EMPTY, 2, 2, 0)):
        for table, what, needed in (("copies", LEND_COPIES, copies), ("counts", LEND_COUNTS, disks), ("left", LEND_LEFT, left),
                                    ("space", LEND_SPACE, len(text))):
            for size in sorted(set(x for x in (0, needed - 1, needed, needed + 1) if x >= 0)):
                c.add("%s_lent_%s_%d" % (name, table, size), text, what=what, value=size)
    c.add("largest", largest())
    sets("largest", largest(), SET_VIEWERS, "viewers", 2047, (1001,))
    sets("largest", largest(), SET_FILM, "film", 2047, (65504,))
    sets("largest", largest(), SET_LEFT, "left", 0, (1023, 1025))
    sets("largest", largest(), SET_LEFT_AMOUNT, "left_amount", 1023, (1000001, 1))
    c.add("largest_lent_space_43884", largest(), what=LEND_SPACE, value=43884)
    c.add("largest_lent_space_43885", largest(), what=LEND_SPACE, value=43885)
    c.add("shelf", SHELF)
    sets("shelf", SHELF, SET_VIEWERS, "viewers", 1, (1,))
    sets("shelf", SHELF, SET_FILM, "film", 1, (0, 9))
    sets("shelf", SHELF, SET_FILM, "film", 2, (2,))
    sets("shelf", SHELF, SET_COUNT, "count", 0, (1, 3))
    sets("shelf", SHELF, SET_COUNT, "count", 2, (0,))
    sets("shelf", SHELF, SET_LEFT_AMOUNT, "left_amount", 0, (1000000, 1000001))
    sets("shelf", SHELF, SET_LEFT_FILM, "left_film", 2, (0, 8))
    sets("shelf", SHELF, SET_LEFT, "left", 0, (2,))
    held_writing(c, sets)
    unequal_writing(c, sets)
    c.write("writing")


if __name__ == "__main__":
    lines_file()
    limits_file()
    long_file()
    lending_file()
    unequal_file()
    racks_file()
    writing_file()
