#!/usr/bin/env python3
"""Prints what the program text_check has to print, from a reader and a writer of document 01's and 02's words alone.

They share nothing with the proved reader and writer. This reader splits the text at its line feeds and holds each line against
its form as a whole; this writer joins lines. The cases are those of crates/text_check/data.
That a plan that was read is written the same, and that a refusal leaves every place, is what 01 demands.
Usage: python3 tools/text_check_expected.py > crates/text_check/stdout
With the argument --untouched it prints the digests of a fresh rack and fresh tables, and of a fresh space, which the program has as
constants.
"""
import os
import re
import sys

DATA = os.path.join(os.path.dirname(os.path.abspath(__file__)), "..", "crates", "text_check", "data")

# The places of the tables and of the space for text, what they hold before a call, and the room a case has.
COPIES, DISKS, LEFT, SPACE = 2056, 72, 1032, 65600
UNUSED, UNUSED_BYTE = 3_000_000_000, 238
UNUSED_ENTRY = (UNUSED, UNUSED)

NUMBER = rb"(0|[1-9][0-9]*)"
RACK_LINE = re.compile(rb"\(rack " + NUMBER + rb" " + NUMBER + rb" " + NUMBER + rb"\)")
DIGITS = rb"(?:0|[1-9][0-9]*)"
PAIR = rb" \(" + DIGITS + rb" " + DIGITS + rb"\)"
COPY = rb" \(" + DIGITS + rb" " + DIGITS + rb"(?: held)?\)"
MIXED_LINE = re.compile(rb"\(mixed((?:" + PAIR + rb")*)\)")
DISK_LINE = re.compile(rb"\(disk " + NUMBER + rb"((?:" + COPY + rb")*)\)")
LEFT_LINE = re.compile(rb"\(left((?:" + PAIR + rb")*)\)")
SERVED_LINE = re.compile(rb"\(served " + NUMBER + rb" " + NUMBER + rb"\)")


# ---- document 01 and 02's requests P1, P2 and P4: well-formed plans, writing, reading ----
# A rack is a list of disks by number, each its slots and its streams. A copy is its film, its viewers and its mark.

def disks_ok(rack):
    return 1 <= len(rack) <= 64 and all(1 <= slots <= 32 and 1 <= streams <= 65535 for slots, streams in rack)


def other_ratios(rack):
    """The disks, from 1, whose streams times disk 1's slots are not disk 1's streams times their slots."""
    slots, streams = rack[0]
    return [d for d, (k, load) in enumerate(rack, 1) if load * slots != streams * k]


def rack_ok(rack):
    return disks_ok(rack) and not other_ratios(rack)


def is_equal(rack):
    return len(set(rack)) == 1


def film_ok(film):
    return 1 <= film <= 65535


def copies_ok(slots, streams, copies):
    films = [f for f, _, _ in copies]
    return (len(copies) <= slots and len(set(films)) == len(films) and all(film_ok(f) for f in films)
            and viewers(copies) <= streams and all(mark in (0, 1) for _, _, mark in copies))


def viewers(copies):
    return sum(v for _, v, _ in copies)


def left_ok(left):
    films = [f for f, _ in left]
    return (len(left) <= 1024 and all(a < b for a, b in zip(films, films[1:])) and all(film_ok(f) for f in films)
            and all(a <= 1_000_000 for _, a in left))


def render(rack, copies, left):
    def pairs(entries):
        return "".join(" (%d %d)" % p for p in entries)

    def marked(disk):
        return "".join(" (%d %d%s)" % (f, v, " held" if mark else "") for f, v, mark in disk)
    lines = ["(rack %d %d %d)" % (len(rack), *rack[0]) if is_equal(rack) else "(mixed%s)" % pairs(rack)]
    lines += ["(disk %d%s)" % (d, marked(c)) for d, c in enumerate(copies, 1)]
    lines += ["(left%s)" % pairs(left)]
    lines += ["(served %d %d)" % (sum(viewers(c) for c in copies), sum(a for _, a in left))]
    return "".join(line + "\n" for line in lines).encode()


def pairs_of(body):
    numbers = [int(n) for n in re.findall(rb"[0-9]+", body)]
    return list(zip(numbers[0::2], numbers[1::2]))


def copies_of(body):
    copies = re.findall(rb"\(([0-9]+) ([0-9]+)( held)?\)", body)
    return [(int(film), int(number), 1 if mark else 0) for film, number, mark in copies]


def rack_of(line):
    """The rack of a first line of either form, or None."""
    if m := RACK_LINE.fullmatch(line):
        disks, slots, streams = (int(g) for g in m.groups())
        rack = [(slots, streams)] * min(disks, 65)
    elif m := MIXED_LINE.fullmatch(line):
        rack = pairs_of(m.group(1))
        if len(set(rack)) < 2:
            return None
    else:
        return None
    return rack if rack_ok(rack) else None


def read_text(text):
    """8 or (9, line) or the plan: rack, copies by disk, left films."""
    if len(text) > 65536:
        return ("refused", 8, 0)
    ended = text.split(b"\n")
    rest = ended.pop()
    rack = rack_of(ended[0]) if ended else None
    if rack is None:
        return ("refused", 9, 1)
    disks = len(rack)
    copies = []
    for d, (slots, streams) in enumerate(rack, 1):
        m = DISK_LINE.fullmatch(ended[d]) if d < len(ended) else None
        if not m or int(m.group(1)) != d or not copies_ok(slots, streams, copies_of(m.group(2))):
            return ("refused", 9, d + 1)
        copies.append(copies_of(m.group(2)))
    at = disks + 1
    m = LEFT_LINE.fullmatch(ended[at]) if at < len(ended) else None
    if not m or not left_ok(pairs_of(m.group(1))):
        return ("refused", 9, at + 1)
    left = pairs_of(m.group(1))
    at += 1
    m = SERVED_LINE.fullmatch(ended[at]) if at < len(ended) else None
    served, unserved = sum(viewers(c) for c in copies), sum(a for _, a in left)
    if not m or (int(m.group(1)), int(m.group(2))) != (served, unserved):
        return ("refused", 9, at + 1)
    if len(ended) > at + 1 or rest:
        return ("refused", 9, at + 2)
    assert render(rack, copies, left) == text
    return ("plan", rack, copies, left, served, unserved)


def halves(copy):
    """An entry of the copy table: the mark stands above the 16 bits of the film, and both are its first number."""
    film, number, mark = copy
    return (film + (mark << 16), number)


def copy_in(entry):
    return (entry[0] & 0xffff, entry[1], entry[0] >> 16)


def fresh_tables():
    """The lent rack and the copy, count and left tables; an entry is a film and a number, or a disk's slots and streams."""
    return [[UNUSED_ENTRY] * DISKS, [UNUSED_ENTRY] * COPIES, [UNUSED] * DISKS, [UNUSED_ENTRY] * LEFT]


def all_slots(rack):
    return sum(slots for slots, _ in rack)


def store(tables, plan):
    """The lent rack and the tables after reading a plan."""
    rack, copies, left = plan[1:4]
    tables[0][:len(rack)] = rack
    tables[1][:all_slots(rack)] = [p for c, (slots, _) in zip(copies, rack)
                                   for p in [halves(x) for x in c] + [(0, 0)] * (slots - len(c))]
    tables[2][:len(rack)] = [len(c) for c in copies]
    tables[3][:len(left)] = left


def write_tables(rack, tables, left, space):
    """A refusal's numbers, or the text of what the tables hold; space is how many bytes are lent."""
    entries, counts, lefts = tables
    if not disks_ok(rack):
        return (12,)
    if other_ratios(rack):
        return (13, other_ratios(rack)[0])
    if len(entries) < all_slots(rack) or len(counts) < len(rack) or len(lefts) < left:
        return (7,)
    copies = []
    for d, (slots, streams) in enumerate(rack):
        first = all_slots(rack[:d])
        here = entries[first:first + slots]
        used = [copy_in(entry) for entry in here[:counts[d]]]
        if counts[d] > slots or not copies_ok(slots, streams, used) or any(p != (0, 0) for p in here[counts[d]:]):
            return (10,)
        copies.append(used)
    if not left_ok(lefts[:left]):
        return (10,)
    text = render(rack, copies, lefts[:left])
    return (11,) if len(text) > space else text


# ---- the cases, and the lines that tell what happened ----

def cases(name):
    with open(os.path.join(DATA, name), "rb") as f:
        data = f.read()
    at = 0
    while at < len(data):
        words = data[at:data.index(b"\n", at)].decode().split()
        following, label_end, start, given, total, fill, what, place, value = (int(w) for w in words[:9])
        text = (data[start:start + given] + bytes([fill]) * (total - given))[:total]
        if what == 15:
            text = text[:place] + bytes([value]) + text[place + 1:]
        at = following
        yield words[9], text, what, place, value


def lent(tables, what, value):
    """The rack and the tables with the one that the case names cut to its places."""
    return [t[:value] if what == 10 + i else t for i, t in enumerate(tables)]


def fold(digest, numbers):
    for n in numbers:
        digest = (digest * 31 + n) & (2 ** 64 - 1)
    return digest


def table_digest(plan):
    """The digest of rack and tables after reading a plan, or of fresh ones without. An entry counts as one number, the film or
    the slots in its low 32 bits."""
    tables = fresh_tables()
    if plan is not None:
        store(tables, plan)
    rack, copies, counts, left = tables
    digest = 0
    for entries in (rack, copies):
        digest = fold(digest, (f + (n << 32) for f, n in entries))
    return fold(fold(digest, counts), (f + (n << 32) for f, n in left))


def set_place(tables, what, place, value):
    """A film, with its mark in the copy table, or its number set in the copy table (1, 2) or the left table (4, 5), a count set
    (3), or slots or streams of the rack (7, 8)."""
    table = tables[{1: 1, 2: 1, 3: 2, 4: 3, 5: 3, 7: 0, 8: 0}[what]]
    if place < len(table):
        if what == 3:
            table[place] = value
        elif what in (1, 4, 7):
            table[place] = (value, table[place][1])
        else:
            table[place] = (table[place][0], value)


def outcome(answer):
    if answer[0] == "refused":
        return "refused %d" % answer[1] + (" %d" % answer[2] if answer[1] == 9 else "")
    return "plan %d %d %d %d" % (len(answer[1]), answer[4], answer[5], len(answer[3]))


def reading(name):
    for label, text, what, place, value in cases(name):
        judged = read_text(text)
        answer = judged
        if answer[0] == "plan":
            rack = answer[1]
            needed = (len(rack), all_slots(rack), len(rack), len(answer[3]))
            if any(len(t) < n for t, n in zip(lent(fresh_tables(), what, value), needed)):
                answer = ("refused", 7, 0)
        line = "%s: read %s, judged %s, " % (label, outcome(answer), outcome(judged))
        if answer[0] == "plan":
            line += "tables %016x, written the same" % table_digest(answer)
        else:
            line += "tables untouched"
        print(line)


def writing(name):
    for label, text, what, place, value in cases(name):
        plan = read_text(text)
        tables = fresh_tables()
        store(tables, plan)
        disks, left = len(plan[1]), len(plan[3])
        if what in (1, 2, 3, 4, 5, 7, 8):
            set_place(tables, what, place, value)
        if what in (6, 10):
            disks = value
        if what == 16:
            tables[0][place] = tables[0][value]
            disks = max(disks, place + 1)
        if what == 9:
            left = value
        space = value if what == 14 else SPACE
        rack = tables[0][:disks]
        answer = write_tables(rack, lent(tables, what, value)[1:], left, space)
        if isinstance(answer, tuple):
            print("%s: refused %s, space untouched" % (label, " ".join(str(n) for n in answer)))
        else:
            filled = answer + bytes([UNUSED_BYTE]) * (SPACE - len(answer))
            print("%s: length %d, space %016x" % (label, len(answer), fold(0, filled)))


def main():
    if "--untouched" in sys.argv:
        print(table_digest(None), fold(0, bytes([UNUSED_BYTE]) * SPACE))
        return
    for name in ("lines", "limits", "long", "lending", "unequal", "racks"):
        print("reading " + name)
        reading(name)
    print("writing")
    writing("writing")


main()
