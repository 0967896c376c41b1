#!/usr/bin/env python3
"""Writes the data files and the expected output of plan_cases, from the words of documents 01 and 02 alone.

The planner is that of sliding_window.py; the refusals and the text stand here. Run it from anywhere; it writes below
crates/plan_cases. The results that the documents print, or that were worked out by hand, stand in PRINTED and are compared.
"""
import pathlib
import struct

from sliding_window import plan, sums

ROOT = pathlib.Path(__file__).resolve().parent.parent
CRATE = ROOT / "crates" / "plan_cases"


def refusal(disks, slots, load, data):
    """The first refusal of planning, by 01 and 02, as its numbers, or None."""
    if not (1 <= disks <= 64 and 1 <= slots <= 32 and 1 <= load <= 65535):
        return (1,)
    if len(data) % 8 != 0:
        return (2,)
    if len(data) // 8 > 1024:
        return (3,)
    seen = set()
    for position, (film, demand) in enumerate(struct.iter_unpack("<II", data), 1):
        if not 1 <= film <= 65535:
            return (4, position)
        if film >= 50000:
            return (16, position)
        if demand > 1000000:
            return (5, position)
        if film in seen:
            return (6, position)
        seen.add(film)
    return None


def form(*words):
    return "(" + " ".join(str(word) for word in words) + ")"


def pairs(entries):
    return [form(film, number) for film, number in entries]


def printed(data):
    """What `plan` prints for these bytes."""
    if len(data) < 12:
        return form("refused", 2) + "\n"
    disks, slots, load = struct.unpack("<III", data[:12])
    numbers = refusal(disks, slots, load, data[12:])
    if numbers is not None:
        return form("refused", *numbers) + "\n"
    copies, left = plan([(slots, load)] * disks, list(struct.iter_unpack("<II", data[12:])))
    lines = [form("rack", disks, slots, load)]
    lines += [form("disk", number, *pairs(disk)) for number, disk in enumerate(copies, 1)]
    lines += [form("left", *pairs(left)), form("served", *sums(copies, left))]
    return "".join(line + "\n" for line in lines)


def bytes_of(disks, slots, load, *records):
    return struct.pack("<III", disks, slots, load) + b"".join(struct.pack("<II", film, demand) for film, demand in records)


def long_input(length):
    """The rule of the long inputs: rack 3, 4, 50; record i, from 0, has film i + 1 and demand i % 100."""
    count = (length - 12 + 7) // 8
    return bytes_of(3, 4, 50, *((i + 1, i % 100) for i in range(count)))[:length]


# The files, in the order in which the program reads them, which is that of the file `names`.
FILES = {
    "case_b": bytes_of(1, 2, 5),
    "case_c": bytes_of(2, 1, 2, (1, 1), (2, 3)),
    "case_d": bytes_of(1, 3, 10, (1, 4), (2, 6), (3, 10)),
    "case_e": bytes_of(2, 2, 10, (1, 3), (3, 4), (2, 13)),
    "case_f": bytes_of(2, 2, 5, (9, 1000000)),
    "case_g": bytes_of(1, 4, 9, (4, 0), (1, 2), (2, 3)),
    "case_h": bytes_of(1, 1, 5, (7, 5), (2, 5)),
    "case_i": bytes_of(1, 1, 5, (5, 3), (5, 3)),
    "disks_0": bytes_of(0, 1, 1),
    "disks_64": bytes_of(64, 32, 65535, (49999, 1000000), (1, 1)),
    "disks_65": bytes_of(65, 1, 1),
    "slots_0": bytes_of(1, 0, 1),
    "slots_33": bytes_of(1, 33, 1),
    "load_0": bytes_of(1, 1, 0),
    "load_65536": bytes_of(1, 1, 65536),
    "odd_bytes": bytes_of(1, 1, 1, (1, 1)) + bytes(3),
    "odd_bytes_bad_rack": bytes_of(65, 1, 1) + bytes(7),
    "odd_bytes_bad_film": bytes_of(1, 1, 1, (0, 1)) + bytes(1),
    "film_0": bytes_of(1, 1, 1, (1, 1), (0, 1)),
    "film_65536": bytes_of(1, 1, 1, (65536, 1)),
    "film_65541": bytes_of(1, 1, 1, (5, 1), (65541, 1)),
    "film_49999": bytes_of(1, 1, 5, (49999, 5)),
    "film_50000": bytes_of(1, 1, 1, (50000, 1)),
    "film_65535": bytes_of(1, 1, 1, (5, 1), (65535, 1)),
    "clip_before_demand": bytes_of(1, 1, 1, (50000, 1000001)),
    "clip_demand_0": bytes_of(1, 1, 1, (60000, 0), (60000, 0)),
    "clip_after_fault": bytes_of(1, 1, 1, (49999, 1), (49999, 1), (50000, 1)),
    "demand_1000001": bytes_of(1, 1, 1, (1, 0), (2, 1000000), (3, 1000001)),
    "film_before_demand": bytes_of(1, 1, 1, (0, 1000001)),
    "first_fault": bytes_of(1, 1, 1, (1, 1000001), (0, 1)),
    "repeated_after_0": bytes_of(1, 1, 1, (8, 0), (9, 1), (8, 1)),
    "repeated_demand_0": bytes_of(1, 1, 1, (8, 0), (8, 0)),
    "film_0_demand_0": bytes_of(1, 1, 1, (0, 0)),
    "split_returns": bytes_of(2, 2, 10, (1, 2), (2, 3), (3, 14)),
    "shelf_left": bytes_of(1, 1, 5, (7, 5), (2, 0)),
    "shelf_ascending": bytes_of(2, 2, 5, (3, 0), (9, 5), (1, 0), (2, 0)),
    "shelf_full_disk": bytes_of(2, 2, 5, (4, 2), (5, 3), (6, 4), (1, 0)),
    "shelf_alone": bytes_of(2, 1, 5, (3, 0), (1, 0), (2, 0)),
    "shelf_one_slot": bytes_of(1, 1, 5, (8, 0), (6, 0), (4, 0)),
    "shelf_left_by_film": bytes_of(1, 1, 1, (9, 2), (5, 0), (3, 5), (7, 1)),
    "shelf_ten_films": bytes_of(3, 3, 5, (40, 0), (21, 2), (7, 0), (49999, 0), (12, 0), (1, 0), (22, 3), (30, 0), (25, 0), (9, 0),
                                (20, 5), (50, 0), (3, 0)),
    "bytes_0": b"",
    "bytes_11": bytes_of(1, 1, 1)[:11],
    "bytes_11_bad_rack": bytes_of(65, 1, 1)[:11],
    "bytes_12": bytes_of(1, 1, 1),
}

# The lengths of the long inputs. The file `long` has as many bytes of them as the program keeps at most.
KEPT = 8219
LONG = [12 + 8192, 12 + 8200, 12 + 8203, 12 + 8208, 12 + 8211, 1048576, 12 + 1048576]

# What the documents print or say of their cases, and the shelf cases worked out by hand.
PRINTED = {
    "case_b": "(rack 1 2 5)\n(disk 1)\n(left)\n(served 0 0)\n",
    "case_c": "(rack 2 1 2)\n(disk 1 (2 2))\n(disk 2 (2 1))\n(left (1 1))\n(served 3 1)\n",
    "case_d": "(rack 1 3 10)\n(disk 1 (1 4) (2 6))\n(left (3 10))\n(served 10 10)\n",
    "case_e": "(rack 2 2 10)\n(disk 1 (3 4) (2 6))\n(disk 2 (1 3) (2 7))\n(left)\n(served 20 0)\n",
    "case_f": "(rack 2 2 5)\n(disk 1 (9 5))\n(disk 2 (9 5))\n(left (9 999990))\n(served 10 999990)\n",
    "case_g": "(rack 1 4 9)\n(disk 1 (1 2) (2 3) (4 0))\n(left)\n(served 5 0)\n",
    "case_h": "(rack 1 1 5)\n(disk 1 (2 5))\n(left (7 5))\n(served 5 5)\n",
    "case_i": "(refused 6 2)\n",
    "disks_65": "(refused 1)\n",
    "film_65536": "(refused 4 1)\n",
    "film_49999": "(rack 1 1 5)\n(disk 1 (49999 5))\n(left)\n(served 5 0)\n",
    "film_50000": "(refused 16 1)\n",
    "film_65535": "(refused 16 2)\n",
    "clip_before_demand": "(refused 16 1)\n",
    "clip_demand_0": "(refused 16 1)\n",
    "clip_after_fault": "(refused 6 2)\n",
    "demand_1000001": "(refused 5 3)\n",
    "bytes_11": "(refused 2)\n",
    "shelf_left": "(rack 1 1 5)\n(disk 1 (7 5))\n(left (2 0))\n(served 5 0)\n",
    "shelf_ascending": "(rack 2 2 5)\n(disk 1 (9 5) (1 0))\n(disk 2 (2 0) (3 0))\n(left)\n(served 5 0)\n",
    "shelf_full_disk": "(rack 2 2 5)\n(disk 1 (4 2) (5 3))\n(disk 2 (6 4) (1 0))\n(left)\n(served 9 0)\n",
    "shelf_alone": "(rack 2 1 5)\n(disk 1 (1 0))\n(disk 2 (2 0))\n(left (3 0))\n(served 0 0)\n",
    "shelf_one_slot": "(rack 1 1 5)\n(disk 1 (4 0))\n(left (6 0) (8 0))\n(served 0 0)\n",
    "shelf_left_by_film": "(rack 1 1 1)\n(disk 1 (7 1))\n(left (3 5) (5 0) (9 2))\n(served 1 7)\n",
    "shelf_ten_films": "(rack 3 3 5)\n(disk 1 (21 2) (22 3) (1 0))\n(disk 2 (20 5) (3 0) (7 0))\n(disk 3 (9 0) (12 0) (25 0))\n"
                       "(left (30 0) (40 0) (50 0) (49999 0))\n(served 10 0)\n",
}


def main():
    for name, text in PRINTED.items():
        assert printed(FILES[name]) == text, name
    case_a = bytes_of(3, 4, 6, *((film, 1) for film in range(1, 11)), (11, 4), (12, 4))
    assert case_a == (ROOT / "crates" / "plan" / "stdin").read_bytes()
    assert printed(case_a) == (ROOT / "crates" / "plan" / "stdout").read_text()
    data = CRATE / "data"
    data.mkdir(parents=True, exist_ok=True)
    out = []
    for name, content in FILES.items():
        (data / name).write_bytes(content)
        out.append(name + "\n" + printed(content))
    (data / "names").write_text("".join(name + "\n" for name in FILES))
    (data / "long").write_bytes(long_input(KEPT))
    for length in LONG:
        out.append("long " + str(length) + "\n" + printed(long_input(length)))
    (CRATE / "stdout").write_text("".join(out))


if __name__ == "__main__":
    main()
