"""Prints what the program cross_check has to print, from a generator here and a planner of document 01's and 02's words alone.

The generator draws the same cases as the program does. The planner, in sliding_window.py, shares nothing with the program: the list
is a sorted Python list of (demand, film), and a split film is inserted anew. The last line says what the comparison has to find.
Usage: python3 tools/cross_check_expected.py > crates/cross_check/stdout
With the argument --families the refusals by number, the disks that 13 names and the refusals behind it, the plans by family, what
films of demand 0 meet, and which racks of unequal disks there are go to standard error.
"""
import struct
import sys
from collections import Counter

from sliding_window import plan, sums

CASES = 25_000
BITS = (1 << 64) - 1


def mix(x):
    x = (x ^ (x << 13)) & BITS
    x ^= x >> 7
    x = (x ^ (x << 17)) & BITS
    return (x + 11_400_714_819_323_198_485) & BITS


def draw(case, place, most):
    if most == 0:
        return 0
    x = ((case << 16) | place) & BITS
    for _ in range(4):
        x = mix(x)
    return (x >> 20) % most


def from_to(case, place, low, high):
    return low + draw(case, place, high - low + 1) if low < high else low


def shuffled(n):
    if n >= 1 << 15:
        return n
    n = (n ^ (n << 7)) & 32_767
    n ^= n >> 9
    return (n ^ (n << 8)) & 32_767


# Family: most disks, most slots, most load, most records, lowest and highest demand.
FAMILIES = {
    0: (4, 4, 12, 8, 0, 9),
    1: (6, 5, 10, 16, 1, 3),
    2: (5, 4, 9, 9, 1, 3),
    3: (4, 5, 6, 12, 1, 2),
    4: (8, 32, 40, 2, 0, 60),
    5: (16, 12, 200, 129, 0, 99),
    6: (8, 4, 1, 12, 0, 4),
    7: (64, 32, 65_535, 40, 0, 1_000_000),
    8: (4, 4, 12, 8, 0, 9),
    9: (4, 4, 12, 8, 0, 9),
}


def setting(what, n):
    """The fault that sets a disk's slots (0) or its load (1)."""
    return lambda disk: disk.__setitem__(what, n)


def adding(what, n):
    """The fault that adds to a disk's slots (0) or its load (1)."""
    return lambda disk: disk.__setitem__(what, disk[what] + n)


# The faults of a disk: a number at or beyond its limits, or one more or one fewer than the ratio wants.
DISK_FAULTS = {
    2: setting(0, 0), 3: setting(0, 33), 4: setting(1, 0), 5: setting(1, 65_536),
    15: adding(1, 1), 16: adding(1, 1), 17: adding(1, -1), 18: adding(0, 1), 19: adding(0, -1),
}


class Case:
    def __init__(self, number):
        self.number = number
        family = number % 10
        disks, slots, load, records, self.low, self.high = FAMILIES[family]
        self.disks = from_to(number, 0, 1, disks)
        self.slots = from_to(number, 1, 1, slots)
        self.load = from_to(number, 2, 1, load)
        self.records = from_to(number, 3, 0, records)
        self.folds, self.doubled, self.odd_bytes, self.short = 1, 0, 0, 0
        self.sizes = 1
        self.faults, self.disk_faults = [], []
        if family == 2:
            self.folds = 3
        if family == 3:
            self.doubled = draw(number, 4, 3)
            self.load *= 2**self.doubled
        if family == 5:
            self.records = from_to(number, 3, 30, 129)
        if family == 7:
            self.disks, self.slots = 64, 32
            if draw(number, 5, 3) == 0:
                self.low = 1_000_000
            if number % 2_500 == 7:
                self.records, self.low = 1_024, 0
        if family >= 8 and draw(number, 19, 2) == 0:
            self.disks = from_to(number, 0, 5, 64)
        if draw(number, 17, 4) > 0:
            self.unequal(family)
        if family >= 8:
            self.fault(draw(number, 6, 21), 25)
        if family == 9:
            self.fault(draw(number, 7, 21), 26)

    def unequal(self, family):
        """Disks of several sizes: up to so many times the slots and the load, as far as the ranges go."""
        if family == 7:
            self.slots, self.load = from_to(self.number, 1, 1, 16), from_to(self.number, 2, 1, 16_383)
        self.sizes = min(from_to(self.number, 18, 2, 8), 32 // self.slots, 65_535 // self.load)

    def fault(self, fault, place):
        if fault in (0, 1):
            self.disks = (0, 65)[fault]
        elif fault == 6:
            self.odd_bytes = from_to(self.number, 9, 1, 7)
        elif fault == 7:
            self.records = from_to(self.number, 10, 1_025, 1_029)
        elif fault in (8, 9):
            self.short = from_to(self.number, 11, 1, 3)
        elif fault in DISK_FAULTS:
            self.disk_faults.append((fault, place))
        else:
            self.faults.append(fault)

    def rack(self):
        """The disks, each its slots and its load."""
        sizes = [from_to(self.number, 6_000 + d, 1, self.sizes) for d in range(self.disks)]
        disks = [[self.slots * size, self.load * size] for size in sizes]
        for fault, place in self.disk_faults if disks else ():
            which = draw(self.number, place, 4)
            d = (0, self.disks - 1)[which] if which < 2 else draw(self.number, place + 64, self.disks)
            DISK_FAULTS[fault](disks[d])
        return [tuple(disk) for disk in disks]

    def own_film(self, i):
        way = draw(self.number, 12, 4)
        start = from_to(self.number, 13, 1, 48_900)
        if way == 0:
            return start + i
        if way == 1:
            return 49_999 - i
        return shuffled(start + i)

    def film(self, i):
        film = self.own_film(i)
        for fault in self.faults if i == draw(self.number, 8, self.records) else ():
            if fault == 10:
                film = 0
            elif fault == 11:
                film = (65_536, 65_541)[draw(self.number, 14, 2)]
            elif fault == 20:
                film = (50_000, 65_535)[draw(self.number, 14, 2)]
            elif fault != 12:
                film = self.own_film(draw(self.number, 15, i))
        return film

    def unwanted(self, i):
        """Whether the demand of record i is turned to 0. Of 16 cases one turns all, three turn one in 2, two turn one in 4."""
        of_4 = (4, 2, 2, 2, 1, 1)
        case = draw(self.number, 16, 16)
        return case < len(of_4) and draw(self.number, 4_000 + i, 4) < of_4[case]

    def demand(self, i):
        if 12 in self.faults and i == draw(self.number, 8, self.records):
            return 1_000_001
        if self.unwanted(i):
            return 0
        own = from_to(self.number, 100 + i, self.low, self.high) * 2**self.doubled
        return own + self.load * draw(self.number, 2_000 + i, self.folds)

    def length(self, table, needed):
        if self.short == table:
            return max(needed - 1, 0)
        return needed + draw(self.number, 20 + table, 3)

    def list(self):
        data = bytearray()
        for i in range(self.records):
            data += self.film(i).to_bytes(4, "little") + self.demand(i).to_bytes(4, "little")
        return bytes(data) + bytes(self.odd_bytes)


def rack_refusal(rack):
    """12 or 13 and the second number, or (0, 0)."""
    if not 1 <= len(rack) <= 64 or any(not (1 <= slots <= 32 and 1 <= load <= 65_535) for slots, load in rack):
        return 12, 0
    for number, (slots, load) in enumerate(rack, 1):
        if load * rack[0][0] != rack[0][1] * slots:
            return 13, number
    return 0, 0


def refusal(rack, data, copies, counts, lefts):
    """The first refusal of planning, or 0."""
    if rack_refusal(rack)[0]:
        return rack_refusal(rack)[0]
    if len(data) % 8:
        return 2
    if len(data) // 8 > 1_024:
        return 3
    if copies < sum(slots for slots, _ in rack) or counts < len(rack) or lefts < len(data) // 8:
        return 7
    seen = set()
    for at in range(0, len(data), 8):
        film = int.from_bytes(data[at : at + 4], "little")
        demand = int.from_bytes(data[at + 4 : at + 8], "little")
        if not 1 <= film <= 65_535:
            return 4
        if film >= 50_000:
            return 16
        if demand > 1_000_000:
            return 5
        if film in seen:
            return 6
        seen.add(film)
    return 0


def met(rack, records, copies, left):
    """What the films of demand 0 of a list meet, in words to count."""
    shelf = sum(demand == 0 for _, demand in records)
    amounts = [amount for _, amount in left]
    shelved = [bool(disk) and disk[-1][1] == 0 for disk in copies]
    full = [len(disk) == slots and disk[-1][1] > 0 for disk, (slots, _) in zip(copies, rack)]
    return {
        "lists with some": shelf > 0,
        "with three or more": shelf > 2,
        "with no others": shelf == len(records) > 0,
        "with some left": 0 in amounts,
        "with some left beside amounts": 0 in amounts and any(amounts),
        "with some behind viewers": any(last and disk[0][1] > 0 for last, disk in zip(shelved, copies)),
        "with some behind a full disk": any(first and second for first, second in zip(full, shelved[1:])),
    }


def kinds(rack, copies):
    """What racks of unequal disks there are, in words to count."""
    slots = [slots for slots, _ in rack]
    equal = any(slots.count(k) > 1 and sum(map(bool, (c for c, n in zip(copies, slots) if n == k))) > 1 for k in set(slots))
    return {
        "racks": True,
        "not ascending": slots != sorted(slots),
        "of three sizes or more": len(set(slots)) > 2,
        "with copies on two equal disks": equal,
        "with copies on all disks": all(copies),
        "of a ratio that is not whole": rack[0][1] % rack[0][0] > 0,
        "with 64 disks": len(rack) == 64,
        "with 32 slots": 32 in slots,
        "with a load above 60,000": max(load for _, load in rack) > 60_000,
    }


def main():
    refused, ratios, behind, plans, shelf, unequal, tally = (Counter() for _ in range(7))
    for number in range(CASES):
        c = Case(number)
        rack, data = c.rack(), c.list()
        needed = sum(slots for slots, _ in rack), len(rack), c.records
        lent = [c.length(table, n) for table, n in enumerate(needed, 1)]
        why = refusal(rack, data, *lent)
        if why:
            refused[why] += 1
            if why == 13:
                ratios[rack_refusal(rack)[1]] += 1
                behind[refusal(rack[:1], data, *lent)] += 1
            continue
        records = list(struct.iter_unpack("<II", data))
        disks, left = plan(rack, records)
        served, unserved = sums(disks, left)
        mixed = len(set(rack)) > 1
        tally.update({"mixed": mixed, "served": served, "left": unserved, "copies": sum(map(len, disks)), "left films": len(left)})
        plans[number % 10] += 1
        shelf.update(met(rack, records, disks, left))
        unequal.update(kinds(rack, disks) if mixed else {})
    if "--families" in sys.argv:
        print("refusals:", sorted(refused.items()), "plans:", sorted(plans.items()), file=sys.stderr)
        print("disks named by 13:", sorted(ratios.items()), "refusals behind it:", sorted(behind.items()), file=sys.stderr)
        print("films of demand 0:", dict(shelf), file=sys.stderr)
        print("unequal disks:", dict(unequal), file=sys.stderr)
    print("cases", CASES)
    print("refused", sum(refused.values()))
    print("\n".join(f"{word} {tally[word]}" for word in ("mixed", "served", "left", "copies", "left films")))
    print("differ 0")


main()
