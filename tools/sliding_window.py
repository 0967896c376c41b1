"""The plan of a list that is not refused, from the words of document 01 and of 02's requests P1 and P2 alone, for the scripts that
make expected output. A rack is a list of disks by number, each its slots and its load."""
import bisect


def window(films, slots, load):
    """The window's first place and the place after its last, in a list of (demand, film) in 01's order."""
    for end in range(1, min(slots, len(films)) + 1):
        if sum(demand for demand, _ in films[:end]) >= load:
            return 0, end
    for start in range(1, len(films) - slots + 1):
        if sum(demand for demand, _ in films[start : start + slots]) >= load:
            return start, start + slots
    return max(len(films) - slots, 0), len(films)


def fill(films, slots, load):
    """The copies of one disk, each a film and its viewers. They leave the list, to which the rest of a split film returns."""
    start, end = window(films, slots, load)
    copies = [(film, demand) for demand, film in films[start:end]]
    del films[start:end]
    over = sum(viewers for _, viewers in copies) - load
    if over >= 0:
        film, demand = copies[-1]
        copies[-1] = (film, demand - over)
        if over > 0:
            bisect.insort(films, (over, film))
    return copies


def filling_order(rack):
    """The places of the disks in the order of filling: by ascending slots, equal ones by number."""
    return sorted(range(len(rack)), key=lambda place: (rack[place][0], place))


def shelve(disks, rack, films):
    """Puts films of demand 0, by ascending number, each on the lowest disk with a free slot; answers those that find none."""
    left = []
    for film in sorted(films):
        with_room = [copies for copies, (slots, _) in zip(disks, rack) if len(copies) < slots]
        if with_room:
            with_room[0].append((film, 0))
        else:
            left.append((film, 0))
    return left


def plan(rack, records):
    """The copies of each disk by number and the left films, from records of film and demand."""
    films = sorted((demand, film) for film, demand in records if demand >= 1)
    filled = {place: fill(films, *rack[place]) for place in filling_order(rack)}
    copies = [filled[place] for place in range(len(rack))]
    left = shelve(copies, rack, [film for film, demand in records if demand == 0])
    return copies, sorted(left + [(film, amount) for amount, film in films])


def sums(copies, left):
    """S and U: the viewers of all copies, and the amounts of the left films."""
    return sum(viewers for disk in copies for _, viewers in disk), sum(amount for _, amount in left)
