#!/usr/bin/env python3
"""What `flatten` should print for a tile file, by another way.

Reads the file on its own, and finds the lowest cheapest grid level by level: at each level from 0 to top - 1 the smallest
cheapest set of cells is what a maximum flow (blocking flows in layers) leaves within reach of the source, and the height of
a cell is the number of levels whose set holds it. Nothing here is taken from the crates.

    tools/reference_flatten.py [--records N] < FILE

prints the text that `flatten` has to print with the same records (1024 if not given). Other scripts import this one:
`read_tile` and `write_tile` for the format, `solve`, `by_all_grids` (every grid is tried, for tiny tiles) and `text_of`.
"""
import itertools
import sys
from collections import namedtuple

Tile = namedtuple("Tile", "letter rows columns top cells ties")  # cells: (reading, class); ties: (right, down)
Fault = namedtuple("Fault", "number section place inner")

LETTERS = "AQL"
MOST_ROWS, MOST_TOP, MOST_CLASS, MOST_TIE = 64, 1023, 15, 10000


# The format

class Faulty(Exception):
    """The first fault of a file."""


def number_at(file, place):
    return file[place] << 8 | file[place + 1]


def entries(file, section, place, count, size):
    """The places of the entries of a section that begins with its count at this place; each is whole when it is handed out."""
    def need(to):
        if to > len(file):
            raise Faulty(Fault(11, section, len(file), 0))

    need(place + 2)
    if number_at(file, place) != count:
        raise Faulty(Fault(12, section, place, 0))
    for at in range(place + 2, place + 2 + count * size, size):
        need(at + size)
        yield at


def rule_letter(file, place):
    at, = entries(file, 1, place, 1, 1)
    if file[at] not in LETTERS.encode():
        raise Faulty(Fault(13, 1, at, 0))
    return chr(file[at]), at + 1


def shape(file, place, records):
    """Rows, columns and top: the count says three, and together they are one entry."""
    if len(file) >= place + 2 and number_at(file, place) != 3:
        raise Faulty(Fault(12, 2, place, 0))
    if len(file) < place + 8:
        raise Faulty(Fault(11, 2, len(file), 0))
    rows, columns, top = (number_at(file, place + 2 + 2 * i) for i in range(3))
    if not (1 <= rows <= MOST_ROWS and 1 <= columns <= MOST_ROWS and 1 <= top <= MOST_TOP):
        raise Faulty(Fault(14, 2, place + 2, 1))
    if rows * columns > records:
        raise Faulty(Fault(14, 2, place + 2, 2))
    return rows, columns, top, place + 8


def readings(file, place, count, top):
    cells = []
    for at in entries(file, 3, place, count, 3):
        reading, trust = number_at(file, at), file[at + 2]
        if reading > top or trust > MOST_CLASS:
            raise Faulty(Fault(14, 3, at, 5))
        cells.append((reading, trust))
    return cells, place + 2 + 3 * count


def all_ties(file, place, rows, columns):
    ties = []
    for at in entries(file, 4, place, rows * columns, 4):
        row, column = divmod(len(ties), columns)
        right, down = number_at(file, at), number_at(file, at + 2)
        if right > (MOST_TIE if column + 1 < columns else 0) or down > (MOST_TIE if row + 1 < rows else 0):
            raise Faulty(Fault(14, 4, at, 6))
        ties.append((right, down))
    return ties, place + 2 + 4 * rows * columns


def read_tile(file, records=1024):
    """The tile of a file, or its first fault."""
    try:
        letter, place = rule_letter(file, 0)
        rows, columns, top, place = shape(file, place, records)
        cells, place = readings(file, place, rows * columns, top)
        ties, place = all_ties(file, place, rows, columns)
        if place < len(file):
            raise Faulty(Fault(15, 4, place, 0))
    except Faulty as found:
        return found.args[0]
    return Tile(letter, rows, columns, top, cells, ties)


def two_bytes(number):
    return bytes((number >> 8, number & 255))


def sections(tile):
    """The four sections of the file of a tile, each with its count."""
    count = two_bytes(tile.rows * tile.columns)
    return [
        two_bytes(1) + tile.letter.encode(),
        two_bytes(3) + two_bytes(tile.rows) + two_bytes(tile.columns) + two_bytes(tile.top),
        count + b"".join(two_bytes(reading) + bytes((trust,)) for reading, trust in tile.cells),
        count + b"".join(two_bytes(right) + two_bytes(down) for right, down in tile.ties),
    ]


def write_tile(tile):
    return b"".join(sections(tile))


# Prices and energy

def price(letter, reading, trust, height):
    weight = trust * (trust + 1) // 2
    if letter == "A":
        return weight * abs(height - reading)
    if letter == "Q":
        return weight * (height - reading) ** 2
    return weight * (reading - height) if height <= reading else 4 * weight * (height - reading)


def pairs(tile):
    """Two tied cells and the weight of their tie, for each tie that weighs something."""
    found = []
    for i, (right, down) in enumerate(tile.ties):
        if right:
            found.append((i, i + 1, right))
        if down:
            found.append((i, i + tile.columns, down))
    return found


def energy(tile, heights):
    prices = sum(price(tile.letter, *cell, height) for cell, height in zip(tile.cells, heights))
    return prices + sum(weight * abs(heights[a] - heights[b]) for a, b, weight in pairs(tile))


def rounds_due(top):
    return next(r for r in itertools.count() if 2 ** r >= top + 1)


# The smallest cheapest set

class Network:
    """A graph with a source and a sink, and what each of its arcs can still take."""

    def __init__(self, cells):
        self.source, self.sink = cells, cells + 1
        self.arcs = [[] for _ in range(cells + 2)]
        self.to, self.room = [], []

    def join(self, a, b, forth, back):
        """An arc and the one back are neighbours in the lists: their numbers differ in the last bit."""
        for x, y, room in ((a, b, forth), (b, a, back)):
            self.arcs[x].append(len(self.to))
            self.to.append(y)
            self.room.append(room)

    def layers(self):
        """How many arcs each node is from the source, along arcs with room; -1 where there is no way."""
        layer = [-1] * len(self.arcs)
        layer[self.source] = 0
        reached = [self.source]
        for a in reached:
            for arc in self.arcs[a]:
                b = self.to[arc]
                if layer[b] < 0 and self.room[arc]:
                    layer[b] = layer[a] + 1
                    reached.append(b)
        return layer

    def block(self, layer):
        """Sends flow along shortest ways until each of them has an arc without room."""
        arcs, to, room, sink = self.arcs, self.to, self.room, self.sink
        tried = [0] * len(arcs)
        way, a = [], self.source
        while True:
            if a == sink:
                least = min(room[arc] for arc in way)
                for arc in way:
                    room[arc] -= least
                    room[arc ^ 1] += least
                full = next(i for i, arc in enumerate(way) if not room[arc])
                a = to[way[full] ^ 1]
                del way[full:]
                continue
            mine, at, ahead = arcs[a], tried[a], layer[a] + 1
            while at < len(mine) and not (room[mine[at]] and layer[to[mine[at]]] == ahead):
                at += 1
            tried[a] = at
            if at < len(mine):
                way.append(mine[at])
                a = to[mine[at]]
            elif way:
                layer[a] = -1
                a = to[way.pop() ^ 1]
            else:
                return

    def behind_cut(self):
        """Whether each node is within reach of the source once no more flow can be sent."""
        layer = self.layers()
        while layer[self.sink] >= 0:
            self.block(layer)
            layer = self.layers()
        return [it >= 0 for it in layer]


def smallest_cheapest(charges, tied):
    """Of the sets with the least sum of their charges and of the ties with one end in them, the smallest."""
    network = Network(len(charges))
    for a, charge in enumerate(charges):
        if charge < 0:
            network.join(network.source, a, -charge, 0)
        elif charge > 0:
            network.join(a, network.sink, charge, 0)
    for a, b, weight in tied:
        network.join(a, b, weight, weight)
    return network.behind_cut()[:len(charges)]


# The lowest cheapest grid

def steps(tile, level):
    return [price(tile.letter, *cell, level + 1) - price(tile.letter, *cell, level) for cell in tile.cells]


def cut_level(charges, tied, within):
    """The smallest cheapest set, looked for among these cells alone: the ties to the others are charges then."""
    place = {cell: i for i, cell in enumerate(within)}
    near = [charges[cell] for cell in within]
    inner = []
    for a, b, weight in tied:
        if a in place and b in place:
            inner.append((place[a], place[b], weight))
        elif a in place or b in place:
            near[place[a if a in place else b]] += weight
    return [cell for cell, inside in zip(within, smallest_cheapest(near, inner)) if inside]


def solve(tile, nested=True):
    """The heights of the lowest cheapest grid. The set of a level lies in the set of the level below it, so only that one's
    cells are looked at; with nested=False all cells are, at every level, and the sets are compared."""
    tied = pairs(tile)
    heights = [0] * len(tile.cells)
    everywhere = list(range(len(tile.cells)))
    inside, before = everywhere, None
    for level in range(tile.top):
        charges = steps(tile, level)
        # with the charges of the level below, the set is that one's too
        if charges != before or not nested:
            chosen = cut_level(charges, tied, inside if nested else everywhere)
            assert set(chosen) <= set(inside), "the set of a level lies in that of the level below"
            inside, before = chosen, charges
        for cell in inside:
            heights[cell] += 1
    return heights


def by_all_grids(tile):
    """The heights of the lowest cheapest grid, by trying every grid."""
    grids = list(itertools.product(range(tile.top + 1), repeat=len(tile.cells)))
    energies = [energy(tile, grid) for grid in grids]
    least = min(energies)
    cheapest = [grid for grid, its in zip(grids, energies) if its == least]
    lowest = tuple(map(min, zip(*cheapest)))
    assert lowest in cheapest, "one cheapest grid lies below all others"
    return list(lowest)


# The text

def solution_text(tile, heights):
    heading = (tile.rows, tile.columns, tile.top, rounds_due(tile.top), energy(tile, heights))
    lines = [heading] + [heights[i:i + tile.columns] for i in range(0, len(heights), tile.columns)]
    return "".join(" ".join(map(str, line)) + "\n" for line in lines)


def text_of(file, records=1024):
    found = read_tile(file, records)
    if isinstance(found, Fault):
        return "refused " + " ".join(map(str, found)) + "\n"
    return solution_text(found, solve(found))


def main():
    records, words = 1024, sys.argv[1:]
    if len(words) == 2 and words[0] == "--records" and words[1].isdecimal():
        records = int(words[1])
    elif words:
        sys.exit("usage: reference_flatten.py [--records N] < FILE")
    sys.stdout.write(text_of(sys.stdin.buffer.read(), records))


if __name__ == "__main__":
    main()
