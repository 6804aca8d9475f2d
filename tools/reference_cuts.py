#!/usr/bin/env python3
"""What the program `trial` should print, by another way.

Makes the same pseudo-random tiles and finds the smallest cheapest set of each by a maximum flow
(blocking flows in layers) on a graph with a source and a sink; nothing here is taken from the crates.
Usage: tools/reference_cuts.py > crates/trial/stdout
"""
import sys
from collections import deque

MASK = (1 << 64) - 1


class Random:
    def __init__(self, seed):
        self.state = seed

    def below(self, n):
        self.state = (self.state * 6364136223846793005 + 1442695040888963407) & MASK
        return (self.state >> 33) % n


def make(rng, rows, columns, charge, tie):
    """Charges, brackets, ties and starting flows, in the order in which the program draws them."""
    n = rows * columns
    cells = []
    for u in range(n):
        c = rng.below(2 * charge + 1) - charge
        band = rng.below(16)
        low, high = (0, 7) if band < 13 else (8, 15) if band < 15 else (5, 5)
        right = rng.below(tie + 1) if u % columns + 1 < columns else 0
        down = rng.below(tie + 1) if u + columns < n else 0
        cells.append([c, low, high, right, down])
    edges = []
    for u in range(n):
        for v, w in ((u + 1, cells[u][3]), (u + columns, cells[u][4])):
            if v < n and cells[u][1:3] == cells[v][1:3] and cells[u][1] != cells[u][2]:
                if v == u + columns or u % columns + 1 < columns:
                    edges.append((u, v, w))
    return cells, edges


def draw_flows(rng, rows, columns, cells):
    """The program draws a start for both flows of every record; the cheapest sets do not depend on it."""
    for _ in cells:
        rng.below(1 << 20)
        rng.below(1 << 20)


def smallest_cheapest(n, charges, edges):
    s, t = n, n + 1
    head = [[] for _ in range(n + 2)]
    to, cap = [], []

    def arc(a, b, forth, back):
        head[a].append(len(to)); to.append(b); cap.append(forth)
        head[b].append(len(to)); to.append(a); cap.append(back)

    for u, c in enumerate(charges):
        if c < 0:
            arc(s, u, -c, 0)
        elif c > 0:
            arc(u, t, c, 0)
    for u, v, w in edges:
        arc(u, v, w, w)
    while True:
        level = [-1] * (n + 2)
        level[s] = 0
        queue = deque([s])
        while queue:
            a = queue.popleft()
            for i in head[a]:
                if cap[i] and level[to[i]] < 0:
                    level[to[i]] = level[a] + 1
                    queue.append(to[i])
        if level[t] < 0:
            return [level[u] >= 0 for u in range(n)]
        at = [0] * (n + 2)
        while True:
            path, a = [], s
            while a != t:
                while at[a] < len(head[a]):
                    i = head[a][at[a]]
                    if cap[i] and level[to[i]] == level[a] + 1:
                        break
                    at[a] += 1
                if at[a] == len(head[a]):
                    if not path:
                        break
                    level[a] = -1
                    a = to[path.pop() ^ 1]
                    at[a] += 1
                    continue
                path.append(head[a][at[a]])
                a = to[path[-1]]
            if a != t:
                break
            f = min(cap[i] for i in path)
            for i in path:
                cap[i] -= f
                cap[i ^ 1] += f


def group(rng, rows, columns, charge, tie, tiles):
    marked = cost = check = 0
    for _ in range(tiles):
        cells, edges = make(rng, rows, columns, charge, tie)
        draw_flows(rng, rows, columns, cells)
        inside = smallest_cheapest(rows * columns, [c[0] for c in cells], edges)
        for u, x in enumerate(inside):
            check = (check * 3 + x + u) % 1000003
            marked += x
            cost += cells[u][0] if x else 0
        cost += sum(w for u, v, w in edges if inside[u] != inside[v])
    print(f"{rows} x {columns}, charges to {charge}, ties to {tie}: tiles {tiles}, alike {tiles}, marked {marked}, cost {cost}, check {check}")


def main():
    print("charges 11 -9 over a tie of 6: flow -6, marks 0 1; flow -6, marks 0 1")
    rng = Random(2014)
    for rows, columns in ((1, 1), (1, 8), (8, 1), (2, 2), (3, 5), (8, 8)):
        group(rng, rows, columns, 300, 100, 40)
        group(rng, rows, columns, 20, 100, 40)
    group(rng, 16, 16, 300000, 10000, 8)
    group(rng, 16, 16, 9000, 10000, 8)
    group(rng, 64, 64, 9000, 10000, 1)
    group(rng, 64, 64, 300, 10000, 1)
    group(rng, 256, 64, 9000, 10000, 1)
    group(rng, 256, 64, 300, 10000, 1)


if __name__ == "__main__":
    sys.exit(main())
