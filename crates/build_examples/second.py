#!/usr/bin/env python3
# The expected stdout of this program from document 01, by sets of cells and recursion over the quarters: second.py > stdout
MAX_HEIGHT, MAX_JOINTS = 10, 4096


def levels(cells, height):
    """The groups of every level: a box's group, then those of its quarters that hold a cell, quarter by quarter."""
    out = [[] for _ in range(height)]

    def down(inside, level, row, column, side):
        half = side // 2
        quarters = []
        for r, c in ((row, column), (row, column + half), (row + half, column), (row + half, column + half)):
            quarters.append((r, c, {p for p in inside if r <= p[0] < r + half and c <= p[1] < c + half}))
        out[level].append([1 if q[2] else 0 for q in quarters])
        if level + 1 < height:
            for r, c, held in quarters:
                if held:
                    down(held, level + 1, r, c, half)

    down(cells, 0, 0, 0, 2 ** height)
    return out


def bitmap(groups):
    bits = "".join(str(b) for g in groups for b in g)
    bits += "0" * (-len(bits) % 8)
    return [int(bits[i:i + 8], 2) for i in range(0, len(bits), 8)]


def in_order(cells, row, column, side):
    """The cells of a box, quarter by quarter."""
    if not cells:
        return []
    if side == 1:
        return [(row, column)]
    half = side // 2
    out = []
    for r, c in ((row, column), (row, column + half), (row + half, column), (row + half, column + half)):
        out += in_order({p for p in cells if r <= p[0] < r + half and c <= p[1] < c + half}, r, c, half)
    return out


def total_of(numbers):
    total = 0
    for n in numbers:
        total = (total * 31 + n + 1) % 65521
    return total


def answer(height, rows, columns, work, room):
    if not 1 <= height <= MAX_HEIGHT:
        return 1
    if len(rows) != len(columns):
        return 20
    if any(r >= 2 ** height or c >= 2 ** height for r, c in zip(rows, columns)):
        return 12
    if work < len(rows):
        return 10
    cells = set(zip(rows, columns))
    if len(cells) > MAX_JOINTS:
        return 5
    groups = [g for level in levels(cells, height) for g in level]
    found = bitmap(groups)
    if len(found) > room:
        return 18
    return cells, len(groups), found


def show(height, rows, columns, work, room):
    line = f"build {height} from {len(rows)} in {work} {room}: "
    a = answer(height, rows, columns, work, room)
    if isinstance(a, int):
        line += f"refused {a}, left 0"
    else:
        cells, boxes, found = a
        line += f"{len(cells)} joints {boxes} boxes {len(found)} bytes sum {total_of(found)}"
        if len(found) < 9:
            line += " =" + "".join(f" {b:02x}" for b in found)
        line += f", check {len(cells)} {boxes}"
        listed = in_order(cells, 0, 0, 2 ** height)
        zeros = [0] * (4096 - len(listed))
        line += f", window {len(listed)} {total_of([r for r, c in listed] + zeros)} {total_of([c for r, c in listed] + zeros)}, members "
        for i in range(6):
            for c in (i, 1):
                line += "-" if i >= 2 ** height else str(int((i, c) in cells))
        line += ", behind 0"
    print(line + ", work 0")


def small(height, rows, columns):
    show(height, rows, columns, 9, 12)


small(2, [0, 1, 2, 3], [1, 0, 3, 3])
small(2, [3, 2, 1, 0], [3, 3, 0, 1])
small(2, [2, 0, 3, 1], [3, 1, 3, 0])
small(2, [2, 0, 3, 1, 2, 2, 0], [3, 1, 3, 0, 3, 3, 1])
small(1, [0, 0, 1, 1], [0, 1, 0, 1])
small(1, [1, 1, 1], [0, 0, 0])
small(10, [1023, 0], [1023, 0])
for h in range(1, 11):
    show(h, [], [], 0, 2)

small(0, [0], [])
small(11, [], [])
small(2, [9], [])
small(2, [0, 1], [0])
small(2, [0, 4], [0, 0])
small(2, [0, 0], [0, 4])
show(2, [0, 0], [4, 0], 1, 0)
show(2, [1, 1], [1, 1], 1, 2)
show(2, [1, 1], [1, 1], 2, 2)
for room in (1, 2, 3):
    show(2, [0, 1, 2, 3], [1, 0, 3, 3], 4, room)
show(1, [], [], 0, 0)

for h in range(1, 6):
    every = [(r, c) for r in range(2 ** h) for c in range(2 ** h)]
    show(h, [r for r, c in every], [c for r, c in every], 1024, 200)


def far(count, period, step, work, room):
    cells = [(i % period // 64 * step, i % period % 64 * step) for i in range(count)]
    show(10, [r for r, c in cells], [c for r, c in cells], work, room)


far(4096, 4096, 16, 4096, 8875)
far(4096, 4096, 16, 4096, 8874)
far(4096, 4096, 16, 4095, 8875)
far(8192, 4096, 16, 8192, 9000)
far(4097, 4097, 8, 4097, 9000)
far(4097, 4097, 8, 4096, 9000)


def scatter(count, height, seed):
    out = []
    for _ in range(count):
        seed = (seed * 1103515245 + 12345) % 2 ** 31
        out.append(seed >> (31 - height))
    return out


for h in range(1, 11):
    for count, seed in ((3, h), (40, h + 20), (1500, h + 40)):
        show(h, scatter(count, h, seed), scatter(count, h, seed + 5000), 1500, 5000)
