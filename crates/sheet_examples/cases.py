# Writes the cases that the program reads: `python3 cases.py > stdin`. What it must write comes from the second program, which is
# made from the rules alone: `second sheet < stdin > stdout`.
import struct
import sys


def measure(n):
    return b"%03d,%d" % (n // 2, 5 * (n % 2))


def marked(z):
    return (b"-" if z < 0 else b"+") + measure(abs(z))


def board(height):
    return bytes([1, height])


def joint(row, column):
    return b"\x02" + measure(row) + measure(column)


def question(k, row, column):
    return bytes([3, k]) + marked(row) + marked(column)


def window(a, b, c, d):
    return b"\x04" + measure(a) + measure(b) + measure(c) + measure(d)


END = b"\x05"


def case(sheet, work=5957, room=8875):
    sys.stdout.buffer.write(struct.pack("<III", work, room, len(sheet)) + sheet)


# sheet R, with just the room, with one place less, and cut after each of its bytes
joints = joint(0, 1) + joint(1, 0) + joint(2, 3) + joint(3, 3)
requests = question(1, 0, 3) + window(1, 3, 0, 3)
sheet_r = board(2) + joints + requests + END
case(sheet_r)
case(sheet_r, 4, 2)
case(sheet_r, 3, 2)
case(sheet_r, 4, 1)
case(sheet_r, 0, 0)
for n in range(len(sheet_r)):
    case(sheet_r[:n], 4, 2)

# bytes after the end, a second end, no joints, the heights
case(sheet_r + b"\x00", 4, 2)
case(sheet_r + END, 4, 2)
case(board(2) + END, 0, 1)
case(board(2) + END, 0, 0)
for height in (0, 1, 10, 11, 255):
    case(board(height) + END)

# kinds that there are not, and records out of place, at each place; before a cut and before a bad body
starts = [b"", board(2), board(2) + joint(0, 1), board(2) + question(1, 0, 0), board(2) + joint(0, 1) + window(0, 0, 0, 0)]
records = [b"\x00", b"\x06", b"\x31", b"\xff", board(3), joint(1, 1), question(2, -1, 1), window(0, 1, 0, 1), END]
for start in starts:
    for record in records:
        case(start + record + END)
        case(start + record)
        case(start + record[:-1])

# a spoiled byte at each place of each measure
for record in (joint(1, 1), question(2, -1, 1), window(0, 1, 0, 1)):
    for i in range(1 if record[0] != 3 else 2, len(record)):
        for b in b".- 6":
            case(board(2) + record[:i] + bytes([b]) + record[i + 1:] + END)
case(board(2) + question(1, 0, 0)[:2] + b"-000,0" + marked(0) + END)
case(board(2) + question(0, 0, 0)[:2] + marked(0) + b"-000,0" + END)
case(board(2) + question(255, 1999, -1999) + END)

# cells off the board; a measure refused before the cell; one record after the other
for height in (1, 10):
    for row, column in ((2**height - 1, 2**height - 1), (2**height, 0), (0, 2**height), (1999, 1999)):
        case(board(height) + joint(row, column) + END)
case(board(2) + b"\x02" + b"999,5" + b"000.0" + END)
case(board(2) + joint(4, 0) + b"\x09")

# K of 0, and windows reversed or off the board, do not refuse a sheet
case(board(2) + question(0, 0, 0) + window(3, 0, 0, 3) + window(0, 1999, 0, 1999) + END)

# joints more than once, in another order
case(board(2) + joints + joints + END, 8, 2)
case(board(2) + joints + joints + END, 7, 2)
case(board(2) + joint(3, 3) + joint(0, 1) + joint(3, 3) + joint(2, 3) + joint(1, 0) + END, 5, 2)

# the longest sheet, one byte more, and too many distinct joints
many = b"".join(joint(i // 64, i % 64) for i in range(4096))
fill = b"".join(joint(i // 64, i % 64) for i in range(5955 - 4096))
longest = board(10) + many + fill + question(1, 0, 0) + question(2, 5, 5) + END
assert len(longest) == 65536
case(longest)
case(longest + b"\x05")
case(board(10) + many + joint(1023, 1023) + END)
