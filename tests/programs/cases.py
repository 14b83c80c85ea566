"""Writes inputs that are too large to store, each with the output it must have, into the folder named by the argument, below its program's name."""
import struct
import sys

folder = sys.argv[1]


def case(program, name, data, text):
    with open(f"{folder}/{program}/{name}.in", "wb") as out:
        out.write(data)
    with open(f"{folder}/{program}/{name}.out", "w") as out:
        out.write(text)


def words(*values):
    return struct.pack(f"<{len(values)}i", *values)


# 4,096 rows of 7, then 4,096 of 9: 512 lines and two borders; 9 is the last border, so its 256 lines are compared up to 9
halves = [7] * 4096 + [9] * 4096
case("range_rows", "largest", words(9, 9, *halves), "rows 8192 lines 512 borders 2\nwhole 0 compared 4096 skipped 256\n" + "".join(f"{i}\n" for i in range(4096, 8192)))
case("range_rows", "largest_whole", words(-(2**31), 2**31 - 1, *halves), "rows 8192 lines 512 borders 2\nwhole 512 compared 0 skipped 0\n" + "".join(f"{i}\n" for i in range(8192)))
case("range_rows", "too_many", words(9, 9, *halves, 9), "refused 12\n")
case("range_rows", "far_too_many", words(9, 9, *halves) * 3, "refused 12\n")

# as many entries as rows: two hours in turn; and the latest hours, each once, falling
turns = [60 * (i % 2) for i in range(8192)]
case("hour_rows", "largest", words(*turns), "".join(f"{i % 2} {i // 2} {i} 1\n" for i in range(8192)))
case("hour_rows", "latest", words(*(2**31 - 1 - 60 * i for i in range(8192))), "".join(f"{35791394 - i} 0 {i} 1\n" for i in range(8192)))
case("hour_rows", "one_hour", words(*halves), "0 0 0 8192\n")
case("hour_rows", "last_negative", words(*turns[1:], -1), "refused 13\n")
case("hour_rows", "too_many", words(*turns, 0), "refused 12\n")
case("hour_rows", "too_many_and_negative", words(*turns, -1), "refused 12\n")
case("hour_rows", "far_too_many", words(*turns) * 3, "refused 12\n")
