"""cases.py IMAGE FOLDER: writes into FOLDER bad images made of a good one of five blocks or more, each with what `./card read` must say of it."""
import struct
import sys

name, folder = sys.argv[1:]
BLOCK = 512
with open(name, "rb") as image:
    good = image.read()
count = len(good) // BLOCK
blocks = [good[BLOCK * i : BLOCK * (i + 1)] for i in range(count)]
assert count >= 5 and len(good) == BLOCK * count


def case(name, image, text):
    with open(f"{folder}/{name}.card", "wb") as out:
        out.write(image)
    with open(f"{folder}/{name}.out", "w") as out:
        out.write(f"{text}\nstatus 1\n")


def sealed(block):
    """The block with the check that it should have."""
    a = b = 0
    for (x,) in struct.iter_unpack("<H", block[:508]):
        a = (a + x) % 65535
        b = (b + a) % 65535
    return block[:508] + struct.pack("<HH", a, b)


def changed(block, at, data):
    return sealed(block[:at] + data + block[at + len(data) :])


def with_block(number, block):
    return b"".join(blocks[:number] + [block] + blocks[number + 1 :])


assert all(sealed(block) == block for block in blocks)
last = count - 1
second = f"block 2 (of 0 to {last})"
at_last = f"block {last} (of 0 to {last})"
size = struct.unpack("<H", blocks[last][8:10])[0]
for at in (0, 4, 8, 10, 12, 300, 507, 508, 511):
    flipped = bytes([blocks[2][at] ^ 1])
    case(f"flipped_{at}", with_block(2, blocks[2][:at] + flipped + blocks[2][at + 1 :]), f"{second} is damaged: its check does not fit its bytes")
case("flipped_in_the_header", with_block(0, blocks[0][:12] + b"\x01" + blocks[0][13:]), "block 0 is damaged: its check does not fit its bytes")
case("nothing", b"", "block 0 is missing: the image ends before it")
case("left_out", b"".join(blocks[:2] + blocks[3:]), f"{second} is missing or out of place: block 3 stands where it is due")
case("first_left_out", b"".join(blocks[1:]), "block 0 is missing or out of place: block 1 stands where it is due")
case("last_left_out", b"".join(blocks[:last]), f"{at_last} is missing: the image ends before it")
case("cut_within", good[: 2 * BLOCK + 100], f"{second} is cut short: the image ends after 100 of its 512 bytes")
case("cut_by_a_byte", good[:-1], f"{at_last} is cut short: the image ends after 511 of its 512 bytes")
case("twice", b"".join(blocks[:2] + blocks[1:]), f"{second} is missing or out of place: block 1 stands where it is due")
case("swapped", b"".join(blocks[:2] + [blocks[3], blocks[2]] + blocks[4:]), f"{second} is missing or out of place: block 3 stands where it is due")
case("a_byte_more", good + b"\x00", f"behind the last block, block {last}, the image goes on for 1 byte, and no block {count} is due")
case("a_block_more", good + blocks[0], f"behind the last block, block {last}, the image goes on for 512 bytes, and no block {count} is due")
case("two_images", good + good, f"behind the last block, block {last}, the image goes on for {len(good)} bytes, and no block {count} is due")
case("edition_2", with_block(2, changed(blocks[2], 4, b"\x02")), f"{second} is of another edition: 2, and edition 1 is read here")
case("blank", bytes(4096), "block 0 is blank, all zeros: its edition is 0, and edition 1 is read here")
case("erased", b"\xff" * 4096, "block 0 is damaged: its check does not fit its bytes")
case("length", with_block(2, changed(blocks[2], 8, b"\xec")), f"{second} is bad: its payload length is 492, and by the header's counts it is 496")
case("last_length", with_block(last, changed(blocks[last], 8, struct.pack("<H", size + 4))), f"{at_last} is bad: its payload length is {size + 4}, and by the header's counts it is {size}")
case("zero_bytes", with_block(2, changed(blocks[2], 11, b"\x01")), f"{second} is bad: its two zero bytes are not zero")
case("filler", with_block(last, changed(blocks[last], 507, b"\x01")), f"{at_last} is bad: its filler is not zero")

rows, borders, imprints, dictionary = struct.unpack("<4I", blocks[0][12:28])
claim = "its header claims {} borders, {} imprints and {} dictionary words, and an index has at most 63, 268435456 and 268435456"
most = 2**32 - 1
case("claims", changed(blocks[0], 12, b"\xff" * 16), "block 0 is bad: " + claim.format(most, most, most))
case("64_borders", changed(blocks[0], 16, b"\x40"), "block 0 is bad: " + claim.format(64, imprints, dictionary))
over = 268435457
case("imprints_too_many", changed(blocks[0], 20, struct.pack("<I", over)), "block 0 is bad: " + claim.format(borders, over, dictionary))
case("dictionary_too_long", changed(blocks[0], 24, struct.pack("<I", over)), "block 0 is bad: " + claim.format(borders, imprints, over))
none = "the blocks are sound, but they hold no index:"
# Four bytes have no room for more rows than a column can have.
for name, other in (("rows_off", rows + 16), ("rows_of_old", 2**24 + 1), ("rows_at_most", most)):
    case(name, with_block(0, changed(blocks[0], 12, struct.pack("<I", other))), f"{none} their imprints and dictionary words are none of a column of {other} rows")
case("equal_borders", with_block(0, changed(blocks[0], 28, blocks[0][32:36])), f"{none} their borders are not strictly rising")
case("no_imprint", with_block(2, changed(blocks[2], 12, bytes(496))), f"{none} their imprints and dictionary words are none of a column of {rows} rows")
