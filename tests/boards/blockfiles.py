"""Block files, read and written as the product's paper says under "Block files" and "What comes back".

Shares no code and no table with the crates. `reading.py` hands in the refusals 4 to 9 of `paper.py`.
"""

BLOCK = 512
WORDS, RULES, END = 1, 2, 3
# kind of block: bytes a record, those of its first eight that are in use, records to a full block, most records of a file
RECORDS = {WORDS: (24, 1, 21, 32), RULES: (8, 6, 63, 252)}


def laid(length, runs):
    """A file of zeros with runs of bytes over them: each a position, how often, how far apart, how many bytes and these."""
    file = bytearray(length)
    while runs:
        at, times, step, count = runs[:4]
        for i in range(times):
            place = at + i * step
            if place + count > length:
                raise ValueError("a run leaves the file")
            file[place : place + count] = bytes(runs[4 : 4 + count])
        runs = runs[4 + count :]
    return bytes(file)


def number(data):
    return int.from_bytes(data, "little")


def blocks_of(file):
    return [file[at : at + BLOCK] for at in range(0, len(file), BLOCK)]


def total(block):
    """The sum of a block's sixteen-bit numbers, which has to be 65,535."""
    return sum(number(block[at : at + 2]) for at in range(0, BLOCK, 2)) % 65536


def count_of(block):
    return number(block[4:6])


def stands_alone(block, place):
    """Whether a block is one of the three kinds, by itself, at its place."""
    if block[1] != 1 or number(block[2:4]) != place:
        return False
    count, body = count_of(block), block[8:]
    if block[0] == END:
        return count == 0 and not any(body[4:])
    if block[0] not in RECORDS:
        return False
    size, used, most, _ = RECORDS[block[0]]
    if not 1 <= count <= most or any(body[count * size :]):
        return False
    return not any(any(body[r * size + used : r * size + 8]) for r in range(count))


def begins(blocks):
    """Whether blocks are the first ones of some proper file."""
    if not all(stands_alone(block, i) for i, block in enumerate(blocks)):
        return False
    kinds = [block[0] for block in blocks]
    if kinds != sorted(kinds) or kinds.count(END) > 1:
        return False
    for kind, (_, _, full, most) in RECORDS.items():
        counts = [count_of(block) for block in blocks if block[0] == kind]
        if any(count != full for count in counts[:-1]) or sum(counts) > most:
            return False
    return True


def fault(blocks):
    """The number and place of the first block at fault, or None."""
    for i, block in enumerate(blocks):
        if total(block) != 65535:
            return 2, i
        if not begins(blocks[: i + 1]):
            return 3, i
    return None if blocks[-1][0] == END else (3, len(blocks) - 1)


def read(file, room, refusal):
    """What reading answers: a refusal, or words, rules and limit. `room` is how many numbers and bytes are lent."""
    blocks = blocks_of(file)
    if len(file) % BLOCK or not 1 <= len(blocks) <= 7 or room[0] // 3 < 32 or room[1] // 6 < 252:
        return (1, 0), None
    found = fault(blocks)
    if found:
        return found, None
    words, rules = [], []
    for block in blocks:
        for r in range(count_of(block)):
            if block[0] == WORDS:
                record = block[8 + 24 * r : 32 + 24 * r]
                words += [record[0], number(record[8:16]), number(record[16:24])]
            else:
                rules += block[8 + 8 * r : 14 + 8 * r]
    limit = number(blocks[-1][8:12])
    return refusal(words, rules, limit), (words, rules, limit)


def sealed(kind, place, count, body):
    """A block with the check that makes its sum right."""
    block = bytes([kind, 1]) + place.to_bytes(2, "little") + count.to_bytes(2, "little") + bytes(2) + body.ljust(504, b"\0")
    return block[:6] + (65535 - total(block)).to_bytes(2, "little") + block[8:]


def written(words, rules, limit):
    """The file of a problem."""
    records = [bytes([words[i]]) + bytes(7) + words[i + 1].to_bytes(8, "little") + words[i + 2].to_bytes(8, "little") for i in range(0, len(words), 3)]
    fields = [bytes(rules[i : i + 6]) + bytes(2) for i in range(0, len(rules), 6)]
    parts = [(WORDS, records[i : i + 21]) for i in range(0, len(records), 21)] + [(RULES, fields[i : i + 63]) for i in range(0, len(fields), 63)]
    blocks = [sealed(kind, i, len(part), b"".join(part)) for i, (kind, part) in enumerate(parts)]
    return b"".join(blocks) + sealed(END, len(blocks), 0, limit.to_bytes(4, "little"))


def write(words, rules, limit, room, refusal):
    """What writing answers: a refusal, or the file."""
    if len(words) % 3 or len(rules) % 6 or len(words) > 96 or len(rules) > 1512:
        return (1, 0), None
    if room < BLOCK * (-(-len(words) // 63) - (-len(rules) // 378) + 1):
        return (1, 0), None
    refused = refusal(words, rules, limit)
    return refused, None if refused else written(words, rules, limit)
