"""Sessions made of a number, for others.py: requests that keep all rules, most of which are then broken."""
import random
import struct

import requests

# Bodies that keep all rules, by opcode: the record, and names or data after it.
BODIES = {
    1: b"name\0", 2: struct.pack("<Q", 1), 3: bytes(16), 4: bytes(88), 5: b"", 6: b"name\0text\0",
    8: struct.pack("<IIII", 0o100644, 0, 0, 0) + b"name\0", 9: struct.pack("<II", 0o755, 0) + b"name\0",
    10: b"name\0", 11: b"name\0", 12: struct.pack("<Q", 1) + b"name\0other\0", 13: struct.pack("<Q", 1) + b"name\0",
    14: bytes(8), 15: struct.pack("<QQIIQII", 0, 0, 4096, 0, 0, 0, 0),
    16: struct.pack("<QQIIQII", 0, 0, 8, 0, 0, 0, 0) + b"8 bytes.", 17: b"", 18: bytes(24), 20: bytes(16),
    21: struct.pack("<II", 3, 0) + b"user.name\0abc", 22: struct.pack("<II", 64, 0) + b"user.name\0",
    23: struct.pack("<II", 64, 0), 24: b"user.name\0", 25: bytes(24), 27: bytes(8),
    28: struct.pack("<QQIIQII", 0, 0, 4096, 0, 0, 0, 0), 29: bytes(24), 30: bytes(16), 31: bytes(48), 32: bytes(48),
    33: bytes(48), 34: bytes(8), 35: struct.pack("<IIII", 2, 0o100644, 0, 0) + b"name\0", 36: struct.pack("<Q", 99),
    37: bytes(16), 39: struct.pack("<QIIQII", 0, 0, 0, 0, 4, 4) + b"four", 40: bytes(24),
    41: struct.pack("<QQIIQQ", 0, 0, 4, 0, 0, 0) + b"four", 42: struct.pack("<IIQQQQ", 2, 0, 2, 1, 3, 1), 43: bytes(32),
    44: struct.pack("<QQIIQII", 0, 0, 4096, 0, 0, 0, 0),
    45: struct.pack("<QII", 1, 0, 0) + b"name\0other\0", 46: bytes(24), 47: bytes(56), 50: bytes(8), 51: bytes(16) + b"/\0",
    52: bytes(24), 53: bytes(56),
}
EDGES = 0, 1, 7, 8, 39, 40, 4095, 4096, 65535, 1 << 20, (1 << 20) + 1, 2**31 - 1, 2**31, 2**32 - 1


def broken(made, chance):
    """A request with one or two rules broken."""
    made = bytearray(made)
    for _ in range(chance.choice((1, 1, 2))):
        way = chance.randrange(7)
        if way == 0:
            del made[chance.randrange(len(made)) or 1:]
        elif way == 1:
            made += chance.choice((b"\0", b"x", bytes(8), bytes(chance.randrange(1, 200))))
        elif way == 2 and len(made) > 40:
            del made[chance.randrange(40, len(made)):]
        elif way == 3 and len(made) >= 44:
            struct.pack_into("<I", made, chance.randrange(40, len(made) - 3), chance.choice(EDGES))
        elif way == 4 and 0 in made[40:]:
            made[chance.choice([at for at in range(40, len(made)) if not made[at]])] = 0x78
        elif way == 5 and len(made) >= 4:
            struct.pack_into("<I", made, 0, chance.choice(EDGES))
        elif len(made) > 40:
            made[chance.randrange(40, len(made))] = chance.randrange(256)
        # A kernel's requests say the length that they have; a guest's may not.
        if way != 5 and len(made) >= 4 and chance.randrange(4):
            struct.pack_into("<I", made, 0, len(made))
    return bytes(made)


def some_request(chance):
    """A request of any opcode, or of a number that is none; three of four are broken."""
    opcode = chance.choice((*BODIES, *BODIES, 0, 7, 26, 38, 48, 49, 99, 4096, 2**32 - 1))
    if opcode == 26:
        made = requests.init(7, chance.choice((45, 38, 36, 31, 27)), flags2=11)
    else:
        made = requests.request(opcode, BODIES.get(opcode, bytes(chance.randrange(64))))
    return broken(made, chance) if chance.randrange(4) else made


def whole():
    """A request of each opcode that keeps all rules."""
    return [requests.request(opcode, body) for opcode, body in BODIES.items()]


def session(seed, number):
    """The requests of a session, after the first one of each, which is a good INIT."""
    chance = random.Random(f"{seed} {number}")
    return [some_request(chance) for _ in range(chance.randrange(1, 7))]
