"""Keys of flows that have one hash where the flow table's hash has the known key 0.

The table's hash adds a secret factor times each half of a key's words, modulo 2^64. Whoever knows the factors finds short
differences of source, destination and ports that add nothing: they are the lattice of x, y, z with a x + b y + c z = 0, and each
sum of a few of its short vectors leads from one colliding key to another. The factors come from the key by SipHash-1-3. With a
drawn key nobody knows them, so these flows cost what others do; where the drawn key doesn't reach the hash they cost their
count squared.
"""

import itertools
import sys
from fractions import Fraction

WORD = 1 << 64
HALF = 1 << 32
EACH_WAY = 30  # of each short vector so many are added or taken away

Vector = tuple[int, ...]


def turned(number: int, bits: int) -> int:
    return (number << bits | number >> 64 - bits) % WORD


def siphash_1_3(data: bytes) -> int:
    """SipHash with one round for each word and three at the end, whose own key is 0."""
    v = [0x736F6D6570736575, 0x646F72616E646F6D, 0x6C7967656E657261, 0x7465646279746573]

    def mix() -> None:
        v[0] = (v[0] + v[1]) % WORD
        v[1] = turned(v[1], 13) ^ v[0]
        v[0] = turned(v[0], 32)
        v[2] = (v[2] + v[3]) % WORD
        v[3] = turned(v[3], 16) ^ v[2]
        v[0] = (v[0] + v[3]) % WORD
        v[3] = turned(v[3], 21) ^ v[0]
        v[2] = (v[2] + v[1]) % WORD
        v[1] = turned(v[1], 17) ^ v[2]
        v[2] = turned(v[2], 32)

    rest = len(data) % 8
    padded = data + bytes(7 - rest) + bytes([len(data) % 256])
    for at in range(0, len(padded), 8):
        word = int.from_bytes(padded[at : at + 8], "little")
        v[3] ^= word
        mix()
        v[0] ^= word
    v[2] ^= 0xFF
    for _ in range(3):
        mix()
    return v[0] ^ v[1] ^ v[2] ^ v[3]


def secret(place: int) -> int:
    """The secret number of that place under the key 0: SipHash of the key's 16 bytes and the place's 8."""
    return siphash_1_3(bytes(16) + place.to_bytes(8, "little"))


def dot(a: Vector, b: Vector) -> int:
    return sum(x * y for x, y in zip(a, b))


def reduced(basis: list[Vector]) -> list[Vector]:
    """Returns short vectors of the lattice, each reduced by the others as long as that helps."""
    better = True
    while better:
        better = False
        for i, j in itertools.permutations(range(len(basis)), 2):
            times = round(Fraction(dot(basis[i], basis[j]), dot(basis[j], basis[j])))
            if times:
                shorter = tuple(x - times * y for x, y in zip(basis[i], basis[j]))
                if dot(shorter, shorter) < dot(basis[i], basis[i]):
                    basis[i] = shorter
                    better = True
    return basis


def differences() -> list[Vector]:
    """Returns three short differences of source, destination and ports that don't change the hash."""
    source, destination, ports = secret(9), secret(8), secret(6)
    inverse = pow(ports, -1, WORD)  # it is odd
    return reduced([(1, 0, -source * inverse % WORD), (0, 1, -destination * inverse % WORD), (0, 0, WORD)])


def colliding(flows: int) -> list[Vector]:
    """So many keys, at most 100,000, each a source, a destination and the ports."""
    short, keys = differences(), list[Vector]()
    for times in itertools.product(range(-EACH_WAY, EACH_WAY), repeat=3):
        key = tuple(HALF // 2 + sum(t * v[place] for t, v in zip(times, short)) for place in range(3))
        if all(0 <= part < HALF for part in key):
            keys.append(key)
        if len(keys) == flows:
            return keys
    sys.exit(f"only {len(keys)} keys collide")
