"""Commands with values of the whole ranges, and lines that read as a command, in many spellings.

All is a function of the random.Random that is handed in.
"""

from random import Random

from config_lines import parse_line
from model import ALL_BITS, DEFAULT_LIMIT, NO_BITS, Command, Delete, FiveTuple, Limit, Pipe, Queue


def either_case(rng: Random, text: str) -> str:
    return "".join(rng.choice((c, c.upper(), c.lower())) for c in text)


def spell_bw(rng: Random, bw: int) -> str:
    found = [f"{bw}", f"{bw}bit/s", f"{bw}{either_case(rng, 'bits/s')}"]
    for letter, scale in (("k", 10**3), ("m", 10**6), ("g", 10**9)):
        if bw % scale == 0:
            found += [f"{bw // scale}{letter.upper()}", f"{bw // scale}{either_case(rng, letter + 'bit/s')}"]
            if bw // scale % 8 == 0:
                found += [f"{bw // scale // 8}{either_case(rng, letter + 'byte/s')}", f"{bw // scale // 8}{letter}Bytes/s"]
    return rng.choice(found)


def spell_limit(rng: Random, limit: Limit) -> str:
    if limit.kbytes is None:
        return str(limit.slots)
    return str(limit.kbytes) + either_case(rng, rng.choice(("K", "KB", "Kbyte", "Kbytes")))


def spell_loss(rng: Random, loss: int) -> str:
    """Any plr of at most 18 digits after the point whose floor is the loss."""
    if loss == 2**31:
        return rng.choice(("1", "1.", "1.0", "01.000"))
    low = -(-loss * 10**18 // 2**31)
    high = -(-(loss + 1) * 10**18 // 2**31) - 1
    return rng.choice(("", "0", "00")) + f".{rng.choice((low, high, rng.randint(low, high))):018d}"


def spell_mask(rng: Random, mask: FiveTuple) -> str:
    names = {"dst": "dst-ip", "src": "src-ip", "dport": "dst-port", "sport": "src-port", "proto": "proto"}
    parts = []
    if mask == ALL_BITS and rng.random() < 0.7:
        return "mask all"
    if rng.random() < 0.1 and mask != NO_BITS:
        parts.append("all")
        parts += [f"{names[n]} 0" for n in names if getattr(mask, n) == 0]
    fields = [n for n in names if getattr(mask, n) != 0 or rng.random() < 0.05]
    rng.shuffle(fields)
    if not fields:
        fields = ["dst"]
    for n in fields:
        value = getattr(mask, n)
        if rng.random() < 0.1:
            parts.append(f"{names[n]} 1")
        parts.append(f"{names[n]} " + rng.choice((str(value), f"0x{value:x}", f"0X{value:08X}")))
    return "mask " + " ".join(parts)


def spelled_options(rng: Random, c: Pipe | Queue) -> list[str]:
    """Returns the options of a line for this command, in some order, mostly without defaults."""
    options = []
    if isinstance(c, Pipe):
        options.append((f"bw {spell_bw(rng, c.bw)}", c.bw == 0))
        options.append((f"delay {c.delay}{rng.choice(('', 'ms'))}", c.delay == 0))
    else:
        options.append((f"pipe {c.pipe}", False))
        options.append((f"weight {c.weight}", c.weight == 1))
    options.append((f"queue {spell_limit(rng, c.limit)}", c.limit == DEFAULT_LIMIT))
    options.append((f"plr {spell_loss(rng, c.loss)}", c.loss == 0))
    if c.buckets is not None:
        options.append((f"buckets {c.buckets}", False))
    options.append((spell_mask(rng, c.mask), c.mask == NO_BITS))
    kept = [text for text, is_default in options if not is_default or rng.random() < 0.1]
    rng.shuffle(kept)
    if rng.random() < 0.1:
        kept.insert(0, rng.choice(("queue 7", "plr 0.3", "mask all", "buckets 64")))  # undone by the options below
        kept += [f"queue {spell_limit(rng, c.limit)}", f"plr {spell_loss(rng, c.loss)}", spell_mask(rng, c.mask)]
        if kept[0].startswith("buckets"):
            kept.pop(0)
    return kept


def spell(rng: Random, c: Command) -> str:
    """A line that reads as this command."""
    words = ["ipfw"] if rng.random() < 0.1 else []
    if isinstance(c, Delete):
        kind, number = c.target.kind, str(c.target.number)
        words += [kind, "delete", number] if rng.random() < 0.5 else [kind, number, "delete"]
    else:
        words += ["pipe" if isinstance(c, Pipe) else "queue", str(c.number), "config"] + " ".join(spelled_options(rng, c)).split()
    text = "".join(w + rng.choice((" ", " ", " ", "  ", "\t", " \r ")) for w in words[:-1]) + words[-1]
    text = rng.choice(("", "", "", " ", "\t")) + text + rng.choice(("", "", "", " ", "\r", "# note", ' # a, "b" #c'))
    assert parse_line(text) == c, (text, c)
    return text


def any_mask(rng: Random) -> FiveTuple:
    if rng.random() < 0.3:
        return rng.choice((NO_BITS, ALL_BITS))
    return FiveTuple(*(rng.choice((0, 0, top, rng.randint(0, top))) for top in (2**32 - 1, 2**32 - 1, 255, 65535, 65535)))


def any_command(rng: Random, pipes: list[int]) -> Command:
    """Returns a pipe or queue command with values from the whole ranges; its pipe is one of these."""
    limit = rng.choice(
        (
            DEFAULT_LIMIT,
            Limit(rng.choice((1, 49, 51, 10000, rng.randint(1, 10000))), None),
            Limit(None, rng.choice((1, 50, 1024, rng.randint(1, 1024)))),
        )
    )
    loss = rng.choice((0, 1, 2, 2**31 - 1, 2**31, rng.randint(0, 2**31)))
    buckets = rng.choice((None, 16, 65536, rng.randint(16, 65536)))
    number = rng.choice((1, 2, 3, 65535, rng.randint(1, 65535)))
    if not pipes or rng.random() < 0.6:
        drawn = rng.randint(0, 10**12), 8000 * rng.randint(1, 10**6)
        bw = rng.choice((0, 1, 8, 10**3, 8 * 10**6, 10**9, 10**12, 10**12 - 1, *drawn))
        return Pipe(number, bw, rng.choice((0, 1, 3_600_000, rng.randint(0, 3_600_000))), limit, loss, buckets, any_mask(rng))
    return Queue(number, rng.choice(pipes), rng.choice((1, 2, 100, rng.randint(1, 100))), limit, loss, buckets, any_mask(rng))
