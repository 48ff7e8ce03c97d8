"""The one configuration line that is printed for a command."""

from config_lines import LOSS_OF_ALL
from model import ALL_BITS, NO_BITS, Command, Delete, FiveTuple, Pipe

# The order of a printed mask, with the hexadecimal digits of each field.
PRINTED_MASK = (
    ("dst-ip", "dst", 8),
    ("src-ip", "src", 8),
    ("dst-port", "dport", 4),
    ("src-port", "sport", 4),
    ("proto", "proto", 2),
)


def mask_words(mask: FiveTuple) -> list[str]:
    if mask == NO_BITS:
        return []
    if mask == ALL_BITS:
        return ["mask all"]
    values = ((word, getattr(mask, name), width) for word, name, width in PRINTED_MASK)
    return ["mask"] + [f"{word} 0x{value:0{width}x}" for word, value, width in values if value]


def loss_words(loss: int) -> list[str]:
    if loss == 0:
        return []
    if loss == LOSS_OF_ALL:
        return ["plr 1"]
    return [f"plr 0.{-(-loss * 10**18 // LOSS_OF_ALL):018d}"]  # rounded up


def command_text(c: Command) -> str:
    """The canonical configuration line."""
    if isinstance(c, Delete):
        return f"{c.target.kind} delete {c.target.number}"
    if isinstance(c, Pipe):
        words = [f"pipe {c.number} config"]
        words += [f"bw {c.bw}bit/s"] if c.bw else []
        words += [f"delay {c.delay}"] if c.delay else []
    else:
        words = [f"queue {c.number} config pipe {c.pipe}"]
        words += [f"weight {c.weight}"] if c.weight != 1 else []
    if c.limit.kbytes is not None:
        words.append(f"queue {c.limit.kbytes}Kbytes")
    elif c.limit.slots != 50:
        words.append(f"queue {c.limit.slots}")
    words += loss_words(c.loss)
    words += [f"buckets {c.buckets}"] if c.buckets is not None else []
    return " ".join(words + mask_words(c.mask))
