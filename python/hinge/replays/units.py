"""Numbers as people read them, exactly."""

from __future__ import annotations

from typing import Iterable


def ms(ns: int) -> str:
    """Returns milliseconds with all six decimal places, so that readers can check sums."""
    return f"{ns // 10**6:,}.{ns % 10**6:06d} ms"


def seconds(ns: int) -> str:
    """Returns the seconds with all nine decimal places."""
    return f"{ns // 10**9:,}.{ns % 10**9:09d} s"


def socket_address(address: str, port: int) -> str:
    """Returns an address and a port; IPv6 addresses get brackets."""
    return f"[{address}]:{port}" if ":" in address else f"{address}:{port}"


def packets(count: int) -> str:
    return f"{count:,} packet{'' if count == 1 else 's'}"


def rows(numbers: Iterable[int], most: int = 8) -> str:
    """Returns the row numbers as text, with runs such as `3-7`. After `most` runs only the number of the other rows follows."""
    runs: list[list[int]] = []
    for number in sorted(numbers):
        if runs and runs[-1][1] == number - 1:
            runs[-1][1] = number
        else:
            runs.append([number, number])
    view = ", ".join(str(low) if low == high else f"{low}-{high}" for low, high in runs[:most])
    if len(runs) == 1 and runs[0][0] == runs[0][1]:
        return f"row {view}"
    rest = sum(high - low + 1 for low, high in runs[most:])
    return f"rows {view} and {rest:,} more" if rest else f"rows {view}"
