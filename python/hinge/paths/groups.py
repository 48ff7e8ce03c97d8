"""Groups columns' rows with equal keys."""

from __future__ import annotations

from hinge.lazy import Integers, np

MIX = 0x9E3779B97F4A7C15  # an odd factor, so that different numbers have different products


def numbered(*keys: Integers) -> Integers:
    """Returns a number for each row, the same for rows with the same keys. Groups rows by a hash of their keys, which is faster
    than sorting by all keys; if two combinations of keys have the same hash, sorts after all."""
    mixture = np.zeros(len(keys[0]), np.uint64)
    for key in keys:
        mixture = (mixture ^ key.astype(np.uint64)) * np.uint64(MIX)
        mixture ^= mixture >> np.uint64(32)
    _, firsts, number = np.unique(mixture, return_index=True, return_inverse=True)
    if any((key[firsts][number] != key).any() for key in keys):
        return np.unique(np.stack(keys), axis=1, return_inverse=True)[1]
    return number


def in_order_of(*keys: Integers) -> Integers:
    """Returns an order that sorts rows: the first key decides, then the second, and so on."""
    order: Integers = np.lexsort(keys[::-1])
    return order


def place_in_group(group: Integers, order: Integers) -> Integers:
    """Returns each row's place in its group, from 0. `order` is an order of the rows in which each group is together."""
    sorted_group = group[order]
    begins = np.flatnonzero(np.concatenate(([True], sorted_group[1:] != sorted_group[:-1]))) if len(order) else order
    lengths = np.diff(np.append(begins, len(order)))
    places = np.empty(len(order), np.int64)
    places[order] = np.arange(len(order)) - np.repeat(begins, lengths)
    return places
