"""Patterns of names that are half legible."""
from __future__ import annotations

from typing import Collection, FrozenSet, List, Set


def _class(words: bytes) -> FrozenSet[int]:
    none_of = words[:1] in (b"!", b"^")
    words, i = words[none_of:], 0
    some: Set[int] = set()
    while i < len(words):
        if words[i + 1:i + 2] == b"-" and i + 2 < len(words):
            some.update(range(words[i], words[i + 2] + 1))
            i += 3
        else:
            some.add(words[i])
            i += 1
    some = set(range(1, 256)) - some if none_of else some - {0}
    if not some:
        raise ValueError("a class that no byte fits")
    return frozenset(some)


def places(pattern: bytes, size: int) -> List[Collection[int]]:
    """For each byte of a key, those that it may be."""
    found: List[Collection[int]] = []
    at = 0
    while at < len(pattern):
        byte = pattern[at:at + 1]
        if byte == b"*":
            if at + 1 != len(pattern):
                raise ValueError("a * that is not at the pattern's end")
            return found + [range(256)] * (size - len(found))
        if byte == b"?":
            found.append(range(1, 256))
        elif byte == b"[":
            end = pattern.index(b"]", at + 2)
            found.append(_class(pattern[at + 1:end]))
            at = end
        else:
            found.append((pattern[at],))
        at += 1
    if len(found) > size:
        raise ValueError("more places than a name of this file has bytes")
    return found + [(0,)] * (size - len(found))
