"""Points as values, with coordinates."""
from __future__ import annotations

import csv
import dataclasses
import io
import math
import re
from typing import List, Optional, Tuple

_NUMBER = re.compile(r"[-+]?(\d+\.?\d*|\.\d+)")


def _fields(text: bytes) -> Optional[List[str]]:
    """The four fields of easting,northing,height,note, or None."""
    try:
        rows = list(csv.reader(io.StringIO(text.decode(), newline=""),
                               strict=True))
    except (UnicodeDecodeError, csv.Error):
        return None
    return rows[0] if len(rows) == 1 and len(rows[0]) == 4 else None


def _number(field: str) -> Optional[float]:
    """A coordinate; None if the field is empty, ValueError if it is none."""
    field = field.strip(" \t")
    if field and not _NUMBER.fullmatch(field):
        raise ValueError(field)
    return float(field) if field else None


def _digits(value: Optional[float]) -> str:
    """All digits that the number has, without an exponent."""
    if value is None:
        return ""
    if not math.isfinite(value):
        raise ValueError("a coordinate that is no number")
    digits = repr(float(value))
    if "e" in digits or "E" in digits:
        digits = format(float(value), ".17f").rstrip("0")
    return digits[:-2] if digits.endswith(".0") else digits.rstrip(".")


@dataclasses.dataclass(frozen=True)
class Point:
    """A point by its name, easting, northing, height and note.

    >>> p = Point("CP-101", 4482113.402, 5351874.118, 489.271, "bolt")
    >>> p.text()
    b'4482113.402,5351874.118,489.271,bolt'
    >>> Point.of("CP-101", p.text()) == p
    True
    >>> Point.of("BM-9", b",,489.272,").height
    489.272
    >>> Point.of("SCAN", b"some other text") is None
    True

    What is not known is None; the note is then empty.
    """

    name: str
    easting: Optional[float] = None
    northing: Optional[float] = None
    height: Optional[float] = None
    note: str = ""

    def __post_init__(self) -> None:
        if (self.easting is None) != (self.northing is None):
            raise ValueError("an easting without a northing, or the reverse")

    @classmethod
    def of(cls, name: str, text: Optional[bytes]) -> Optional["Point"]:
        """The point of a text, or None: the text is not coordinates."""
        fields = _fields(text) if text else None
        if fields is None:
            return None
        try:
            easting, northing, height = map(_number, fields[:3])
            if easting is None and height is None:
                return None
            return cls(name, easting, northing, height, fields[3])
        except ValueError:
            return None

    def text(self) -> bytes:
        """Its text, as the command writes it."""
        note = self.note
        if re.search('[,"\r\n]', note):
            note = '"' + note.replace('"', '""') + '"'
        return ",".join([_digits(self.easting), _digits(self.northing),
                         _digits(self.height), note]).encode()

    def offset(self, other: "Point") -> Tuple[float, float]:
        """Metres to the east and to the north from one point to another."""
        if self.easting is None or self.northing is None or \
                other.easting is None or other.northing is None:
            raise ValueError("a point without coordinates")
        return other.easting - self.easting, other.northing - self.northing

    def distance(self, other: "Point") -> float:
        """Metres in plan from one point to another."""
        return math.hypot(*self.offset(other))
