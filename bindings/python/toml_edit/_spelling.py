"""How Python's values are spelled in TOML, and what spellings mean."""

from __future__ import annotations

import datetime
import math
import re
from collections.abc import Mapping, Sequence
from typing import Any, Union

Key = Union[str, int]

_BARE = re.compile(r"[A-Za-z0-9_-]+\Z")
_ESCAPES = {'"': '\\"', "\\": "\\\\", "\b": "\\b", "\t": "\\t", "\n": "\\n", "\f": "\\f", "\r": "\\r"}
_ESCAPED = re.compile(r'["\\\x00-\x1f\x7f]')
_TIME = r"(\d\d):(\d\d)(?::(\d\d)(?:\.(\d+))?)?"
_DATE = r"(\d{4})-(\d\d)-(\d\d)"
_DATETIME = re.compile(r"(?:%s)?(?:[Tt ](?=\d\d:))?(?:%s)?([Zz]|[+-]\d\d:\d\d)?\Z" % (_DATE, _TIME))


def string(text: str) -> str:
    """The spelling of a string."""
    return '"%s"' % _ESCAPED.sub(lambda found: _ESCAPES.get(found[0]) or "\\u%04X" % ord(found[0]), text)


def is_bare(name: str) -> bool:
    """Whether a key of this name needs no quotes."""
    return bool(_BARE.match(name))


def key(name: Key) -> str:
    """The spelling of a key in a path."""
    text = str(name)
    return text if _BARE.match(text) else string(text)


def path(keys: Sequence[Key]) -> str:
    """The spelling of a path."""
    return ".".join(map(key, keys))


def value(given: Any) -> str:
    """The spelling of a value. Raises `TypeError` if TOML has none for it."""
    if isinstance(given, bool):
        return "true" if given else "false"
    if isinstance(given, str):
        return string(given)
    if isinstance(given, int):
        if not -(2**63) <= given < 2**63:
            raise ValueError("an integer of TOML has 64 bits: %d" % given)
        return str(int(given))
    if isinstance(given, float):
        return _float(given)
    if isinstance(given, (datetime.datetime, datetime.date, datetime.time)):
        return given.isoformat().replace("+00:00", "Z")
    if isinstance(given, Mapping):
        if not all(isinstance(name, str) for name in given):
            raise TypeError("the keys of a table are strings")
        if not given:
            return "{}"
        return "{%s}" % ", ".join("%s = %s" % (key(name), value(item)) for name, item in given.items())
    if isinstance(given, Sequence) and not isinstance(given, (bytes, bytearray, memoryview)):
        return "[%s]" % ", ".join(map(value, given))
    raise TypeError("TOML has no value for a %s" % type(given).__name__)


def _float(given: float) -> str:
    if math.isfinite(given):
        return repr(given)
    return "nan" if math.isnan(given) else "inf" if given > 0 else "-inf"


def other(text: str) -> Any:
    """The date or the time that is spelled so; a leap second, which Python lacks, as it is spelled."""
    found = _DATETIME.match(text)
    if not found or found[6] == "60":
        # Python has no leap second.
        return text
    year, month, day, hour, minute, second, fraction, offset = found.groups()
    time = None
    if hour:
        micro = int(((fraction or "") + "000000")[:6])
        time = datetime.time(int(hour), int(minute), int(second or 0), micro, tzinfo=_zone(offset))
    if not year:
        return time
    date = datetime.date(int(year), int(month), int(day))
    return datetime.datetime.combine(date, time) if time else date


def _zone(offset: str | None) -> datetime.tzinfo | None:
    if not offset:
        return None
    if offset in "Zz":
        return datetime.timezone.utc
    minutes = int(offset[1:3]) * 60 + int(offset[4:6])
    return datetime.timezone(datetime.timedelta(minutes=-minutes if offset[0] == "-" else minutes))
