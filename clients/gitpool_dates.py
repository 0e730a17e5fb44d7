"""Dates of git-fast-import(1), "Date Formats", as the raw dates that a stream has: seconds, a space and an offset.

`rfc2822` is read as git's own parser reads it (date.c of git 2.39): leniently, word by word. It takes what passes for a date in
mail, and what git-commit(1) lists under "Date Formats". A date in words that names no zone is one of the zone of this machine, TZ.
"""
from __future__ import annotations

import re
import time
from typing import Optional, Tuple

FORMATS = ("raw", "raw-permissive", "rfc2822", "now")
"""The formats that a stream may ask for."""

_RAW = re.compile(rb"([0-9]{1,20}) ([+-])([0-9]+)")
_MONTHS = (b"january", b"february", b"march", b"april", b"may", b"june", b"july", b"august", b"september", b"october", b"november",
           b"december")
_WEEKDAYS = (b"sundays", b"mondays", b"tuesdays", b"wednesdays", b"thursdays", b"fridays", b"saturdays")
_DAYS_BEFORE = (0, 31, 59, 90, 120, 151, 181, 212, 243, 273, 304, 334)
_TEN_DAYS = 10 * 24 * 3600
_SECONDS_FROM = 100_000_000
_MOST_DIGITS = 30
_TOO_LARGE: int = 10**30

# Names of zones, each with its hours from UTC, summer time included. The first that fits is taken.
_ZONES: Tuple[Tuple[bytes, int], ...] = (
    (b"idlw", -12), (b"nt", -11), (b"cat", -10), (b"hst", -10), (b"hdt", -9), (b"yst", -9), (b"ydt", -8), (b"pst", -8), (b"pdt", -7),
    (b"mst", -7), (b"mdt", -6), (b"cst", -6), (b"cdt", -5), (b"est", -5), (b"edt", -4), (b"ast", -3), (b"adt", -2), (b"wat", -1),
    (b"gmt", 0),
    (b"utc", 0), (b"z", 0), (b"wet", 0), (b"bst", 1), (b"cet", 1), (b"met", 1), (b"mewt", 1), (b"mest", 2), (b"cest", 2), (b"mesz", 2),
    (b"fwt", 1), (b"fst", 2), (b"eet", 2), (b"eest", 3), (b"wast", 7), (b"wadt", 8), (b"cct", 8), (b"jst", 9), (b"east", 10), (b"eadt", 11),
    (b"gst", 10), (b"nzt", 12), (b"nzst", 12), (b"nzdt", 13), (b"idle", 12))

_LETTERS = re.compile(rb"[A-Za-z]+")
_DIGITS = re.compile(rb"[0-9]+")
_SEVERAL = re.compile(rb"([0-9]+)([:./-])([0-9]+)(?:\2([0-9]+))?")
_FRACTION = re.compile(rb"\.[0-9]+")
_HEADER = re.compile(rb"@([0-9]{1,20}) ([+-])([0-9]{4})(?:\n|$)")


def raw_date(text: bytes, form: str) -> Optional[bytes]:
    """A date of one of FORMATS as the service takes it, or None where it is no date of the format. A raw date stays as it is, but
    for its offset: that gets four digits, and is +0000 where four digits cannot say it."""
    if form == "now":
        return _written(int(time.time()), _offset_here(time.time())) if text == b"now" else None
    if form == "rfc2822":
        found = parse_date(text)
        return None if found is None else _written(*found)
    found_raw = _RAW.fullmatch(text)
    if not found_raw:
        return None
    offset = _number(found_raw.group(3))
    if form == "raw" and offset > 1400:
        return None
    return b"%b %b%04d" % (found_raw.group(1), found_raw.group(2), offset) if offset < 10_000 else found_raw.group(1) + b" +0000"


def _written(seconds: int, minutes: int) -> bytes:
    hours, rest = divmod(abs(minutes), 60)
    return b"%d %b%02d%02d" % (seconds, b"-" if minutes < 0 else b"+", hours, rest)


def _offset_here(seconds: float) -> int:
    return time.localtime(seconds).tm_gmtoff // 60


def parse_date(text: bytes) -> Optional[Tuple[int, int]]:
    """The seconds since 1970 and the minutes from UTC of a date in words, or None where git finds no date in it."""
    header = _HEADER.match(text)
    if header:
        minutes = int(header.group(3)) // 100 * 60 + int(header.group(3)) % 100
        return int(header.group(1)), -minutes if header.group(2) == b"-" else minutes
    date = _Date()
    at = 0
    while at < len(text) and text[at : at + 1] not in (b"\n", b"\0"):
        at += date.take(text, at)
    return date.found()


def _number(digits: bytes) -> int:
    """A number of a date. What has more digits than any date is as large as it has to be, for Python reads no number of any length."""
    return int(digits[-_MOST_DIGITS:]) if not digits[:-_MOST_DIGITS].strip(b"0") else _TOO_LARGE


class _Date:
    """What is known of a date while it is read. Parts that are not known are -1, as in git."""

    def __init__(self) -> None:
        self._year = self._month = self._day = -1
        self._hour = self._minute = self._second = -1
        self._offset = -1
        self._is_utc = False

    def take(self, text: bytes, at: int) -> int:
        """Reads a word or a number from there, and says how many bytes it has. What is neither is passed over."""
        first, after = text[at : at + 1], text[at + 1 : at + 2]
        if first in b"+-" and after.isdigit():
            return self._take_offset(text, at)
        if first.isalpha():
            return self._take_word(text, at)
        return self._take_number(text, at) if first.isdigit() else 1

    def found(self) -> Optional[Tuple[int, int]]:
        """The date, if what was read is enough for one."""
        seconds = self._seconds()
        if seconds is None:
            return None
        offset = self._offset
        if offset == -1:
            offset = self._local_offset(seconds)
        # git counts in unsigned numbers of 64 bits, also below zero.
        return (seconds if self._is_utc else seconds - offset * 60) % (1 << 64), offset

    def _seconds(self) -> Optional[int]:
        """The seconds since 1970 of the date as it stands, as if it were one of UTC."""
        year = self._year - 70
        if not 0 <= year <= 129 or not 0 <= self._month <= 11 or min(self._hour, self._minute, self._second) < 0:
            return None
        day = self._day - (1 if self._month < 2 or (year + 2) % 4 else 0)
        days = year * 365 + (year + 1) // 4 + _DAYS_BEFORE[self._month] + day
        seconds = days * 86_400 + self._hour * 3600 + self._minute * 60 + self._second
        return None if seconds == -1 else seconds

    def _local_offset(self, seconds: int) -> int:
        """The minutes from UTC here, at the date as it stands."""
        there = time.mktime((self._year + 1900, self._month + 1, self._day, self._hour, self._minute, self._second, 0, 0, -1))
        minutes = abs(seconds - int(there)) // 60
        return minutes if seconds > there else -minutes

    # Words

    def _take_word(self, text: bytes, at: int) -> int:
        word = _word_at(text, at)
        for month, name in enumerate(_MONTHS):
            if _fits(word, name) >= 3:
                self._month = month
                return _fits(word, name)
        for name in _WEEKDAYS:
            if _fits(word, name) >= 3:
                return _fits(word, name)
        for name, hours in _ZONES:
            size = _fits(word, name)
            if size >= 3 or size == len(name):
                self._offset = hours * 60 if self._offset == -1 else self._offset
                return size
        return self._take_half(word, text, at)

    def _take_half(self, word: bytes, text: bytes, at: int) -> int:
        """AM, PM, the T of a compact date, or letters that mean nothing."""
        for name, hours in ((b"pm", 12), (b"am", 0)):
            if _fits(word, name) == 2:
                self._hour = _remainder(self._hour, 12) + hours
                return 2
        found = _LETTERS.match(text, at)
        return len(found.group()) if found else 1

    # Numbers

    def _take_number(self, text: bytes, at: int) -> int:
        digits = _digits_at(text, at)
        number, size = _number(digits), len(digits)
        if number >= _SECONDS_FROM and self._is_empty() and self._set_seconds(number):
            return size
        several = _SEVERAL.match(text, at)
        taken = self._take_several(several, text) if several else 0
        if taken:
            return taken - at
        if size in (6, 8):
            return self._take_compact(number, size, text, at)
        if size == 4:
            self._take_four(number)
        elif size <= 2:
            self._take_short(number, size)
        return size

    def _is_empty(self) -> bool:
        return self._year & self._month & self._day & self._hour & self._minute & self._second < 0

    def _set_seconds(self, seconds: int) -> bool:
        """Sets all parts by the seconds since 1970, if they are a time."""
        try:
            at = time.gmtime(seconds)
        except (OverflowError, OSError, ValueError):
            return False
        self._year, self._month, self._day = at.tm_year - 1900, at.tm_mon - 1, at.tm_mday
        self._hour, self._minute, self._second = at.tm_hour, at.tm_min, at.tm_sec
        self._is_utc = True
        return True

    def _take_several(self, found: "re.Match[bytes]", text: bytes) -> int:
        """A time, or a date of two or three numbers. Gives where it ends, or 0 where it is neither."""
        first, second = _number(found.group(1)), _number(found.group(3))
        third = -1 if found.group(4) is None else _number(found.group(4))
        if found.group(2) == b":":
            if not self._set_time(first, second, max(third, 0)):
                return 0
            return _after_fraction(text, found.end()) if min(self._year, self._month, self._day) != -1 else found.end()
        return found.end() if self._set_some_date(first, second, third, found.group(2) == b".") else 0

    def _set_some_date(self, first: int, second: int, third: int, is_dotted: bool) -> bool:
        """Takes three numbers as a date, in the order that fits: a year in front, and else months before days, but for dots."""
        if first > 70 and (self._set_date(first, second, third) or self._set_date(first, third, second)):
            return True
        months_first, days_first = (third, first, second), (third, second, first)
        ways = (days_first, months_first) if is_dotted else (months_first, days_first)
        return any(self._set_date(*way, is_past=True) for way in ways)

    def _take_compact(self, number: int, size: int, text: bytes, at: int) -> int:
        """The date of eight digits, or the time of six."""
        first, second, third = number // 10_000, number % 10_000 // 100, number % 100
        if size == 8:
            self._set_date(first, second, third)
        elif self._set_time(first, second, third):
            return _after_fraction(text, at + size) - at
        return size

    def _take_four(self, number: int) -> None:
        if number <= 1400 and self._offset == -1:
            self._offset = number // 100 * 60 + number % 100
        elif 1900 < number < 2100:
            self._year = number - 1900

    def _take_short(self, number: int, size: int) -> None:
        """A day, a year of two digits or a month, whichever is wanting."""
        if 0 < number < 32 and self._day < 0:
            self._day = number
        elif size == 2 and self._year < 0 and number < 10 and self._day >= 0:
            self._year = number + 100
        elif size == 2 and self._year < 0 and number >= 70:
            self._year = number
        elif 0 < number < 13 and self._month < 0:
            self._month = number - 1

    def _take_offset(self, text: bytes, at: int) -> int:
        digits = _digits_at(text, at + 1)
        hours, minutes, end = _number(digits), 0, at + 1 + len(digits)
        if len(digits) == 4:
            hours, minutes = divmod(hours, 100)
        elif len(digits) != 2:
            minutes = 99
        elif text[end : end + 1] == b":":
            more = _digits_at(text, end + 1)
            minutes, end = int(more) if len(more) == 2 else 99, end + 1 + len(more)
        if minutes < 60 and hours < 24:
            self._offset = (hours * 60 + minutes) * (-1 if text[at : at + 1] == b"-" else 1)
        return end - at

    def _set_time(self, hour: int, minute: int, second: int) -> bool:
        if hour > 24 or minute > 59 or second > 60:
            return False
        self._hour, self._minute, self._second = hour, minute, second
        return True

    def _set_date(self, year: int, month: int, day: int, *, is_past: bool = False) -> bool:
        """Sets a date, if it is one. is_past refuses one that comes more than ten days after today."""
        if not 0 < month < 13 or not 0 < day < 32:
            return False
        kept = self._year, self._month, self._day
        whole = _whole_year(year, time.gmtime().tm_year - 1900 if is_past else self._year)
        # A month and a day stay in git, too, where the year before them is none.
        self._year, self._month, self._day = self._year if whole is None else whole, month - 1, day
        if not is_past:
            return whole is not None
        seconds = self._seconds()
        if whole is None or seconds is not None and seconds > time.time() + _TEN_DAYS:
            self._year, self._month, self._day = kept
            return False
        self._year = kept[0] if year == -1 else whole
        return True


def _whole_year(year: int, else_year: int) -> Optional[int]:
    """A year counted from 1900, given with two digits or four, or as -1 for the other one; None where it is out of reach."""
    if year == -1:
        return else_year
    if 1970 <= year < 2100:
        return year - 1900
    if 70 < year < 100:
        return year
    return year + 100 if 0 <= year < 38 else None


def _word_at(text: bytes, at: int) -> bytes:
    """The letters and digits from there, in small letters."""
    end = at
    while end < len(text) and text[end : end + 1].isalnum():
        end += 1
    return text[at:end].lower()


def _fits(word: bytes, name: bytes) -> int:
    """How many bytes a word has that is the beginning of a name, and 0 for another word."""
    return len(word) if name.startswith(word) else 0


def _digits_at(text: bytes, at: int) -> bytes:
    found = _DIGITS.match(text, at)
    return found.group() if found else b"0"


def _after_fraction(text: bytes, at: int) -> int:
    found = _FRACTION.match(text, at)
    return found.end() if found else at


def _remainder(number: int, by: int) -> int:
    """The remainder as C has it, with the sign of the number."""
    return number % by if number >= 0 else -(-number % by)


__all__ = ["FORMATS", "parse_date", "raw_date"]
