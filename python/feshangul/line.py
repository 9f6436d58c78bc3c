"""One line of a mesh, read from left to right. Whatever does not fit says what was expected and what stood there instead."""

import re
from decimal import Decimal

from .fault import InputFault, quoted

_SPACES = re.compile(r"\s*")
_DIGITS = re.compile(r"[0-9]+")
_LENGTH = re.compile(r"([0-9]+)(?:\.([0-9]+))?(km|m)?(?![\w.])")
_DECIMAL = re.compile(r"-?[0-9]+(?:\.[0-9]+)?(?![\w.])")
_NAME = re.compile(r"\w[\w./+-]*")
_TITLE = re.compile(r'"([^"]*)"')
_METRES_IN = {"km": 1000, "m": 1, None: 1}


class Line:
    """What is left of a line."""

    def __init__(self, text):
        self.text = _without_comment(text)
        self._step(0)

    def _step(self, to):
        self.at = _SPACES.match(self.text, to).end()

    def _take(self, pattern):
        found = pattern.match(self.text, self.at)
        if found:
            self._step(found.end())
        return found

    def is_empty(self):
        return self.at == len(self.text)

    def take(self, mark):
        """Steps over a mark or word, where the line goes on with it."""
        found = self.text.startswith(mark, self.at)
        if found:
            self._step(self.at + len(mark))
        return found

    def name_ahead(self):
        """The word that the line goes on with, not stepped over; None where there is none."""
        found = _NAME.match(self.text, self.at)
        return found[0] if found else None

    def need(self, mark):
        if not self.take(mark):
            raise self.expected(f'"{mark}"')

    def number(self, what, most, true_range=None):
        """A whole number of at most `most`, as wide as its field; the message tells the range in which it makes sense, where
        `what` does not say it."""
        found = _DIGITS.match(self.text, self.at)
        number = _whole(found[0], most) if found else None
        if number is None:
            raise self.expected(f"{what} from {true_range}" if true_range else what)
        self._step(found.end())
        return number

    def metres(self, what, most, true_range):
        """A length: 1200, 1200m or 1.2km, exact to the metre or refused."""
        found = _LENGTH.match(self.text, self.at)
        if not found:
            raise self.expected(f"{what} from {true_range}, as 1200, 1200m or 1.2km")
        digits, fraction, unit = found.groups()
        scale = len(str(_METRES_IN[unit])) - 1  # digits behind the point that are whole metres
        fraction = (fraction or "").rstrip("0")
        if len(fraction) > scale:
            raise self.expected(f"{what} in whole metres")
        metres = _whole(digits + fraction.ljust(scale, "0"), most)
        if metres is None:
            raise self.expected(f"{what} from {true_range}")
        self._step(found.end())
        return metres

    def decimal(self, what, most):
        """A decimal number from -most to most, with every digit that is written."""
        found = _DECIMAL.match(self.text, self.at)
        if not found or abs(Decimal(found[0])) > most:
            raise self.expected(f"{what} from -{most} to {most}")
        self._step(found.end())
        return Decimal(found[0])

    def name(self, what):
        found = self._take(_NAME)
        if not found:
            raise self.expected(what)
        return found[0]

    def title(self):
        """What stands in double quotes, where something does; None otherwise."""
        found = self._take(_TITLE)
        if not found:
            if self.take('"'):
                raise InputFault("expected a quote at the end of the title, found the end of the line")
            return None
        if not found[1].isprintable():
            raise InputFault(f"expected a title that can be printed, found {quoted(found[1])}")
        return found[1]

    def end(self):
        if not self.is_empty():
            raise self.expected("the end of the line")

    def expected(self, what):
        """The fault that says so; to be raised."""
        left = self.text[self.at :].split(maxsplit=1)
        return InputFault(f"expected {what}, found {quoted(left[0]) if left else 'the end of the line'}")


def _without_comment(text):
    """A line up to its hash; one inside double quotes is part of a title."""
    in_quotes = False
    for at, mark in enumerate(text):
        if mark == "#" and not in_quotes:
            return text[:at].rstrip()
        in_quotes ^= mark == '"'
    return text.rstrip()


def _whole(digits, most):
    """The number that the digits say, None where it is over `most`, however many digits there are."""
    digits = digits.lstrip("0") or "0"
    return int(digits) if len(digits) <= len(str(most)) and int(digits) <= most else None
