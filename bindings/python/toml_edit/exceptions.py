"""The exceptions, by the names of tomlkit too."""

from __future__ import annotations

from ._core import TOMLKitError, TomlError, Unfit

ParseError = TomlError
UnexpectedCharError = UnexpectedEofError = InvalidCharInStringError = InvalidControlChar = TomlError
InvalidNumberError = InvalidDateError = InvalidTimeError = InvalidDateTimeError = InvalidNumberOrDateError = TomlError
InvalidUnicodeValueError = EmptyKeyError = EmptyTableNameError = MixedArrayTypesError = InternalParserError = TomlError


class NonExistentKey(KeyError, TOMLKitError):
    """No such key is in the table."""

    def __init__(self, key: object) -> None:
        super().__init__('Key "%s" does not exist.' % key)


class KeyAlreadyPresent(TOMLKitError):
    """The key that was to be added is in the table."""

    def __init__(self, key: object) -> None:
        super().__init__('Key "%s" already exists.' % key)


class InvalidStringError(ValueError, TOMLKitError):
    """A string cannot be spelled as was asked for."""


__all__ = [name for name in dir() if name[:1].isupper()]
