"""Why a call returns nothing."""
from typing import Optional

from . import _tables


class Error(Exception):
    """Why a call returns nothing; `status` is that of the library. If a call for many says what is refused, `at` is its number: that of the content, of the
    string, of the start of a line, for a DefinitionError of the definition, with the footnotes counted on behind the definitions, or for a NotUtf8 of the first
    byte of the document that is not UTF-8. Otherwise `at` is None."""
    status = 0
    at: Optional[int] = None


class UnknownOption(Error, ValueError):
    """unknown option"""
    status = 2


class NotUtf8(Error, ValueError):
    """document is not UTF-8"""
    status = 3


class BlankLine(Error, ValueError):
    """blank line in text, or line ending at its end"""
    status = 4


class NoMemory(Error, MemoryError):
    """out of memory"""
    status = 5


class NoContent(Error, ValueError):
    """pieces are no content of the document"""
    status = 7


class DefinitionError(Error, ValueError):
    """range of a definition is no text of the labels"""
    status = 8


class TooLong(Error, ValueError):
    """document too long"""
    status = 9


class NoReference(Error, ValueError):
    """no character reference"""
    status = 10


class References(Error, ValueError):
    """references bring more than the limit"""
    status = 11


class NoString(Error, ValueError):
    """part of a string is no text of the bytes"""
    status = 12


_ERRORS = {it.status: it for it in (UnknownOption, NotUtf8, BlankLine, NoMemory, NoContent, DefinitionError, TooLong, NoReference, References, NoString)}


def raised(status: int, blamed: Optional[int] = None) -> Error:
    """The error of a status, with the number of what is to blame, if the call says one."""
    error = _ERRORS.get(status, Error)(_tables.STATUSES.get(status))
    error.at = blamed
    return error
