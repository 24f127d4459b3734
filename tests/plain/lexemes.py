"""Lexemes of EXPRESS: identifiers, digits, literals and signs, between separators and remarks."""

from typing import NamedTuple

from .refusal import RefusedSchema

LETTERS = b"ABCDEFGHIJKLMNOPQRSTUVWXYZabcdefghijklmnopqrstuvwxyz"
DIGITS = b"0123456789"
IDENTIFIER_BYTES = LETTERS + DIGITS + b"_"
SEPARATORS = bytes(range(0x21)) + b"\x7f"


class Lexeme(NamedTuple):
    """A lexeme: `name` with the identifier in upper case, `digits`, `text`, `encoded`, or `sign` with the byte."""

    kind: str
    text: str


def lexemes(data):
    """The lexemes of a schema text, one after another."""
    at = 0
    while True:
        at = behind_separators(data, at)
        if at == len(data):
            return
        found, at = lexeme(data, at)
        yield found


def behind_separators(data, at):
    """Where the separators from here on end: bytes 00 to 20 and 7F, remarks, and `--` up to the end of the line."""
    while at < len(data):
        if data[at] in SEPARATORS:
            at += 1
        elif data.startswith(b"(*", at):
            at = behind_remark(data, at)
        elif data.startswith(b"--", at):
            end = data.find(b"\n", at)
            at = len(data) if end < 0 else end + 1
        else:
            break
    return at


def behind_remark(data, at):
    """Where the remark that begins here ends. Remarks nest; marks are taken from left to right, no byte in two of them."""
    depth = 0
    while at < len(data):
        if data.startswith(b"(*", at):
            depth += 1
            at += 2
        elif data.startswith(b"*)", at):
            depth -= 1
            at += 2
            if depth == 0:
                return at
        else:
            at += 1
    raise RefusedSchema(1)


def run(data, at, among):
    """Where the bytes that are among these end."""
    while at < len(data) and data[at] in among:
        at += 1
    return at


def lexeme(data, at):
    """The lexeme that begins here, and where it ends."""
    byte = data[at : at + 1]
    if byte in LETTERS:
        end = run(data, at, IDENTIFIER_BYTES)
        return Lexeme("name", data[at:end].decode("ascii").upper()), end
    if byte in DIGITS:
        end = run(data, at, DIGITS)
        return Lexeme("digits", data[at:end].decode("ascii")), end
    if byte == b"'":
        return Lexeme("text", ""), behind_text(data, at)
    if byte == b'"':
        return Lexeme("encoded", ""), behind_quote(data, at, b'"')
    if b"!" <= byte <= b"~":
        return Lexeme("sign", byte.decode("ascii")), at + 1
    raise RefusedSchema(1)


def behind_quote(data, at, quote):
    """Where a literal that this byte begins and ends is over."""
    end = data.find(quote, at + 1)
    if end < 0:
        raise RefusedSchema(1)
    return end + 1


def behind_text(data, at):
    """Where a literal in apostrophes ends: an apostrophe in it stands twice."""
    at = behind_quote(data, at, b"'")
    while data[at : at + 1] == b"'":
        at = behind_quote(data, at, b"'")
    return at
