"""Reads a TOML 1.1 document, and keeps the place of each key, table and value.

It takes what the program takes, whose reader goes by the grammar of TOML 1.1: arrays and inline tables at most 80 deep, keys of at
most 80 parts, integers of 64 bits."""
from __future__ import annotations

import re
import unicodedata
from typing import Any, List, Optional, Tuple

from .formats import Word
from .nodes import Array, Node, NotToml, Table, Text
from .toml_tables import Builder, put
from .toml_words import A_VALUE, word_node

DEPTH = 80
BLANK = re.compile("(?:[ \t]|\r?\n|#[^\x00-\x08\x0a-\x1f\x7f]*(?:\r\n|\n|\\Z))*")
SPACES = re.compile("[ \t]*")
LINES = re.compile("(?:[ \t]|\r?\n)*")
NEWLINE = re.compile("\r?\n")
COMMENT = re.compile("#[^\x00-\x08\x0a-\x1f\x7f]*")
BARE = re.compile("[A-Za-z0-9_-]+")
WORD = re.compile(r"[A-Za-z0-9_+.:-]+")
SECOND_WORD = re.compile(r" [0-9][A-Za-z0-9_+.:-]*")
SIMPLE = {'"': re.compile('"([^"\\\\\x00-\x08\x0a-\x1f\x7f]*)"'), "'": re.compile("'([^'\x00-\x08\x0a-\x1f\x7f]*)'")}
PLAIN = {
    ('"', False): re.compile('[^"\\\\\x00-\x08\x0a-\x1f\x7f]+'), ("'", False): re.compile("[^'\x00-\x08\x0a-\x1f\x7f]+"),
    ('"', True): re.compile('(?:[^"\\\\\x00-\x08\x0b-\x1f\x7f]|\r\n)+'),
    ("'", True): re.compile("(?:[^'\x00-\x08\x0b-\x1f\x7f]|\r\n)+"),
}
ESCAPES = {"b": "\b", "e": "\x1b", "f": "\f", "n": "\n", "r": "\r", "t": "\t", '"': '"', "\\": "\\"}
HEX_DIGITS = {"x": 2, "u": 4, "U": 8}
# An element of an array as nearly all are: with its comma.
ELEMENT = re.compile('[ \t\n]*"([^"\\\\\x00-\x08\x0a-\x1f\x7f]*)"[ \t\n]*,')
PIECE = re.compile(r"[\w-]+")
# What may be a text without its quotes.
UNQUOTED = re.compile(r"[^,\]}\r\n\"'#=]*")
ESCAPES_ARE = "escapes are \\\" \\\\ \\b \\e \\f \\n \\r \\t \\xHH \\uHHHH \\UHHHHHHHH; a text between two ' has none"
CURLED = "\u2018\u2019\u201c\u201d\u201e\u00ab\u00bb\u2032\u2033\u00b4`"
A_TEXT = 'a text is between two " or two \' in one line'
A_KEY = "a key is letters, digits, `-` and `_`, or a text in quotes"


def read_document(text: str) -> Table:
    """The table that the text is, or NotToml."""
    return Reader(text).document()


class Reader:
    """The text, and how far it is read."""

    def __init__(self, text: str) -> None:
        self.text = text
        self.at = 1 if text.startswith("\ufeff") else 0

    # -- characters

    def peek(self) -> str:
        return self.text[self.at : self.at + 1]

    def skip(self, pattern: Any) -> None:
        """Goes past what the pattern takes here, which may be nothing."""
        self.at = pattern.match(self.text, self.at).end()

    def here(self, message: str, rule: Optional[str] = None, start: Optional[int] = None) -> NotToml:
        """NotToml at what comes next, or from `start` to what comes next."""
        if start is not None:
            return NotToml(start, max(self.at, start + 1), message, rule)
        return NotToml(self.at, self.at + len(self.next_piece()), message, rule)

    def next_piece(self) -> str:
        """The word that comes next, or the character if there is none."""
        word = PIECE.match(self.text, self.at)
        return word.group() if word else self.text[self.at : self.at + 1]

    def found(self) -> str:
        """What comes next, for a message."""
        quote = SIMPLE.get(self.peek())
        simple = quote and quote.match(self.text, self.at)
        piece = simple.group() if simple else self.next_piece()
        if not piece:
            return "the end of the file"
        if piece in ("\n", "\r"):
            return "the end of the line"
        if piece.isspace() or unicodedata.category(piece[0]) == "Cf":
            return f"U+{ord(piece[0]):04X}, which only looks like {'a space' if piece.isspace() else 'nothing'}"
        return piece if len(piece) < 30 else piece[:30] + ".."

    # -- the document

    def document(self) -> Table:
        builder = Builder()
        while True:
            self.skip(BLANK)
            if self.at == len(self.text):
                return builder.root
            start = self.at
            if self.text.startswith("[[", start):
                builder.array_table(self.header(2), (start, self.at))
            elif self.peek() == "[":
                builder.table(self.header(1), (start, self.at))
            else:
                builder.pair(self.key(), self.value_after_equals(DEPTH))
            self.end_of_line()

    def header(self, brackets: int) -> List[Word]:
        start = self.at
        self.at += brackets
        self.skip(SPACES)
        key = self.key()
        if not self.text.startswith("]" * brackets, self.at):
            wanted, line = "]" * brackets, self.text[start : self.at].rstrip()
            raise self.here(f"expected {wanted} after {line}, found {self.found()}; did you mean {line}{wanted}?",
                            "a section begins with `[name]`, and an entry of a list of them with `[[name]]`", start)
        self.at += brackets
        return key

    def end_of_line(self) -> None:
        self.skip(SPACES)
        comment = COMMENT.match(self.text, self.at)
        if comment:
            self.at = comment.end()
        if self.at == len(self.text) or NEWLINE.match(self.text, self.at):
            return
        if comment:
            raise self.here("a control character in a comment")
        raise self.here(f"expected the end of the line, found {self.found()}", self.rule_of_line())

    def rule_of_line(self) -> str:
        if self.text.startswith("//", self.at) or self.peek() == ";":
            return "a comment begins with #"
        if self.peek() == ",":
            return "the lines of a table have no commas between them"
        return "a key and its value have a line to themselves; the next key begins a line"

    # -- keys

    def key(self) -> List[Word]:
        """The parts of a key, each with its span, and the spaces after it."""
        parts = []
        while True:
            start = self.at
            parts.append((self.simple_key(), start, self.at))
            self.skip(SPACES)
            if self.peek() != ".":
                return parts
            if len(parts) == DEPTH:
                raise self.here(f"a key has at most {DEPTH} parts")
            self.at += 1
            self.skip(SPACES)

    def simple_key(self) -> str:
        if self.peek() in ('"', "'") and self.peek():
            return self.one_line().value
        bare = BARE.match(self.text, self.at)
        if bare:
            self.at = bare.end()
            return bare.group()
        raise self.here(*self.no_key())

    def no_key(self) -> Tuple[str, str]:
        if self.text.startswith("//", self.at) or self.peek() == ";":
            return "expected a key or a section, found " + self.found(), "a comment begins with #"
        if self.peek() and self.peek() in CURLED:
            return f"expected a key, found the typographic quote {self.peek()}", A_KEY
        if self.peek() == "{" and not self.text[: self.at].strip():
            return "expected a key or a section, found {", "a file is TOML, and not JSON"
        return f"expected a key, found {self.found()}", A_KEY

    def value_after_equals(self, depth: int) -> Node:
        if self.peek() != "=":
            raise self.no_equals()
        self.at += 1
        self.skip(SPACES)
        return self.value(depth)

    def no_equals(self) -> NotToml:
        rule = "a line is `key = value`, `[section]` or `[[section]]`"
        if self.peek() == ":":
            return self.here("expected = after the key, found :", rule)
        return self.here(f"expected = after the key, found {self.found()}", rule)

    # -- values

    def value(self, depth: int) -> Node:
        first = self.peek()
        if first and first in "\"'":
            return self.string()
        if first and first in "[{":
            if depth == 0:
                raise self.here(f"arrays and tables nest at most {DEPTH} deep")
            return self.array(depth - 1) if first == "[" else self.inline_table(depth - 1)
        return self.word()

    def word(self) -> Node:
        match = WORD.match(self.text, self.at)
        if not match:
            raise self.no_value()
        start, end = match.span()
        second = SECOND_WORD.match(self.text, end)
        word = match.group() + (second.group() if second and "-" in match.group()[1:] else "")
        unquoted: Any = UNQUOTED.match(self.text, start)
        node = word_node(word, start, unquoted.group().rstrip())
        self.at = node.end
        return node

    def no_value(self) -> NotToml:
        first = self.peek()
        if first and first in CURLED:
            return self.here(f"expected a value, found the typographic quote {first}", A_TEXT)
        if not first or first in "\r\n#":
            return self.here(f"expected a value, found {self.found() if first != '#' else 'a comment'}", A_VALUE)
        if first == "(":
            return self.here("expected a value, found (", "an array is between [ and ]")
        return self.here(f"expected a value, found {self.found()}", A_VALUE)

    def array(self, depth: int) -> Array:
        start, array = self.at, Array(self.at, self.at)
        self.at += 1
        while True:
            self.simple_elements(array.items)
            self.skip(BLANK)
            if self.peek() == "]":
                break
            self.not_over(start, "array", "]")
            array.items.append(self.value(depth))
            if self.after_element(start, "]", "array"):
                break
        self.at += 1
        array.end = self.at
        return array

    def simple_elements(self, items: List[Text]) -> None:
        element = ELEMENT.match(self.text, self.at)
        while element:
            start, end = element.span(1)
            items.append(Text(element.group(1), start - 1, end + 1, start))
            self.at = element.end()
            element = ELEMENT.match(self.text, self.at)

    def not_over(self, start: int, what: str, closing: str) -> None:
        if self.at == len(self.text):
            raise NotToml(start, start + 1, f"this {what} is not closed: expected {closing} before the end of the file")

    def after_element(self, start: int, closing: str, what: str) -> bool:
        """Whether the closing bracket comes next; otherwise a comma has been read."""
        self.skip(BLANK)
        if self.peek() == closing:
            return True
        self.not_over(start, what, closing)
        if self.peek() != ",":
            fault = self.here(f"expected , or {closing} in the {what} that begins in line {{line}}, found {self.found()}",
                              f"the items of an {what} are separated by commas")
            fault.other = start
            raise fault
        self.at += 1
        return False

    def inline_table(self, depth: int) -> Table:
        start, table = self.at, Table(self.at, self.at, Table.INLINE)
        self.at += 1
        while True:
            self.skip(BLANK)
            if self.peek() == "}":
                break
            self.not_over(start, "inline table", "}")
            key = self.key()
            put(table, key, self.value_after_equals(depth))
            if self.after_element(start, "}", "inline table"):
                break
        self.at += 1
        table.end = self.at
        return table

    # -- strings

    def string(self) -> Text:
        quote = self.peek()
        if self.text.startswith(quote * 3, self.at):
            return self.several_lines(quote)
        return self.one_line()

    def one_line(self) -> Text:
        start, quote = self.at, self.peek()
        simple = SIMPLE[quote].match(self.text, start)
        if simple:
            self.at = simple.end()
            return Text(simple.group(1), start, self.at, start + 1)
        self.at += 1
        return self.body(start, quote, False)

    def several_lines(self, quote: str) -> Text:
        start = self.at
        self.at += 3
        newline = NEWLINE.match(self.text, self.at)
        if newline:
            self.at = newline.end()
        return self.body(start, quote, True)

    def body(self, start: int, quote: str, is_long: bool) -> Text:
        """The rest of a string, piece by piece."""
        pieces: List[str] = []
        places: List[int] = []
        while True:
            plain = PLAIN[quote, is_long].match(self.text, self.at)
            if plain:
                pieces.append(plain.group())
                places.extend(range(*plain.span()))
                self.at = plain.end()
            if self.peek() == quote:
                if self.closes(quote, is_long):
                    return Text("".join(pieces), start, self.at, places)
                pieces.append(quote)
                places.append(self.at)
                self.at += 1
            elif self.peek() == "\\" and quote == '"':
                place, piece = self.at, self.escape(start, is_long)
                pieces.append(piece)
                places.extend([place] * len(piece))
            else:
                raise self.unclosed(start, quote, is_long)

    def closes(self, quote: str, is_long: bool) -> bool:
        """Whether the quotes that come next end the string, which are read then."""
        if not is_long:
            self.at += 1
            return True
        rest = self.text[self.at : self.at + 7]
        count = len(rest) - len(rest.lstrip(quote))
        if count > 5:
            raise self.here(f"expected the end of the text, found {count} quotes", "at most two quotes may come before the last three")
        if count == 3:
            self.at += 3
        return count == 3

    def unclosed(self, start: int, quote: str, is_long: bool) -> NotToml:
        if self.peek() and (self.peek() not in "\r\n" or is_long):
            code = ord(self.peek())
            return self.here(f"a control character in a text, U+{code:04X}", 'in a text between two " it is written as an escape')
        if is_long:
            return NotToml(start, start + 3, f"this text is not closed: expected {quote * 3} before the end of the file")
        end = "line" if self.peek() else "file"
        return self.here(f"this text is not closed: expected {quote} before the end of the {end}", A_TEXT, start)

    def escape(self, start: int, is_long: bool) -> str:
        """The character that an escape spells."""
        place = self.at
        self.at += 1
        spaces: Any = SPACES.match(self.text, self.at)
        if is_long and NEWLINE.match(self.text, spaces.end()):
            self.skip(LINES)
            return ""
        letter = self.peek()
        self.at += 1
        if letter in ESCAPES:
            return ESCAPES[letter]
        size = HEX_DIGITS.get(letter, 0)
        digits = self.text[self.at : self.at + size]
        if size and re.fullmatch(f"[0-9A-Fa-f]{{{size}}}", digits) and is_character(int(digits, 16)):
            self.at += size
            return chr(int(digits, 16))
        if letter in ("", "\n", "\r"):
            raise NotToml(start, place + 1, 'this text is not closed: expected " before the end of the line', A_TEXT)
        message = f"\\{letter} takes {size} hex digits of a character" if size else f"\\{letter} isn't an escape"
        raise self.here(message, ESCAPES_ARE, place)


def is_character(code: int) -> bool:
    return code < 0xD800 or 0xE000 <= code < 0x110000
