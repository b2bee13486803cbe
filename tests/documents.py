"""Random TOML documents with what they hold, and documents with damages."""
import math
import random

PIECES = list("[]{}=\"'.,#\n\r\t \\_-+:0123456789abeExXoZTuU\x00\x7f\u00e9\u3000") + [
    '"""', "'''", "[[", "]]", "\r\n", "\\u", "\\x4", "true", "inf", "1979-05-27", " 07:32", "0x", "a.b", "= 1\n",
]
ESCAPED = {
    "\b": "\\b", "\f": "\\f", "\n": "\\n", "\r": "\\r", "\t": "\\t", '"': '\\"', "\\": "\\\\", "\x1b": "\\u001B", "\x00": "\\u0000",
}
LETTERS = "abcXYZ019 _-#=[]{}.,'\"\\\t\n\r\u00e9\u4e2d\U0001f600\x00\x1b\b\f"
MOMENTS = ("1979-05-27", "07:32:00", "1979-05-27T07:32:00Z", "2024-02-29 23:59:59.123-01:30", "00:00:00.5")


class Documents:
    """A source of documents. Those of `with_1_1` have what TOML 1.1 brought."""

    def __init__(self, seed, with_1_1=False):
        self.dice, self.with_1_1 = random.Random(seed), with_1_1

    def document(self):
        """A text and the table that it is."""
        self.names = 0
        table = {}
        text = self.blank() + self.pairs(table)
        for _ in range(self.dice.randrange(4)):
            text += self.section(table)
        return text, table

    def blank(self):
        return self.dice.choice(("", "", "\n", "  \n", "# c \u00e9 [x]\n", "\t# x\r\n", "\r\n"))

    def spaces(self):
        return self.dice.choice(("", " ", " ", "\t", "  "))

    def pairs(self, table, most=4):
        text = ""
        for _ in range(self.dice.randrange(most + 1)):
            key, value = self.value_at(table)
            text += f"{self.spaces()}{key}{self.spaces()}={self.spaces()}{value}{self.end()}"
        return text

    def end(self):
        return self.spaces() + self.dice.choice(("\n", "\n", "\r\n", "# end\n")) + self.blank()

    def section(self, table):
        """A header of its own, or several of a list, and their pairs."""
        name, shown = self.name()
        if self.dice.random() < 0.5:
            inner = table[name] = {}
            if self.dice.random() < 0.3:
                below, shown_below = self.name()
                inner[below] = {}
                shown, inner = f"{shown}{self.spaces()}.{self.spaces()}{shown_below}", inner[below]
            return f"[{self.spaces()}{shown}{self.spaces()}]{self.end()}" + self.pairs(inner)
        entries = table[name] = [{} for _ in range(self.dice.randrange(1, 4))]
        return "".join(f"[[{self.spaces()}{shown}{self.spaces()}]]{self.end()}" + self.pairs(it) for it in entries)

    def name(self):
        """A new name, and how it is written."""
        self.names += 1
        name = self.dice.choice(("key", "a-b", "0", "K_")) + str(self.names)
        if self.dice.random() < 0.8:
            return name, name
        name += self.dice.choice((" ", ".", "\u00e9", "'", ""))
        return name, f'"{name}"'

    def value_at(self, table):
        """Puts a value under a new key, perhaps a dotted one; both as they are written."""
        name, shown = self.name()
        if self.dice.random() < 0.2:
            below, shown_below = self.name()
            table[name] = {}
            table, name, shown = table[name], below, f"{shown}{self.spaces()}.{self.spaces()}{shown_below}"
        table[name], text = self.value(3)
        return shown, text

    def value(self, depth):
        kinds = [self.string, self.string, self.integer, self.float, self.boolean, self.moment]
        return self.dice.choice(kinds + [self.array, self.inline] * (depth > 0))(depth)

    def string(self, _):
        text = "".join(self.dice.choice(LETTERS) for _ in range(self.dice.randrange(12)))
        quote = self.dice.choice(('"', '"', "'", '"""', "'''"))
        if quote[0] == "'":
            text = "".join(it for it in text if it not in "'\r\x00\x1b\b\f" and (it != "\n" or len(quote) == 3))
            return text, quote + ("\n" if len(quote) == 3 else "") + text + quote
        written = "".join(self.escaped(it, len(quote) == 3) for it in text)
        return text, quote + ("\n" if len(quote) == 3 else "") + written + self.line_end(quote) + quote

    def escaped(self, letter, is_long):
        if letter in "\n\t" and self.dice.random() < 0.5 and (is_long or letter == "\t"):
            return letter
        if self.with_1_1 and letter == "\x1b":
            return self.dice.choice(("\\e", "\\x1b"))
        if self.dice.random() < 0.1:
            return f"\\U{ord(letter):08X}"
        return ESCAPED.get(letter, letter)

    def line_end(self, quote):
        return self.dice.choice(("", "\\  \n  \n  ")) if len(quote) == 3 else ""

    def integer(self, _):
        value = self.dice.choice((0, 7, -1, 31, 4294967295, (1 << 63) - 1, -(1 << 63), self.dice.randrange(10**6)))
        if value >= 0 and self.dice.random() < 0.3:
            return value, self.dice.choice((f"0x{value:X}", f"0x{value:x}", f"0o{value:o}", f"0b{value:b}", f"+{value}"))
        text = f"{value:_}" if self.dice.random() < 0.2 else str(value)
        return value, text

    def float(self, _):
        text = self.dice.choice(("1.5", "-0.25", "1e3", "6.02E+23", "1_0.0_1", "inf", "-inf", "0.0", "5e-0_1"))
        return float(text.replace("_", "")), text

    def boolean(self, _):
        value = self.dice.random() < 0.5
        return value, str(value).lower()

    def moment(self, _):
        text = self.dice.choice(MOMENTS + (("07:32", "1979-05-27T07:32") if self.with_1_1 else ()))
        return ("moment", text), text

    def array(self, depth):
        items = [self.value(depth - 1) for _ in range(self.dice.randrange(4))]
        comma = self.dice.choice((",", ", ", ",\n", " ,# c\n  "))
        text = comma.join(it[1] for it in items) + (self.dice.choice(("", ",")) if items else "")
        return [it[0] for it in items], "[" + self.blank() + text + self.blank() + "]"

    def inline(self, depth):
        table, shown = {}, []
        for _ in range(self.dice.randrange(3)):
            name, key = self.name()
            table[name], text = self.value(depth - 1)
            shown.append(f"{key}{self.spaces()}={self.spaces()}{text}")
        if self.with_1_1 and shown:
            return table, "{" + self.blank() + ",\n ".join(shown) + self.dice.choice(("", ",")) + self.blank() + "}"
        return table, "{" + self.spaces() + f"{self.spaces()},{self.spaces()}".join(shown) + self.spaces() + "}"

    def damaged(self, text):
        """The text with a few pieces put in, left out, replaced or doubled."""
        for _ in range(self.dice.choice((1, 1, 1, 2, 3, 6))):
            at, what = self.dice.randrange(len(text) + 1), self.dice.random()
            piece = self.dice.choice(PIECES)
            if what < 0.35:
                text = text[:at] + piece + text[at:]
            elif what < 0.65:
                text = text[:at] + text[at + self.dice.choice((1, 1, 2, 5)) :]
            elif what < 0.85:
                text = text[:at] + piece + text[at + 1 :]
            else:
                other = self.dice.randrange(len(text) + 1)
                text = text[:at] + text[min(at, other) : max(at, other)][:30] + text[at:]
        return text


def same(found, wanted):
    """Whether two values are the same, one NaN like another, and no boolean like a number."""
    if isinstance(wanted, dict):
        return isinstance(found, dict) and found.keys() == wanted.keys() and all(same(found[it], wanted[it]) for it in wanted)
    if isinstance(wanted, list):
        return isinstance(found, list) and len(found) == len(wanted) and all(map(same, found, wanted))
    if isinstance(wanted, float) and math.isnan(wanted):
        return isinstance(found, float) and math.isnan(found)
    return type(found) is type(wanted) and found == wanted
