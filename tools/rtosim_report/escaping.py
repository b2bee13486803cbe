"""Texts that are fit to be shown: no control byte reaches a terminal, no word changes its meaning in a shell."""
import re

CONTROL = re.compile("[\x00-\x1f\x7f-\x9f\u2028\u2029\u202a-\u202e\u2066-\u2069\ud800-\udfff]")
SAFE_WORD = re.compile(r"[A-Za-z0-9_@%+=:,./-]+")


def plain(text: str) -> str:
    """The text with each control character, and each byte that was no UTF-8, spelled out."""
    return CONTROL.sub(lambda it: spelled(it.group()), text)


def spelled(character: str) -> str:
    code = ord(character)
    if 0xDC80 <= code <= 0xDCFF:
        code -= 0xDC00
    return f"\\x{code:02x}" if code < 0x100 else f"\\u{code:04x}"


def shell_word(word: str) -> str:
    """The word as a shell reads it back, without control characters."""
    if SAFE_WORD.fullmatch(word):
        return word
    if not CONTROL.search(word):
        return "'" + word.replace("'", "'\\''") + "'"
    escaped = word.replace("\\", "\\\\").replace("'", "\\'")
    return "$'" + CONTROL.sub(lambda it: shell_bytes(it.group()), escaped) + "'"


def shell_bytes(character: str) -> str:
    return "".join(f"\\x{it:02x}" for it in character.encode("utf-8", "surrogateescape"))
