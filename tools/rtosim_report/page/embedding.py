"""Texts and values as they may be within a page."""
import json
from typing import Any


def escaped(text: str) -> str:
    return text.replace("&", "&amp;").replace("<", "&lt;")


def json_text(value: Any) -> str:
    """A value as JSON that may be within an element `script`."""
    return json.dumps(value, separators=(",", ":")).replace("</", "<\\/").replace("<!--", "<\\u0021--")
