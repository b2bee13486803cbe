"""Colours of classes: warm and full for those that fail, cold and pale for those that pass, grey for the base run's; no two alike."""
import colorsys
from typing import Any, Dict, Iterable, Iterator, Sequence, Tuple

FAILING = ["#b3261e", "#e8590c", "#c2255c", "#e6a700", "#7a3e12", "#f06595"]
PASSING = ["#b9d1f2", "#b0e0d9", "#c3c8ef", "#b5dcbb", "#b4e0f1", "#c2d4d9"]
AS_BASE = "#dfe3e8"
# At which hue each kind begins, and how far it goes, in parts of a turn.
WARM, COLD = (-0.09, 0.22), (0.25, 0.45)
GOLDEN = 0.618034
DARK, PALE = (0.40, 0.55, 0.30, 0.65, 0.47), (0.84, 0.78, 0.88, 0.81, 0.75)


def generated(index: int, hues: Tuple[float, float], lightness: Sequence[float]) -> str:
    """The colour of this index: hues are spread, and lightness changes from one to the next."""
    first, width = hues
    hue = (first + width * (index * GOLDEN % 1)) % 1
    saturation = 0.85 - 0.45 * (index * GOLDEN * GOLDEN % 1)
    parts = colorsys.hls_to_rgb(hue, lightness[index % len(lightness)], saturation)
    return "#" + "".join(f"{round(255 * it):02x}" for it in parts)


def colours(first: Sequence[str], hues: Tuple[float, float], lightness: Sequence[float]) -> Iterator[str]:
    """The colours that are chosen, and then others, each once."""
    seen = {*FAILING, *PASSING, AS_BASE}
    yield from first
    index = 0
    while True:
        found = generated(index, hues, lightness)
        if found not in seen:
            seen.add(found)
            yield found
        index += 1


def colours_of(classes: Iterable[Any]) -> Dict[int, str]:
    """A colour for each class, by its number."""
    failing, passing = colours(FAILING, WARM, DARK), colours(PASSING, COLD, PALE)
    return {it.number: AS_BASE if it.is_base else next(passing if it.verdict.passes else failing) for it in classes}


def luminance(colour: str) -> float:
    """How light a colour is to the eye, from 0 to 1, as WCAG has it."""
    parts = [int(colour[at : at + 2], 16) / 255 for at in (1, 3, 5)]
    linear = [it / 12.92 if it <= 0.04045 else ((it + 0.055) / 1.055) ** 2.4 for it in parts]
    return 0.2126 * linear[0] + 0.7152 * linear[1] + 0.0722 * linear[2]


def has_light_text(colour: str) -> bool:
    """Whether white is read better on it than black."""
    return luminance(colour) < 0.179
