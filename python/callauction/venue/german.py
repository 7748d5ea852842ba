"""The report of a venue in German: the sentences that give a price its reasons, what is written on
a picture, and numbers, as the package writes them in English.
"""
import re

from matplotlib.axes import Axes
from matplotlib.ticker import FuncFormatter

SENTENCES = {
    "There are market orders alone, {} bid and {} offered, so the reference, {}, is the price.":
        "Es gibt nur Market-Orders, {} Kauf und {} Verkauf, also ist die Referenz {} der Preis.",
    "Market orders stand on both sides, {} bid and {} offered, and limit orders beside them, so "
    "the limits decide.":
        "Market-Orders stehen auf beiden Seiten, {} Kauf und {} Verkauf, und Limit-Orders daneben, "
        "also entscheiden die Limits.",
    "Market orders, for {} bid, count at every limit.":
        "Market-Orders, {} Kauf, zählen bei jedem Limit.",
    "Market orders, for {} offered, count at every limit.":
        "Market-Orders, {} Verkauf, zählen bei jedem Limit.",
    "Only limits of orders are candidates: {}.": "Nur Limits von Orders kommen infrage: {}.",
    "Limit {} executes most, {}.": "Limit {} führt am meisten aus: {}.",
    "Limits {} execute most, {}.": "Die Limits {} führen am meisten aus: {}.",
    "Of these, {} leaves the least surplus, {}.": "Davon lässt {} den kleinsten Überhang: {}.",
    "Of these, {} leave the least surplus, {}.": "Davon lassen {} den kleinsten Überhang: {}.",
    "It is the one best limit, so {} is the price, whatever its surplus.":
        "Es ist das einzige beste Limit, also ist {} der Preis, wie groß der Überhang auch ist.",
    "Both leave a surplus of {}, so the highest, {}, is the price.":
        "Beide lassen einen Überhang von {}, also ist das höchste, {}, der Preis.",
    "Both leave a surplus of {}, so the lowest, {}, is the price.":
        "Beide lassen einen Überhang von {}, also ist das niedrigste, {}, der Preis.",
    "Neither leaves a surplus, so the lowest, {}, and the highest, {}, are kept.":
        "Keines lässt einen Überhang, also bleiben das niedrigste, {}, und das höchste, {}.",
    "Some leave {} and others {}, so the highest of the first, {}, and the lowest of the others, "
    "{}, are kept.":
        "Einige lassen {} und andere {}, also bleiben von jenen das höchste, {}, und von diesen "
        "das niedrigste, {}.",
    "The reference, {}, is at or above the higher of them, so {} is the price.":
        "Die Referenz {} liegt nicht unter dem höheren, also ist {} der Preis.",
    "The reference, {}, is at or below the lower of them, so {} is the price.":
        "Die Referenz {} liegt nicht über dem niedrigeren, also ist {} der Preis.",
    "The reference, {}, lies between them, so it is the price.":
        "Die Referenz {} liegt dazwischen, also ist sie der Preis.",
    "The demand at {}, of bids at market and from {} up, is {}; the supply, of asks at market and "
    "from {} down, is {}.":
        "Die Nachfrage bei {}, ohne Limit und ab {} aufwärts, ist {}; das Angebot, ohne Limit und "
        "ab {} abwärts, ist {}.",
    "The lesser of the two, {}, can be executed, and no surplus is left.":
        "Das Kleinere von beiden, {}, kann ausgeführt werden, und kein Überhang bleibt.",
    "The lesser of the two, {}, can be executed, and a surplus of {} is left {}.":
        "Das Kleinere von beiden, {}, kann ausgeführt werden, und ein Überhang von {} bleibt {}.",
    "{}, before command {}": "{}, vor Eingabe {}",
    "price {}, volume {}, surplus {}": "Preis {}, Volumen {}, Überhang {}",
    "limit (price, tick size {})": "Limit (Preis, Schritt {})",
    "quantity (shares)": "Menge (Stück)",
    "executable volume": "ausführbares Volumen",
    "demand": "Nachfrage",
    "supply": "Angebot",
    "best limits": "beste Limits",
    "surplus": "Überhang",
    "price {}": "Preis {}",
    "reference {}": "Referenz {}",
}  # fmt: skip
"""What is written in English, with {} for each gap, and what in German."""
GAP_WORDS = {
    ", ": "; ", " and so on up to ": " und so weiter bis ", " limits)": " Limits)",
    " and ": " und ", "on the bid side": "auf der Kaufseite",
    "on the ask side": "auf der Verkaufsseite", " bid": " Kauf", " ask": " Verkauf",
    "opening": "Eröffnung", "intraday": "untertägige Auktion", "closing": "Schlussauktion",
}  # fmt: skip
"""Words in gaps, those with others in them first."""
NUMBER = re.compile(r"\d{1,3}(?:,\d{3})+(?:\.\d+)?|\d+(?:\.\d+)?")
SWAPPED = str.maketrans(",.", ".,")
SMALL = 5.5
"""The points of the letters of a legend that is too wide otherwise."""


def pattern_of(words: str) -> re.Pattern[str]:
    """What finds words with gaps."""
    return re.compile("(.*?)".join(map(re.escape, words.split("{}"))), re.DOTALL)


PATTERNS = [(pattern_of(words), german) for words, german in SENTENCES.items()]


def number(text: str) -> str:
    """A text whose numbers have the marks of thousands and the decimal comma of German."""
    return NUMBER.sub(lambda found: found[0].translate(SWAPPED), text)


def gap(text: str) -> str:
    """What stands in a gap."""
    for word, german in GAP_WORDS.items():
        text = text.replace(word, german)
    return number(text)


def sentence(text: str) -> str:
    """A sentence in German; one that isn't known with German numbers alone."""
    for pattern, words in PATTERNS:
        if found := pattern.fullmatch(text):
            return words.format(*map(gap, found.groups()))
    return number(text)


def write_on(axes: Axes) -> None:
    """Writes in German what plot.book has written on axes."""
    axes.set_xlabel(sentence(axes.get_xlabel()))
    axes.set_ylabel(sentence(axes.get_ylabel()))
    lines = axes.get_title(loc="left").split("\n")
    axes.set_title("\n".join(map(sentence, lines)), loc="left")
    axes.set_yticks(axes.get_yticks(), [number(it.get_text()) for it in axes.get_yticklabels()])
    axes.xaxis.set_major_formatter(FuncFormatter(lambda shares, _: number(f"{shares:,.0f}")))
    legend = axes.get_legend()
    written = [*axes.texts, *(legend.get_texts() if legend else [])]
    for text in written:
        text.set_text(sentence(text.get_text()))
    axes.figure.draw_without_rendering()
    if legend and legend.get_window_extent().width > axes.get_window_extent().width:
        for text in legend.get_texts():
            text.set_fontsize(SMALL)
