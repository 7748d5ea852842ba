"""How times and counts are written."""


def clock_text(seconds: float) -> str:
    """A time as minutes and seconds."""
    return f"{int(seconds) // 60}:{int(seconds) % 60:02}"


def plural(count: int, word: str) -> str:
    """A count of things with their word."""
    return f"{count} {word}" + ("" if count == 1 else "s")
