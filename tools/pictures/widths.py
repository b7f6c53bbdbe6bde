"""How wide text is in a terminal: most characters take one column, wide ones two, and marks on another character none."""

from unicodedata import category, east_asian_width


def is_mark(character):
    """Whether it stands on the character before it."""
    return category(character) in ("Mn", "Me")


def is_wide(character):
    return east_asian_width(character) in ("W", "F")


def columns(text):
    """How many columns the text takes."""
    return sum(0 if is_mark(character) else 2 if is_wide(character) else 1 for character in text)


def padded(text, width, fill=" "):
    """The text, filled up on the right to that many columns."""
    return text + fill * (width - columns(text))
