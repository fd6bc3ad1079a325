"""Texts in the columns of a terminal or of a fixed-width font."""

import unicodedata


def width(text):
    """Columns that a text takes."""
    return sum(0 if unicodedata.combining(c) else 2 if unicodedata.east_asian_width(c) in "WF" else 1 for c in text)


def cut(text, most):
    """A text of at most so many columns."""
    if width(text) <= most:
        return text
    while width(text) >= most:
        text = text[:-1]
    return text + "…"


def left(text, wide):
    """A text at the left of so many columns."""
    return text + " " * (wide - width(text))


def right(text, wide):
    """A text at the right of so many columns."""
    return " " * (wide - width(text)) + text


def kilohertz(halves):
    """A number of half kHz in kHz."""
    whole, half = divmod(abs(halves), 2)
    return f"{'-' * (halves < 0)}{whole}{'.5' * half}"


def by_point(texts):
    """Numbers, and words among them, one below the other at the decimal point: as texts of one width."""
    if any(text.endswith(".5") for text in texts):
        texts = [text if text.endswith(".5") else f"{text}  " for text in texts]
    wide = max(map(width, texts))
    return [right(text, wide) for text in texts]
