"""Characters that nobody sees, or that move what is seen, as escapes: of all texts that are shown."""

import re
import unicodedata

# Controls, format characters (as those that turn the direction of a line), lone surrogates, what Unicode leaves to
# others or has not given out, and ends of lines and of paragraphs.
UNSEEN = frozenset(("Cc", "Cf", "Cs", "Co", "Cn", "Zl", "Zp"))
BEYOND_ASCII = re.compile("[^ -~]")
# A byte that is no UTF-8 is read as a surrogate from here on.
BYTES = 0xDC00


def visible(text: str) -> str:
    """A text of several lines: its line feeds and tabs stay."""
    return BEYOND_ASCII.sub(lambda it: it[0] if it[0] in "\n\t" else shown(it[0]), text)


def in_line(text: str) -> str:
    """A name or a sentence, which stands in one line."""
    return BEYOND_ASCII.sub(lambda it: shown(it[0]), text)


def shown(character: str) -> str:
    """A character, or its escape where it would not be seen."""
    code = ord(character)
    if BYTES + 0x80 <= code <= BYTES + 0xFF:
        return f"\\x{code - BYTES:02x}"
    if unicodedata.category(character) not in UNSEEN:
        return character
    return f"\\x{code:02x}" if code < 0x80 else f"\\u{code:04x}" if code < 0x10000 else f"\\U{code:08x}"
