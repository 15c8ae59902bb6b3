"""Where a name stands that an answer tells without a place: only where one place alone can be meant."""

from view.c_cursor import TYPE_WORDS
from view.c_tokens import Token, shown_tokens

Place = tuple[int, int, str]


def named_place(number: str, names: list[str], text: str) -> Place | None:
    """The place of an answer `fault 94`, `95` or `97`, with what is wrong there."""
    tokens = shown_tokens(text)
    if number == "94":
        found = [it for it in tokens if it.text == names[0]]
        return place_of(found, 1, "This name is not known here")
    if number == "95":
        found = [it for before, it in zip(tokens, tokens[1:]) if it.text == names[0] and declares(before)]
        return place_of(found, 2, "This name is declared a second time")
    if number == "97":
        # Each call of the second from the first is on the cycle.
        found = calls_of(names[min(1, len(names) - 1)], body_of(names[0], tokens))
        return place_of(found[:1], 1, "This call leads back to the function that it stands in")
    return None


def place_of(found: list[Token], count: int, words: str) -> Place | None:
    """The last of so many tokens, where there are no others."""
    return (found[-1].line, found[-1].column, words) if len(found) == count else None


def declares(before: Token) -> bool:
    """Whether a name behind this token is declared: behind a type, perhaps with stars."""
    return before.text in TYPE_WORDS


def calls_of(name: str, tokens: list[Token]) -> list[Token]:
    rows = zip(tokens, tokens[1:], tokens[2:])
    return [it for before, it, after in rows if it.text == name and after.text == "(" and not declares(before)]


def body_of(name: str, tokens: list[Token]) -> list[Token]:
    """The tokens of a function's body, if the function stands in the text."""
    for at in range(1, len(tokens)):
        if tokens[at].text == name and declares(tokens[at - 1]) and tokens[at + 1 :][:1]:
            end = end_of("(", ")", tokens, at + 1)
            if tokens[end:][:1] and tokens[end].text == "{":
                return tokens[end : end_of("{", "}", tokens, end)]
    return []


def end_of(opening: str, closing: str, tokens: list[Token], at: int) -> int:
    """Behind the part in brackets that begins at a token."""
    depth = 0
    while at < len(tokens):
        depth += (tokens[at].text == opening) - (tokens[at].text == closing)
        at += 1
        if depth == 0:
            break
    return at
