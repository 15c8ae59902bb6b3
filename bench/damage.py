"""Damaged texts and words, each from a whole one: the material of `bench/hostile`."""

import re

TOKEN = re.compile(rb"\"[^\"\n]*\"|\w+|[^\w\s]")
NUMBER = re.compile(rb"-?\d+")
WIDTHS = (1, 7, 8, 15, 16, 20, 31, 32, 63, 64, 127, 128)
# What texts and their limits are made of: bounds of words of each width, and the limits of docs/commands.md and docs/formats.
LIMITS = sorted({2**width + more for width in WIDTHS for more in (-1, 0, 1)} | {
    0, 1, 3, 9, 10, 12, 16, 17, 28, 40, 41, 63, 64, 65, 99, 100, 256, 257, 512, 513, 1_000, 1_001, 1_024, 1_025, 4_000, 4_001,
    4_096, 4_097, 8_192, 8_193, 65_536, 65_537, 524_288, 524_296, 1_000_000, 1_000_001, 10**19, 10**20, 10**38, 10**39})
BYTES = b"\x00\t\n\r \"#$%&'()*+,-./0123456789:;<=>?@AZ[\\]^_`aez{|}~\x7f\x80\xc3\xff"


def with_part(text, place, part):
    return text[:place[0]] + part + text[place[1]:]


def numbers_in_place(text, number):
    """The text with each limit, also as a number below 0, with a zero before it and with a point behind it."""
    for limit in LIMITS:
        yield with_part(text, number, b"%d" % limit)
        yield with_part(text, number, b"-%d" % limit)
    for form in (b"0%s", b"+%s", b"%s.", b"0x%s", b"%s_0", b"%su", b"minus %s", b"%s e", b"\"%s\""):
        yield with_part(text, number, form % text[number[0]:number[1]])


def swapped(text, first, second):
    return text[:first[0]] + text[second[0]:second[1]] + text[first[1]:second[0]] + text[first[0]:first[1]] + text[second[1]:]


def each_damage(text, random):
    """Each byte replaced, left out, doubled; the text cut at each byte; lines and tokens left out, doubled, swapped; numbers at
    each limit."""
    for at in range(len(text)):
        yield text[:at]
        yield text[:at] + text[at + 1:]
        yield text[:at + 1] + text[at:]
        for byte in random.sample(BYTES, 3) + [text[at] ^ 1 << random.randrange(8)]:
            yield with_part(text, (at, at + 1), bytes([byte]))
    for parts in (re.finditer(rb"[^\n]*\n", text), TOKEN.finditer(text)):
        places = [it.span() for it in parts]
        for n, place in enumerate(places):
            yield with_part(text, place, b"")
            yield with_part(text, place, text[place[0]:place[1]] * 2)
            yield with_part(text, place, text[place[0]:place[1]] + b" " + text[place[0]:place[1]])
            for other in {n + 1, random.randrange(len(places))}:
                if n < other < len(places):
                    yield swapped(text, place, places[other])
    for number in NUMBER.finditer(text):
        yield from numbers_in_place(text, number.span())


def some_damage(text, random, others):
    """The text with one to four damages by chance, among them tokens of other texts."""
    for _ in range(random.choice((1, 1, 2, 2, 3, 4))):
        places = [it.span() for it in TOKEN.finditer(text)] or [(0, len(text))]
        numbers = [it.span() for it in NUMBER.finditer(text)]
        first, second = sorted(random.choices(places, k=2))
        way = random.randrange(8)
        if way == 0 and numbers:
            text = with_part(text, random.choice(numbers), b"%d" % random.choice(LIMITS))
        elif way == 1 and first != second:
            text = swapped(text, first, second)
        elif way == 2:
            text = with_part(text, first, random.choice(TOKEN.findall(random.choice(others)) or [b""]))
        elif way == 3:
            text = with_part(text, (first[0], first[0]), text[second[0]:second[1]] + b" ")
        elif way == 4:
            text = with_part(text, (first[0], second[1]), b"")
        elif way == 5:
            text = with_part(text, (second[1], second[1]), b" " + text[first[0]:second[1]])
        elif way == 6:
            text = with_part(text, first, text[second[0]:second[1]])
        else:
            at = random.randrange(len(text) + 1)
            text = text[:at] + bytes([random.choice(BYTES)]) + text[at + random.randrange(2):]
    return text


def some_words(words, random, others):
    """The words with one or two damages by chance."""
    words = list(words)
    for _ in range(random.choice((1, 1, 2))):
        at, way = random.randrange(len(words)), random.randrange(7)
        if way == 0:
            del words[at]
        elif way == 1:
            words.insert(at, random.choice(others))
        elif way == 2:
            words[at] = random.choice(others)
        elif way == 3:
            words[at] = b"%d" % random.choice(LIMITS)
        elif way == 4:
            words[at:at + 2] = [b"=".join(words[at:at + 2])]
        elif way == 5:
            words.append(words.pop(at))
        else:
            words[at] = some_damage(words[at], random, [b" ".join(words)])
        words = [it.replace(b"\0", b"") for it in words] or [b""]
    return words
