"""Altered reports: lines, events and multipliers that are changed, left out, doubled or exchanged by chance.

Programs and tables are damaged in the same way, token by token.
"""

import random
import re

NUMBERS = (0, 1, 2, 3, 255, 1 << 31, (1 << 32) - 1, 1 << 32, 1 << 63, (1 << 64) - 1, 1 << 64, 1 << 96, (1 << 127) - 1)
FACTS = ("loop", "count", "dead", "total", "pair", "alarm")
NAMES = (
    f'"a":{"9" * 5000}', '"a".99999999999"b":4', '"a":99999999999', '"a".01"b":0', '"":0', '"a" :0', '"a b":0',
    '"a".5"b":entry',
)  # fmt: skip
WORDS = ("", "-", "-0", "00", "least", "stopped", "loop", "call", "uninit", "x", '"main":entry')


def altered(report: str, seed: str) -> str:
    """The report with one change, and now and then with two."""
    chance = random.Random(seed)
    lines = report.split("\n")[:-1]
    for _ in range(chance.choice((1, 1, 1, 2))):
        lines = chance.choice(WAYS)(lines, chance)
    return "\n".join(lines) + "\n"


def places(lines: list[str], *kinds: str) -> list[int]:
    return [number for number, it in enumerate(lines) if it.split(" ")[0] in kinds]


def with_number(line: str, chance: random.Random) -> str:
    """A line of which one number is another, most often the next one."""
    words = line.split(" ")
    numbers = [at for at, word in enumerate(words) if word.lstrip("-").isdigit()]
    if numbers:
        at = chance.choice(numbers[-2:])
        number = int(words[at])
        far = chance.choice(NUMBERS) * chance.choice((1, 1, -1))
        words[at] = str(chance.choice((number + 1, max(number - 1, 0), number - 1, far)))
    return " ".join(words)


def any_number(lines: list[str], chance: random.Random) -> list[str]:
    return changed(lines, range(len(lines)), chance)


def a_fact(lines: list[str], chance: random.Random) -> list[str]:
    return changed(lines, places(lines, *FACTS, "count-bound", "path-bound"), chance)


def an_event(lines: list[str], chance: random.Random) -> list[str]:
    return changed(lines, places(lines, "step", "merge"), chance)


def a_multiplier(lines: list[str], chance: random.Random) -> list[str]:
    return changed(lines, places(lines, "mul", "scale"), chance)


def changed(lines: list[str], at: range | list[int], chance: random.Random) -> list[str]:
    if not at:
        return lines
    number = chance.choice(at)
    return [*lines[:number], with_number(lines[number], chance), *lines[number + 1 :]]


def left_out(lines: list[str], chance: random.Random) -> list[str]:
    kinds = chance.choice((FACTS, ("step", "merge"), ("mul",), ("node", "scope", "cert", "end", "path-bound")))
    at = places(lines, *kinds)
    if not at:
        return lines
    number = chance.choice(at)
    return lines[:number] + lines[number + 1 :]


def doubled(lines: list[str], chance: random.Random) -> list[str]:
    number = chance.randrange(len(lines))
    return lines[: number + 1] + [with_number(lines[number], chance)] + lines[number + 1 :]


def exchanged(lines: list[str], chance: random.Random) -> list[str]:
    at = chance.choice((places(lines, "step", "merge"), places(lines, "mul"), list(range(len(lines)))))
    if len(at) < 2:
        return lines
    first, second = chance.sample(at, 2)
    found = list(lines)
    found[first], found[second] = lines[second], lines[first]
    return found


def other_event(lines: list[str], chance: random.Random) -> list[str]:
    """An event that was not there."""
    at = places(lines, "cert")
    if not at:
        return lines
    number = chance.randint(at[0], max(places(lines, "step", "merge"), default=at[0])) + 1
    first = chance.randint(0, 3)
    event = chance.choice((f"step {first}", f"merge {first} {first + chance.randint(0, 2)}"))
    return lines[:number] + [event] + lines[number:]


def dead_for_total(lines: list[str], chance: random.Random) -> list[str]:
    """A node that is told as dead, in the order of lines."""
    at = places(lines, "total")
    if not at:
        return lines
    node = int(lines[chance.choice(at)].split(" ")[1])
    dead = sorted([int(lines[it].split(" ")[1]) for it in places(lines, "dead")] + [node])
    kept = [it for it in lines if not it.startswith(("dead ", f"total {node} "))]
    number = min(places(kept, "total", "pair", "alarm", "count-bound"))
    return kept[:number] + [f"dead {it}" for it in dead] + kept[number:]


def word(lines: list[str], chance: random.Random) -> list[str]:
    number = chance.randrange(len(lines))
    words = lines[number].split(" ")
    words[chance.randrange(len(words))] = chance.choice(WORDS)
    return [*lines[:number], " ".join(words), *lines[number + 1 :]]


def a_name(lines: list[str], chance: random.Random) -> list[str]:
    number = chance.choice(places(lines, "node") or [0])
    named = " ".join([*lines[number].split(" ")[:4], chance.choice(NAMES)])
    return [*lines[:number], named, *lines[number + 1 :]]


def last_events_left_out(lines: list[str], chance: random.Random) -> list[str]:
    gone = places(lines, "step", "merge")[-chance.randint(1, 4) :]
    return [it for number, it in enumerate(lines) if number not in gone]


def alarm_left_out(lines: list[str], chance: random.Random) -> list[str]:
    at = places(lines, "alarm")
    gone = chance.choice(at) if at else -1
    return [it for number, it in enumerate(lines) if number != gone]


def far_multipliers(lines: list[str], chance: random.Random) -> list[str]:
    """Multipliers near the ends of what a number may be, and sometimes such a scale."""
    found = list(lines)
    for number in chance.choices(places(lines, "mul") or [0], k=chance.randint(1, 3)):
        far = chance.choice((1, 1, 1, -1)) << chance.choice((64, 100, 120, 126))
        found[number] = f"mul {far + chance.randint(0, 9)}"
    for number in places(lines, "scale") if chance.random() < 0.4 else []:
        found[number] = f"scale {1 << chance.choice((1, 64, 100, 126))}"
    return found


WAYS = (
    any_number, a_fact, a_fact, a_fact, an_event, a_multiplier, a_multiplier, left_out, doubled, exchanged, other_event,
    other_event, dead_for_total, word, a_name, last_events_left_out, alarm_left_out, far_multipliers,
)  # fmt: skip


TOKEN = re.compile(r'"[^"]*"|\w+|[^\w\s]|\s+')


def damaged(text: str, seed: str) -> str:
    """A program or a table with one token left out, doubled, exchanged with another, or another number."""
    chance = random.Random(seed)
    tokens = TOKEN.findall(text)
    at = [number for number, it in enumerate(tokens) if not it.isspace()]
    first, second = chance.choice(at), chance.choice(at)
    numbers = [number for number in at if tokens[number].isdigit()]
    match chance.randrange(5):
        case 0:
            tokens[first] = ""
        case 1:
            tokens[first] += " " + tokens[first]
        case 2:
            tokens[first], tokens[second] = tokens[second], tokens[first]
        case _:
            number = int(tokens[chance.choice(numbers)])
            near = chance.choice((number + 1, max(number - 1, 0), 8 * number, number // 2, chance.choice(NUMBERS)))
            tokens[chance.choice(numbers)] = str(near)
    return "".join(tokens)
