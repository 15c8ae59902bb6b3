"""The tables of what was seen: crates with their minutes, the longest chain of them, and who worked alone."""

import collections
import functools

from program import crates

from .processes import KINDS, Kind

Minutes = dict[str, collections.Counter[str]]


def row(name: str, parts: collections.Counter[str]) -> str:
    return f"{name:<28}" + "".join(f"{parts[kind]:>9.2f}" for kind in KINDS) + f"{sum(parts.values()):>9.2f}"


def all_of(taken: Minutes, unseen: float) -> collections.Counter[str]:
    whole: collections.Counter[str] = collections.Counter(rest=max(unseen, 0.0))
    for parts in taken.values():
        whole.update(parts)
    return whole


def crate_rows(taken: Minutes, unseen: float) -> list[str]:
    rows = [f"{'crate':<28}" + "".join(f"{kind:>9}" for kind in KINDS) + f"{'all':>9}"]
    rows += [row(crate, parts) for crate, parts in sorted(taken.items(), key=lambda it: -sum(it[1].values()))]
    if unseen > 0:
        rows.append(row("(ended unseen)", collections.Counter(rest=unseen)))
    return [*rows, row("all", all_of(taken, unseen))]


def longest_chain(taken: Minutes, named: dict[str, list[str]]) -> list[str]:
    """The crates that take longest where each is proved after one that it names: no gate is shorter."""

    @functools.cache
    def chain(crate: str) -> tuple[float, tuple[str, ...]]:
        below = max((chain(it) for it in named[crate] if it in named), default=(0.0, ()))
        return below[0] + taken.get(crate, {}).get("proof", 0.0), (*below[1], crate)

    return list(max((chain(it) for it in named), default=(0.0, ()))[1])


def chain_rows(taken: Minutes, named: dict[str, list[str]] | None = None) -> list[str]:
    found = longest_chain(taken, crates() if named is None else named)
    minutes = {it: taken.get(it, {}).get("proof", 0.0) for it in found}
    told = ", ".join(f"{crate} {it:.1f}" for crate, it in minutes.items() if it >= 0.05)
    return [f"longest chain {sum(minutes.values()):.1f} processor minutes of proofs: {told}"]


def alone_rows(alone: collections.Counter[Kind]) -> list[str]:
    told = ", ".join(f"{it.crate} ({it.part}) {seconds / 60:.1f}" for it, seconds in alone.most_common(8))
    return [f"one crate alone at work {sum(alone.values()) / 60:.1f} minutes of the clock{': ' if told else ''}{told}"]


def yardstick_rows(whole: float, crate: str, begun: float, ended: float) -> list[str]:
    mean = (begun + ended) / 2
    told = f"yardstick: the proof of {crate}, {begun:.1f} processor seconds at the beginning and {ended:.1f} at the end"
    return [told, f"all in yardsticks {60 * whole / mean:.0f}" if mean else "all in yardsticks -"]
