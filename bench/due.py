"""What is due to reports and tables, written from docs/formats a second time: for `bench/hostile`.

`report_fault` and `tasks_answer` give the whole line or text that is due. A TOML document is read by Python's `tomllib`, which is
TOML 1.0, so a document that it refuses is judged only where nothing of TOML 1.1 stands in it.
"""

import re
import tomllib

KINDS = ("divide", "uninit", "mixed", "bounds", "dead", "kind", "pointers")
NAME = re.compile(r'"[ !#-\[\]-~]{1,64}"(?:\.(\d+)"[ !#-\[\]-~]{1,64}")*:(?:entry|(\d+))(?=[ \n]|$)')
COUNT, BOUND, WIDE = 2**32 - 1, 2**64 - 1, 2**127
# The kinds of lines in their order, with the words behind each: n a number, g one without a gap, b a bound.
ORDER = (("facts", "f"), ("node", "gnnN"), ("scope", "gpnk"), ("loop", "nlh"), ("count", "nnlh"), ("dead", "n"), ("total", "nlh"),
         ("pair", "nnn"), ("alarm", "nc"), ("count-bound", "b"), ("path-bound", "bw"), ("cert", ""), ("step", "n"), ("merge", "nn"),
         ("scale", "s"), ("mul", "m"), ("end", ""))
AT = {kind: number for number, (kind, _) in enumerate(ORDER)}
FACTS = {"loop", "count", "dead", "total", "pair", "alarm"}
ONCE = {"facts", "count-bound", "path-bound", "cert", "scale", "end"}


class Departs(Exception):
    """A text that departs: the code, the word and the offset of the fault."""


class Reader:
    def __init__(self, text):
        self.text, self.at, self.last, self.found, self.form = text, 0, -1, {}, "2"

    def word(self):
        end = self.at
        while end < len(self.text) and self.text[end] not in " \n":
            end += 1
        return self.text[self.at:end]

    def take(self, word):
        self.at += len(word)

    def syntax(self, at):
        raise Departs("fault 60 syntax", at)

    def number(self, most, least=0):
        word, begin = self.word(), self.at
        is_wide = most == WIDE - 1
        if not re.fullmatch(r"-?\d+" if is_wide else r"\d+", word, re.A):
            self.syntax(begin)
        value = int(word)
        # zeros before it or not
        if value > most or is_wide and value < -WIDE:
            raise Departs("fault 61 number", begin)
        if value < least or word != str(value):
            self.syntax(begin)
        self.take(word)
        return value

    def one_of(self, words):
        word = self.word()
        if word not in words:
            self.syntax(self.at)
        self.take(word)
        return words.index(word)

    def name(self):
        found = NAME.match(self.text, self.at)
        if not found:
            self.syntax(self.at)
        for digits in re.findall(r'(?:\.|:)(\d+)', re.sub(r'"[^"]*"', "", found[0])):
            if not re.fullmatch(r"0|[1-9]\d*", digits) or int(digits) > COUNT:
                self.syntax(self.at)
        self.take(found[0])

    def part(self, kind, form):
        begin = self.at
        if form == "g":
            value = self.number(COUNT)
            if value != self.found.get(kind, 0):
                self.syntax(begin)
            self.found[kind] = value + 1
            return value
        if form == "f":
            self.form = "12"[self.one_of(("1", "2"))]
        elif form == "p":
            if self.word() != "-":
                return self.number(COUNT)
            self.take("-")
        elif form == "N":
            self.name()
        elif form in "kwc":
            return self.one_of({"k": ("call", "loop"), "w": ("least", "stopped"), "c": KINDS}[form])
        else:
            return self.number({"b": BOUND, "s": WIDE - 1, "m": WIDE - 1}.get(form, COUNT), {"s": 1, "m": -WIDE}.get(form, 0))
        return 0

    def line(self):
        """One line, and its kind."""
        start, kind = self.at, self.word()
        if kind not in AT or not self.may_come(kind):
            self.syntax(start)
        self.take(kind)
        values, places = [], []
        for form in ORDER[AT[kind]][1]:
            if self.text[self.at:self.at + 1] != " ":
                self.syntax(self.at)
            self.at += 1
            places.append(self.at)
            values.append(self.part(kind, form))
        if kind in FACTS:
            if self.last == AT[kind] and not self.key < values:
                self.syntax(start)
            self.key = values
        if kind in ("loop", "count", "total") and values[-2] > values[-1]:
            self.syntax(places[-1])
        self.last = AT[kind]
        if self.text[self.at:self.at + 1] == " ":
            self.syntax(self.at + 1)
        if self.text[self.at:self.at + 1] != "\n":
            self.syntax(self.at)
        self.at += 1
        return kind

    def may_come(self, kind):
        at, last = AT[kind], self.last
        if kind == "facts" or last < 0:
            return kind == "facts" and last < 0
        if kind == "count" and self.form == "1":
            return False
        begun = last >= AT["cert"]
        if kind in ("step", "merge"):
            return begun and last <= AT["merge"]
        if kind in ("scale", "mul"):
            return AT["cert"] <= last <= AT["merge"] if kind == "scale" else last in (AT["scale"], AT["mul"])
        if kind == "end":
            return last in (AT["count-bound"], AT["path-bound"], AT["scale"], AT["mul"])
        if kind in ("path-bound", "cert"):
            return last in (AT["count-bound"], AT["path-bound"]) and at > last
        return last < AT["count-bound"] and at >= last


def report_fault(text):
    """The line that a text of bytes has, which is no report; None where it is one."""
    reader = Reader(text.decode("latin-1"))
    try:
        while reader.line() != "end":
            pass
        if reader.at < len(reader.text):
            reader.syntax(reader.at)
    except Departs as fault:
        line, at = fault.args
        front = reader.text[:at]
        return f"{line} {front.count(chr(10)) + 1} {at - front.rfind(chr(10))}\n".encode()
    return None


def document(text):
    """The document, or None where it is none, or `...` where another TOML may take it."""
    try:
        found = tomllib.loads(text.decode())
    except (tomllib.TOMLDecodeError, UnicodeDecodeError, RecursionError) as fault:
        is_newer = re.search(rb"[{:]|\\[ex]", text) and not isinstance(fault, UnicodeDecodeError)
        return ... if is_newer else None
    numbers, rest = [found], []
    while numbers:
        it = numbers.pop()
        rest.append(it)
        numbers += it.values() if isinstance(it, dict) else it if isinstance(it, list) else []
    return None if any(type(it) is int and not -2**63 <= it < 2**63 for it in rest) else found


def response(tasks, task):
    own = [it for it in tasks if it["priority"] < task["priority"]]
    least = task["cost"]
    while least <= task["deadline"]:
        more = task["cost"] + sum(it["cost"] * -(-least // it["period"]) for it in own)
        if more == least:
            return least
        least = more
    return None


def task_fault(entry, earlier):
    keys = {"name": str, "cost": int, "period": int, "deadline": int, "priority": int}
    if set(entry) != set(keys) or any(type(entry[key]) is not kind for key, kind in keys.items()):
        return "key"
    is_named = re.fullmatch(r'[ !#-\[\]-~]{1,64}', entry["name"])
    are_well = all(1 <= entry[key] <= COUNT for key in ("cost", "period", "deadline")) and 0 <= entry["priority"] <= COUNT
    is_new = all(it["priority"] != entry["priority"] for it in earlier)
    return None if is_named and are_well and is_new and entry["deadline"] <= entry["period"] else "range"


def tasks_answer(text):
    """The status and the text that `tasks` is to answer, or None where that is not known here."""
    found = document(text)
    if found is ...:
        return None
    if found is None:
        return 2, b"fault 70 toml tasks\n"
    tasks = found.get("task", [])
    if set(found) - {"task"} or not isinstance(tasks, list) or not all(isinstance(it, dict) for it in tasks):
        return 2, b"fault 71 key tasks -\n"
    if len(tasks) > 64:
        return 2, b"fault 13 limit tasks 65\n"
    for number, entry in enumerate(tasks):
        fault = task_fault(entry, tasks[:number])
        if fault:
            return 2, b"fault %d %s tasks %d\n" % (71 if fault == "key" else 72, fault.encode(), number)
    lines = b""
    for task in tasks:
        least = response(tasks, task)
        if least is None:
            return 4, b'no late "%s"\n' % task["name"].encode()
        lines += b'response "%s" %d\n' % (task["name"].encode(), least)
    return 0, lines
