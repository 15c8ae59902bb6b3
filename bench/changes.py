"""Changes of files as pairs of texts, each of which stands once in its file: for scripts here and for `.ci/edits`.

They are read as `rt` reads an edit: a line `file: PATH`, and behind it pairs of lines `old: TEXT` and `new: TEXT`.
"""

import re

PAIRS = re.compile(r"^(?:file: ?(.*)\n)?old: ?(.*)\nnew: ?(.*)$", re.M)


def changes_of(text):
    """The pairs of a text, each with the file that it is of. Other lines are not read."""
    file, found = "", []
    for named, old, new in PAIRS.findall(text):
        file = named or file
        found.append((file, old, new))
    return found


def unread(text):
    """The lines of a text that are none of its pairs'."""
    return [it for it in PAIRS.sub("", text).split("\n") if it]


def changed(folder, changes):
    """The text of each file with its changes made in their order, and each old text that does not stand there once."""
    texts, faults = {}, []
    for file, old, new in changes:
        path = folder / file
        if path not in texts:
            texts[path] = path.read_text(encoding="utf-8") if path.is_file() else ""
        count = texts[path].count(old) if old else 0
        if count != 1:
            faults.append(f"stands {count} times: {old}")
        texts[path] = texts[path].replace(old, new)
    return texts, faults


def made(folder, changes, before):
    """Whether the changes were made, all of them or none. `before` gets each file that they change as it was."""
    texts, faults = changed(folder, changes)
    if faults:
        return False
    for path, text in texts.items():
        before.setdefault(path, path.read_text(encoding="utf-8"))
        path.write_text(text, encoding="utf-8")
    return bool(texts)


def unmade(before):
    """Every file as it was."""
    for path, text in before.items():
        path.write_text(text, encoding="utf-8")
