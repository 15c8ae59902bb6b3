"""What is told of a text that is not read."""


class Unread(Exception):
    """A text that this checker does not read: whose it is, and where or why."""


class Refused(Exception):
    """The line of an answer that is no `accepted`, and its status."""

    def __init__(self, line: str, status: int) -> None:
        super().__init__(line)
        self.line = line
        self.status = status
