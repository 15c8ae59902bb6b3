"""The answer where nothing may be shown on lines."""


class Differs(Exception):
    """The rules of this viewer and the program do not say the same of a file."""
