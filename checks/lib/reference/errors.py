"""How a module text and a job are refused."""


class ModuleError(Exception):
    """A module text is refused: its code, the byte of the text, and the words."""

    def __init__(self, code: str, at: int, words: str) -> None:
        super().__init__(code)
        self.code, self.at, self.words = code, at, words


class JobError(Exception):
    """A job is refused: a code and a path."""

    def __init__(self, code: str, path: str) -> None:
        super().__init__(code)
        self.code, self.path = code, path
