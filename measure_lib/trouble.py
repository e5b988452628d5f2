"""What keeps the question from being answered, in words for who asked it, and the statuses of the program."""

MEASURED = 0
NOT_MEASURED = 1
WRONG_OPTIONS = 2
NOT_WRITTEN = 3
NOT_AS_PROVED = 4
INTERRUPTED = 130


class Trouble(Exception):
    """A sentence that says what is wrong and what to do, and the status to end with."""

    def __init__(self, sentence: str, status: int = NOT_MEASURED):
        super().__init__(sentence)
        self.status = status


class Ended(Exception):
    """The process ended while it was looked at."""
