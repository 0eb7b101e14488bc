"""How a command of the project ends: one meaning for each status, in every command. docs/COMMAND.md has the same table for readers."""

DONE = 0  # what was asked for was printed, whole
FOUND = 1  # a fault was found in what was looked at: of check, a malformed line; of a test, that it failed
WRONG_USE = 2  # words that the command does not know
TOO_LONG = 3  # the text was refused with 23
NO_STREAM = 4  # something could not be read or written whole
NOT_BUILT = 5  # a program could not be built or started


class Failure(Exception):
    """Ends the command with a status and one sentence on standard error."""

    def __init__(self, status, sentence):
        super().__init__(sentence)
        self.status = status
