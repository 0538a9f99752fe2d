"""A refusal, as `mb` words it on the standard error."""


class Refusal(Exception):
    """Its words follow `mb: `."""

    def __init__(self, words):
        super().__init__(words)
        self.words = words
