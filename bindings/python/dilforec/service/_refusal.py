"""What stops a command before it begins."""


class Refusal(Exception):
    """A sentence for the one who started the command, which ends with status 2."""
