"""Refusals, by their number in the table of docs/RULES.md."""


class Refused(Exception):
    """`told` is the count that a 5, a 9, an 11 or a 13 tells, and 0 for every other number."""

    def __init__(self, number, told=0):
        super().__init__(number, told)
        self.number, self.told = number, told


def check_length(data, zeros):
    """4: over 2^30 bytes read. The bytes of such a recording aren't all held here: `zeros` bytes 0 follow `data`."""
    if len(data) + zeros > 2**30:
        raise Refused(4)
    assert zeros == 0, 'a recording that is read is held whole'
