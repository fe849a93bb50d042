"""A listing, read."""


def read(name):
    """Rows of numbers, None for an idle runner, and the losses of the bodies that have some."""
    lines = open(name).read().splitlines()
    assert lines[0] == "step event status runner level begun"
    rows = [[None if cell == "-" else int(cell) for cell in line.split()] for line in lines[1:] if line[0] != "l"]
    losses = {int(line.split()[1]): int(line.split()[2]) for line in lines[1:] if line[0] == "l"}
    return rows, losses


def number(name):
    """The number in a name that bytes have: task0, isr12."""
    return int(name.lstrip("abcdefghijklmnopqrstuvwxyz"))
