"""How numbers of one program or of two are printed."""


def ratio(values):
    """How many times the other program's number this one's is, if there is another one."""
    if len(values) < 2 or None in values or values[1] <= 0:
        return None
    return values[0] / values[1]


def cell(values, width, places=0):
    """This program's number, and where there is another program its ratio to that one's."""
    number = "-" if values[0] is None else f"{values[0]:,.{places}f}"
    if len(values) < 2:
        return f" {number:>{width}}"
    times = ratio(values)
    return f" {number:>{width}} {'' if times is None else f'x{times:.2f}':<6}"


def heading(text, width, values):
    """What stands above such cells."""
    return f" {text:>{width}}" + ("" if len(values) < 2 else " " * 7)
