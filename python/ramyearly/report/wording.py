"""Numbers as people read them."""

from fractions import Fraction


def thousands(number):
    return f"{number:,}"


def signed(number):
    """A number with a sign for minus that is as wide as a digit."""
    return thousands(number).replace("-", "\u2212")


def counted(number, noun):
    """A number with its noun: 1 job, 2 jobs."""
    return f"{thousands(number)} {noun}{'' if number == 1 else 's'}"


def from_to(start, end):
    return f"{thousands(start)} to {thousands(end)}"


def mixed(value):
    """An exact fraction as a mixed number: 1 1/2."""
    value = Fraction(value)
    whole, rest = divmod(value.numerator, value.denominator)
    if rest == 0:
        return thousands(whole)
    part = f"{rest}/{value.denominator}"
    return f"{thousands(whole)} {part}" if whole else part


def percent(part, whole, digits=1):
    """How much of the whole a part is, in percent, with at most so many digits after the point. It is rounded away from
    100, and never down to 0, so that 100 and 0 are said only where they are exact."""
    unit = 10**digits
    units, rest = divmod(100 * unit * part, whole)
    if rest and part > whole:
        units += 1
    elif rest and units == 0:
        units = 1
    shown = f"{units // unit:,}"
    return f"{shown}.{units % unit}" if units % unit else shown
