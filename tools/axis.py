"""The axis of a trace, on which the moments of one tick follow one another: docs/DECISIONS.md, 60."""
import decimal

TICK, WIDE_MOMENTS = 1000, 100


def instants_of(lines):
    """The place on the axis of the moment before each entry and of the moment after it, and the words of the entries."""
    now, place, found = 0, 0, [(decimal.Decimal(0), None)]
    for line in lines:
        words = line.split(" ")
        now, place = (now, place + 1) if int(words[1]) == now else (int(words[1]), 0)
        within = place if place < WIDE_MOMENTS else WIDE_MOMENTS + decimal.Decimal(place - WIDE_MOMENTS) / 100
        found.append((decimal.Decimal(now) * TICK + within, words))
    return found
