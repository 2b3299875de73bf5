"""One event of every kind, with random bytes."""

from ..rules import events
from ..rules.stored_list import pack


def one_of_each(random, clock):
    """An event of every kind at this clock; whether it is taken is left open."""
    link, data = random.randrange(8), random.randbytes
    out, size = data(random.randrange(16, 40)), random.choice((16, 80))
    brought, second = (True, data(32), data(9), data(8)), data(random.randrange(80, 100))
    return (
        events.Overflow(),
        events.LinkUp(link, clock),
        events.LinkDown(link, clock),
        events.PairingMode(random.random() < 0.5, clock),
        events.AddressRotated(data(6), data(2), clock),
        events.PowerOn(pack(()), b"any name", data(6), data(6), data(3), data(2)),
        events.FactoryReset(clock),
        events.KeyBasedWrite(link, clock, data(size), *brought, out, second),
        events.PairingStarted(link, clock, 1),
        events.ConfirmationNeeded(link, clock, 123_456),
        events.PasskeyWrite(link, clock, data(16), data(12), out),
        events.PairingEnded(link, clock, random.random() < 0.5),
        events.AccountKeyWrite(link, clock, data(16)),
        events.NameWrite(link, clock, data(random.randrange(16, 81))),
    )
