"""Power-on events: with a list and a name, with a malformed list, and with a bad name."""

from ..rules.events import PowerOn
from ..rules.stored_list import MOST_IN, pack
from .malformed_lists import MALFORMED
from .random_names import ill_formed, long_name, some_name
from .random_values import different_keys, weighted
from .rates import EQUAL_ADDRESSES

# Full lists often, so that evictions come soon; the older version's most as well.
COUNTS = {0: 2.5, 1: 2.5, 2: 2.5, 3: 2.5, 4: 2.5, 5: 3.5, 6: 2, 7: 2, 8: 2, 9: 2, 10: 7}


def power_on(random, device, history, stored, name):
    """Power-on from this list and name; most often with the addresses that the device had."""
    if device is None or random.random() < 0.3:
        public, model = random.randbytes(6), random.randbytes(3)
    else:
        public, model = device.public, device.model
    ble = public if random.random() < EQUAL_ADDRESSES else random.randbytes(6)
    return PowerOn(stored, name, public, ble, model, random.randbytes(2))


def well_formed(random, device, history):
    """Power-on that is taken."""
    return power_on(random, device, history, some_list(random, history), some_name(random))


def some_list(random, history):
    """A list that is read, of any version that has room for its keys."""
    count = weighted(random, COUNTS)
    version = random.choice([version for version, most in MOST_IN.items() if count <= most])
    return pack(different_keys(random, count, history.keys), version)


def malformed(random, device, history):
    """Power-on that gets 14 for its list, and now and then could for its name too."""
    make = weighted(random, MALFORMED)
    name = ill_formed(random) if random.random() < 0.1 else some_name(random)
    return power_on(random, device, history, make(random), name)


def bad_name(random, device, history):
    """Power-on that gets 14 for its name alone."""
    make = random.choice((long_name, ill_formed, ill_formed))
    return power_on(random, device, history, some_list(random, history), make(random))
