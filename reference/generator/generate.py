"""A seeded generator of events, led by the device's state."""

from dataclasses import replace
from random import Random

from ..rules.device import Stage, hold
from ..rules.events import FactoryReset, PairingMode
from ..rules.key_based import MOST_FAILURES
from . import device_events, key_based_writes, name_writes, pairing_events, power_on_events, rates
from .clocks import LATE, earlier, random_clock
from .faulty_fields import with_faults, wrong_link
from .history import History
from .random_values import busy_link, idle_link, link_number, weighted


class Generator:
    """Gives one event after the other; the same seed and states give the same events."""

    def __init__(self, seed):
        self.random = Random(seed)
        self.history = History()
        self.phase = "pairings"
        self.events_left = 0
        self.last_event = None
        self.try_earlier = False

    def next_event(self, device):
        """The next event for a device in this state; None asks for a power-on."""
        if device is None:
            return self.first_power_on()
        self.history.note(device)
        self.history.note_packet(self.last_event, device)
        self.next_phase()
        event = self.by_state(device) or self.by_phase(device)
        clock = getattr(event, "clock", device.clock)
        # A clock that went back, or a reset, shows best in the very next clock.
        self.try_earlier = clock < device.clock or isinstance(event, FactoryReset)
        self.last_event = event
        return event

    def first_power_on(self):
        """Most often one that is taken."""
        taken = self.chance(0.8)
        make = power_on_events.well_formed if taken else power_on_events.malformed
        return make(self.random, None, self.history)

    def next_phase(self):
        """Begin another phase when this one is over."""
        if self.events_left == 0:
            self.phase = weighted(self.random, rates.PHASES)
            self.events_left = self.random.randint(*rates.LENGTHS[self.phase])
        self.events_left -= 1

    def chance(self, probability):
        return self.random.random() < probability

    def by_state(self, device):
        """An event that this state calls for, or None."""
        locked = device.failures == MOST_FAILURES
        power_on = rates.POWER_ON_WHEN_LOCKED if locked else 0
        power_on += rates.POWER_ON_WHEN_LATE if device.clock > LATE else 0
        if self.chance(power_on):
            return power_on_events.well_formed(self.random, device, self.history)
        if locked and self.chance(rates.RESET_WHEN_LOCKED):
            return FactoryReset(self.clock(device))
        if self.history.just_dropped and self.chance(rates.EXPECTED_EVENT_AFTER_DROP):
            return self.event_after_drop(device)
        if device.rotation_awaited:
            return getattr(self, weighted(self.random, rates.DURING_WAIT))(device)
        return None

    def by_phase(self, device):
        """An event of this phase, now and then with faults."""
        action = weighted(self.random, rates.ACTIONS[self.phase])
        event = getattr(self, action)(device)
        if self.chance(rates.SEVERAL_FAULTS):
            return with_faults(self.random, device, event)
        if hasattr(event, "link") and self.chance(rates.WRONG_LINK):
            return replace(event, link=wrong_link(self.random, device, event.link))
        return event

    def clock(self, device, link=None):
        """A moment of this phase."""
        if self.try_earlier and self.chance(rates.EARLIER_CLOCK_AGAIN):
            return earlier(self.random, device, link)
        return random_clock(self.random, device, rates.CLOCKS[self.phase], link)

    def on_link(self, make, device, link):
        """The event that this function makes, on the link."""
        return make(self.random, device, self.history, link, self.clock(device, link))

    def on_any_link(self, make, device):
        return self.on_link(make, device, link_number(self.random))

    def fitting_request(self, device):
        """A fitting request, most often on an idle link."""
        # With no key and pairing mode off no request can fit.
        if not device.keys and not device.pairing_mode and self.chance(0.6):
            return PairingMode(True, self.clock(device))
        anywhere = self.chance(0.15)
        link = link_number(self.random) if anywhere else idle_link(self.random, device)
        return self.on_link(key_based_writes.fitting, device, link)

    def expected_event(self, device):
        """The event that a link waits for."""
        link = busy_link(self.random, device)
        if link is None:
            return self.fitting_request(device)
        return self.on_link(pairing_events.EXPECTED[device.links[link].stage], device, link)

    def furthest_event(self, device):
        """The event that the link which has come furthest waits for, so that account keys are written soon."""
        for stage in reversed(Stage):
            link = busy_link(self.random, device, (stage,))
            if link is not None:
                return self.on_link(pairing_events.EXPECTED[stage], device, link)
        return self.fitting_request(device)

    def failing_event(self, device):
        """An event that ends a link's pairing, most often one with a bad block."""
        stages = pairing_events.WITH_BLOCKS if self.chance(0.5) else Stage
        link = busy_link(self.random, device, stages)
        if link is None:
            return self.any_pairing_event(device)
        failing = pairing_events.FAILING[device.links[link].stage]
        make = pairing_events.pairing_failed if self.chance(0.25) else failing
        return self.on_link(make, device, link)

    def any_pairing_event(self, device):
        """Any pairing, passkey or account key event on any link, most often a busy one."""
        link = busy_link(self.random, device) if self.chance(0.6) else None
        link = link_number(self.random) if link is None else link
        return self.on_link(self.random.choice(pairing_events.EVERY), device, link)

    def name_write(self, device):
        """A name write, most often on a link that holds a K."""
        link = busy_link(self.random, device) if self.chance(0.95) else link_number(self.random)
        if link is None:
            return self.fitting_request(device)
        return self.on_link(name_writes.name_write, device, link)

    def event_after_drop(self, device):
        """The event that a link waited for before its K was dropped, or a name write."""
        links = self.history.just_dropped or self.history.dropped_links(device)
        if not links:
            return self.fitting_request(device)
        link = self.random.choice(links)
        session = self.history.sessions[link]
        # Built as if K were still there; a small step keeps it in time.
        before = hold(device, link, session)
        clock = random_clock(self.random, device, {"small step": 1})
        waited_for = pairing_events.EXPECTED[session.stage]
        make = name_writes.name_write if self.chance(0.25) else waited_for
        return make(self.random, before, self.history, link, clock)

    def request_before_lockout(self, device):
        """Failures up to the lock, with answers 6 and 8 and the five minutes in between."""
        link = link_number(self.random)
        if device.failures < 7 or device.failures == MOST_FAILURES or self.chance(0.35):
            return self.on_link(key_based_writes.nonfitting, device, link)
        if self.chance(0.7):
            return self.on_link(uncounted(self.random, device), device, link)
        clock = random_clock(self.random, device, {"failure limit": 1})
        return key_based_writes.nonfitting(self.random, device, self.history, link, clock)

    def nonfitting_request(self, device):
        return self.on_any_link(key_based_writes.nonfitting, device)

    def replayed_request(self, device):
        return self.on_any_link(key_based_writes.replayed, device)

    def public_key_request(self, device):
        return self.on_any_link(key_based_writes.with_public_key, device)

    def wrong_size_request(self, device):
        return self.on_any_link(key_based_writes.wrong_size, device)

    def device_event(self, device):
        """An event of the whole device; being rare, it goes back in time more often."""
        clock = self.clock(device)
        if self.chance(0.05):
            clock = earlier(self.random, device, None)
        return device_events.device_event(self.random, device, self.history, clock)

    def device_event_during_wait(self, device):
        """An event that lifts the wait for a rotation, or that could be thought to."""
        clock, events = self.clock(device), rates.DEVICE_EVENTS_DURING_WAIT
        return device_events.device_event(self.random, device, self.history, clock, events)


def uncounted(random, device):
    """A request that gets 6 or 8, if this state has any."""
    ways = [] if device.pairing_mode else [key_based_writes.with_public_key]
    ways += [key_based_writes.remembered_salt] if device.spent and device.keys else []
    return random.choice(ways or [key_based_writes.nonfitting])
