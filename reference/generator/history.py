"""What earlier states held, so that the generator can send it again."""

from ..rules.aes import decrypt
from ..rules.device import LINKS
from ..rules.events import KeyBasedWrite
from ..rules.key_based import NAME_WANTED
from ..rules.name_packet import seal

LONGEST = 40


class History:
    """Account keys, salts, addresses, packets and sessions in the order in which they were seen."""

    def __init__(self):
        self.keys = []
        self.salts = []
        self.addresses = []
        self.packets = []
        self.sessions = [None] * LINKS
        self.busy = set()
        self.just_dropped = []

    def note(self, device):
        """Add what the device holds now."""
        for key in device.keys:
            add_last(self.keys, key)
        # Only the last salt can be new.
        for salt in device.spent[-1:]:
            add_last(self.salts, salt)
        add_last(self.addresses, device.ble)
        self.note_links(device)

    def note_packet(self, event, device):
        """Add the packet that the device has sent, if this last event was a request for the name."""
        session = device.links[event.link] if is_request(event) else None
        if session is not None and decrypt(session.key, event.data[:16])[1] & NAME_WANTED:
            add_last(self.packets, (session.key, seal(session.key, event.nonce, device.name)))

    def note_links(self, device):
        """Keep the last session of every link, and which links have just dropped theirs."""
        busy = {link for link, session in enumerate(device.links) if session is not None}
        self.just_dropped = sorted(self.busy - busy)
        self.busy = busy
        for link in busy:
            self.sessions[link] = device.links[link]

    def dropped_links(self, device):
        """Idle links that held a K once."""
        links = enumerate(self.sessions)
        return [link for link, session in links if session and device.links[link] is None]

    def earlier_keys(self, device):
        """Keys that were held once and are not now."""
        return [key for key in self.keys if key not in device.keys]

    def earlier_salts(self, device):
        """Salts that were remembered once and are free again."""
        return [salt for salt in self.salts if salt not in device.spent]

    def earlier_addresses(self, device):
        """BLE addresses from before a rotation."""
        return [address for address in self.addresses if address != device.ble]

    def packets_under(self, key):
        """Packets that were sent under this K."""
        return [packet for other, packet in self.packets if other == key]

    def packets_under_others(self, key):
        return [packet for other, packet in self.packets if other != key]


def is_request(event):
    """A key-based write of a right size on a link of the device."""
    return isinstance(event, KeyBasedWrite) and event.link < LINKS and len(event.data) in (16, 80)


def add_last(values, value):
    """Put a new value last; the oldest is removed when there are too many."""
    if value not in values:
        values.append(value)
        del values[:-LONGEST]
