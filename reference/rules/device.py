"""The device's state, as values that are never changed in place."""

from dataclasses import dataclass, replace
from enum import Enum

# "Eight links, 0 to 7."
LINKS = 8
# Request (vi): "The limit becomes 10."
MOST_KEYS = 10


class Stage(Enum):
    """ "asked, pairing, confirming, proved, paired" """

    ASKED = "asked"
    PAIRING = "pairing"
    CONFIRMING = "confirming"
    PROVED = "proved"
    PAIRED = "paired"


@dataclass(frozen=True, slots=True)
class Session:
    """What a link that is not idle holds: K, its stage, when that began, our passkey."""

    key: bytes
    stage: Stage
    began: int
    passkey: int = 0


@dataclass(frozen=True, slots=True)
class Device:
    """ "All links idle, count 0, no spent salts, pairing mode off, clock 0." """

    # "The list order becomes order of use."
    keys: tuple[bytes, ...]
    name: bytes
    public: bytes
    ble: bytes
    model: bytes
    salt: bytes
    # "Keep it in the state": the filter of the keys with this salt.
    filter: bytes
    links: tuple[Session | None, ...] = (None,) * LINKS
    clock: int = 0
    failures: int = 0
    failed_at: int = 0
    spent: tuple[bytes, ...] = ()
    pairing_mode: bool = False
    # "Until the rotation, further key-based writes get a new answer 16".
    rotation_awaited: bool = False

    def copy(self, **changes):
        """The same device with some fields changed."""
        return replace(self, **changes)


def hold(device, link, session):
    """The device with this link's session replaced; None makes the link idle."""
    links = device.links[:link] + (session,) + device.links[link + 1 :]
    return device.copy(links=links)


def drop(device, link):
    """The device with this link's K dropped."""
    return hold(device, link, None)


def drop_all(device):
    """The device with K dropped on all links."""
    return device.copy(links=(None,) * LINKS)
