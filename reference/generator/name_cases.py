"""Rare cases of the personalized name."""

from ..rules.aes import decrypt
from ..rules.clock import STAGE_LASTS, TIMED
from ..rules.device import LINKS, Stage
from ..rules.events import FactoryReset, KeyBasedWrite, NameWrite, PowerOn
from ..rules.key_based import RETROACTIVE
from ..rules.name import MOST_NAME, TAKEN_IN
from ..rules.name_packet import TAG, open_packet, tag_of
from ..rules.stored_list import read_stored_list

NAMES = (
    "empty name at power-on",
    "name of 64 bytes at power-on",
    "name of 65 bytes at power-on",
    "ill-formed name at power-on",
    "bad name with a pairing under way",
    "reset of a name",
    "second output of 79 bytes",
    "second output of 80 bytes",
    "name asked for",
    "name asked for with an address for bonding",
    "name asked for with flag 0x10",
    "name not asked for",
    "empty name asked for",
    "name of 64 bytes asked for",
    "packet of 15 bytes",
    "packet of 16 bytes taken",
    "packet of 80 bytes taken",
    "packet of 81 bytes",
    *(f"name taken in {stage.value}" for stage in TAKEN_IN),
    *(f"15 in {stage.value}" for stage in TAKEN_IN),
    "name write in paired",
    "name write in time at 9,999",
    "name write too late at 10,000",
    "timer runs on after a name write",
    "tag wrong in its first byte alone",
    "tag wrong in its last byte alone",
    "ill-formed name in an authentic packet",
    "held name taken again",
    "sent packet came back",
    "sent packet came back after another name",
    "sent packet came back under another K",
)


class NameCases:
    """Tells `met(name, truth)` of every step; it follows the packets that were sent."""

    def __init__(self, met):
        self.met = met
        self.sent = set()
        # For each link the session and the clock of its last name write that got 0 or 15.
        self.served = {}

    def note(self, before, event, after, reply):
        """One step of the run."""
        if isinstance(event, PowerOn):
            self.power_on(before, event, reply)
        if before is None:
            return
        if isinstance(event, FactoryReset):
            self.met("reset of a name", reply.answer == 0 and before.name)
        if isinstance(event, KeyBasedWrite):
            self.request(event, after, reply)
        self.timer(before, event, reply)
        if isinstance(event, NameWrite):
            self.name_write(before, event, after, reply)

    def power_on(self, before, event, reply):
        size, taken = len(event.name), reply.answer == 0
        self.met("empty name at power-on", taken and size == 0)
        self.met("name of 64 bytes at power-on", taken and size == MOST_NAME)
        if taken or read_stored_list(event.stored) is None:
            return
        self.met("name of 65 bytes at power-on", size == MOST_NAME + 1)
        self.met("ill-formed name at power-on", size <= MOST_NAME)
        self.met("bad name with a pairing under way", before is not None and any(before.links))

    def request(self, event, after, reply):
        short = reply.answer == 13 and len(event.out) >= 16
        self.met("second output of 79 bytes", short and len(event.packet) == 79)
        if reply.answer != 0:
            return
        self.met("name not asked for", reply.packet_length == 0)
        if reply.packet_length:
            key = after.links[event.link].key
            self.sent.add((key, reply.packet[: reply.packet_length]))
            self.name_sent(event, reply, decrypt(key, event.data[:16])[1])

    def name_sent(self, event, reply, flags):
        self.met("name asked for", True)
        self.met("second output of 80 bytes", len(event.packet) == 80)
        self.met("name asked for with an address for bonding", reply.bond is not None)
        self.met("name asked for with flag 0x10", flags & RETROACTIVE)
        self.met("empty name asked for", reply.packet_length == 16)
        self.met("name of 64 bytes asked for", reply.packet_length == 80)

    def timer(self, before, event, reply):
        """A stage that is over, though it would not be if a name write had moved its moment."""
        link = getattr(event, "link", LINKS)
        session, clock = self.served.get(link, (None, 0))
        if session is not None and session == before.links[link] and reply.answer == 9:
            over = event.clock - session.began >= STAGE_LASTS > event.clock - clock
            self.met("timer runs on after a name write", over)

    def name_write(self, before, event, after, reply):
        size = len(event.packet)
        for wrong in (15, 81):
            self.met(f"packet of {wrong} bytes", reply.answer == 2 and size == wrong)
        for right in (16, 80):
            self.met(f"packet of {right} bytes taken", reply.answer == 0 and size == right)
        session = before.links[event.link] if event.link < LINKS else None
        if session is None or reply.answer in (2, 4):
            return
        self.in_stage(session, event, reply)
        if reply.answer in (0, 15):
            self.served[event.link] = session, event.clock
            self.packet(before, session.key, event.packet, after, reply)

    def in_stage(self, session, event, reply):
        stage, age = session.stage, event.clock - session.began
        if stage in TAKEN_IN and reply.answer in (0, 15):
            self.met(f"name taken in {stage.value}" if reply.answer == 0 else f"15 in {stage.value}", True)
        self.met("name write in paired", stage is Stage.PAIRED and reply.answer == 10)
        if stage in TIMED:
            self.met("name write in time at 9,999", age == 9_999 and reply.answer in (0, 15))
            self.met("name write too late at 10,000", age == 10_000 and reply.answer == 9)

    def packet(self, before, key, packet, after, reply):
        """What the packet held, under K of its link."""
        right = tag_of(key, packet[TAG : 2 * TAG], packet[2 * TAG :])
        wrong = [place for place in range(TAG) if packet[place] != right[place]]
        self.met("tag wrong in its first byte alone", wrong == [0])
        self.met("tag wrong in its last byte alone", wrong == [TAG - 1])
        self.met("ill-formed name in an authentic packet", reply.answer == 15 and not wrong)
        self.met("held name taken again", reply.answer == 0 and before.name == after.name)
        if (key, packet) in self.sent:
            came_back = reply.answer == 0 and after.name == open_packet(key, packet)
            self.met("sent packet came back", came_back)
            self.met("sent packet came back after another name", came_back and before.name != after.name)
        elif any(packet == other for _, other in self.sent):
            self.met("sent packet came back under another K", reply.answer == 15)
