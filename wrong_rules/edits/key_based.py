"""The key-based write; the use of keys by requests and the wait for a rotation stand apart."""

from . import rotation_wait, uses_by_requests

LOCKED = "        return device, plain_reply(event, 5)\n"
CHECK_5 = "    if device.failures == MOST_FAILURES:\n" + LOCKED
CHECK_16 = rotation_wait.CHECK_16
MODE_OFF = "        return device, plain_reply(event, 6)\n"
CHECK_6 = "    if len(event.data) == 80 and not device.pairing_mode:\n" + MODE_OFF
FAILED = "        return count_failure(device), plain_reply(event, 7, tried=len(keys))\n"
SPENT = "        return device, plain_reply(event, 8, tried=place)\n"
OTHER_TYPE = "    if request[0] != REQUEST:\n"
BLE, PUBLIC = rotation_wait.BLE, rotation_wait.PUBLIC
SALT = "    return request[14:] if request[1] & (BONDING | RETROACTIVE) else request[8:]\n"
COUNTED = "device.copy(failures=device.failures + 1, failed_at=device.clock)"
REMEMBERED = "    spent = (device.spent + (salt_of(request),))[-MOST_SALTS:]\n"
ACCEPTED = "    device = device.copy(keys=keys, spent=spent, failures=0, rotation_awaited=named is Named.BLE)\n"
HELD = "    device = hold(device, event.link, Session(key, Stage.ASKED, device.clock))\n"
RESPONSE = "encrypt(key, bytes([RESPONSE]) + device.public + event.salt)"
BOND = "    bond = request[8:14] if request[1] & BONDING else None\n"
PACKET = '    packet = seal(key, event.nonce, device.name) if request[1] & NAME_WANTED else b""\n'
OUTPUTS = "    outputs = put(response, event.out), len(packet), put(packet, event.packet)\n"
SEARCH = "    for place, key in enumerate(keys, start=1):\n"
DROPPED = "hold(device, event.link, None)"


def changes(line, change):
    """The answer of this line changes the device, where it should not."""
    return line.replace("return device,", f"return {change},")


def compared(line, part):
    """A part of the address alone is compared."""
    for address in ("request[2:8]", "device.ble", "device.public"):
        line = line.replace(address, address + part)
    return line


EDITS = (
    ("nine failures lock", "MOST_FAILURES = 10", "MOST_FAILURES = 9"),
    ("eleven failures lock", "MOST_FAILURES = 10", "MOST_FAILURES = 11"),
    ("5 is left out", CHECK_5, ""),
    ("6 comes before 5", CHECK_5 + CHECK_16 + CHECK_6, CHECK_6 + CHECK_5 + CHECK_16),
    (
        "8 comes before 5",
        CHECK_5,
        "    salts = [salt_of(decrypt(key, event.data[:16])) for key in device.keys]\n"
        "    if device.failures == MOST_FAILURES and not set(salts) & set(device.spent):\n" + LOCKED,
    ),
    ("6 is left out", CHECK_6, ""),
    ("16 bytes with pairing mode off get 6", CHECK_6, CHECK_6.replace("len(event.data) == 80 and ", "")),
    (
        "6 is given with pairing mode on",
        CHECK_6,
        CHECK_6.replace("not device.pairing_mode", "device.pairing_mode"),
    ),
    (
        "80 bytes in pairing mode off are tried with account keys",
        CHECK_6,
        "    if len(event.data) == 80 and not device.pairing_mode:\n"
        "        event = event.__class__(**{**vars(event), 'data': event.data[:16]})\n",
    ),
    ("5 moves the failure's moment", LOCKED, changes(LOCKED, "device.copy(failed_at=device.clock)")),
    ("5 drops K", LOCKED, changes(LOCKED, DROPPED)),
    ("6 counts as a failure", MODE_OFF, changes(MODE_OFF, "count_failure(device)")),
    ("6 moves the failure's moment", MODE_OFF, changes(MODE_OFF, "device.copy(failed_at=device.clock)")),
    ("6 drops K", MODE_OFF, changes(MODE_OFF, DROPPED)),
    ("8 counts as a failure", SPENT, changes(SPENT, "count_failure(device)")),
    ("8 moves the failure's moment", SPENT, changes(SPENT, "device.copy(failed_at=device.clock)")),
    ("8 sets the count to 0", SPENT, changes(SPENT, "device.copy(failures=0)")),
    ("8 drops K", SPENT, changes(SPENT, DROPPED)),
    (
        "8 remembers the salt once more",
        SPENT,
        changes(SPENT, "device.copy(spent=(device.spent + (salt_of(request),))[-MOST_SALTS:])"),
    ),
    (
        "8 replaces K",
        SPENT,
        changes(SPENT, "hold(device, event.link, Session(key, Stage.ASKED, device.clock))"),
    ),
    (
        "8 hands out the address for bonding",
        SPENT,
        "        bond = request[8:14] if request[1] & BONDING else None\n"
        "        return device, Reply(8, place, bond, out=event.out, packet=event.packet)\n",
    ),
    (
        "8 writes a response",
        SPENT,
        "        response = encrypt(key, bytes([RESPONSE]) + device.public + event.salt)\n"
        "        return device, Reply(8, place, out=put(response, event.out), packet=event.packet)\n",
    ),
    ("8 tells 0 keys tried", SPENT, SPENT.replace("tried=place", "tried=0")),
    ("7 tells 0 keys tried", FAILED, FAILED.replace("tried=len(keys)", "tried=0")),
    ("7 tells one key more", FAILED, FAILED.replace("tried=len(keys)", "tried=len(keys) + 1")),
    (
        "7 tells the list's length for 80 bytes",
        FAILED,
        FAILED.replace("tried=len(keys)", "tried=len(device.keys)"),
    ),
    ("7 is not counted", FAILED, FAILED.replace("count_failure(device)", "device")),
    ("7 drops K", FAILED, FAILED.replace("count_failure(device)", "count_failure(" + DROPPED + ")")),
    (
        "7 remembers the salt",
        FAILED,
        "        salts = tuple(salt_of(decrypt(key, event.data[:16])) for key in keys)\n"
        "        device = device.copy(spent=(device.spent + salts)[-MOST_SALTS:])\n" + FAILED,
    ),
    (
        "a rejected point is not counted",
        FAILED,
        "        counted = device if len(event.data) == 80 and not event.accepted else count_failure(device)\n"
        "        return counted, plain_reply(event, 7, tried=len(keys))\n",
    ),
    ("the place is counted from 0", SEARCH, SEARCH.replace("start=1", "start=0")),
    (
        "keys are tried from the last on",
        SEARCH,
        SEARCH.replace("enumerate(keys, start=1)", "reversed(list(enumerate(keys, start=1)))"),
    ),
    (
        "keys are tried from the last on, counted from there",
        SEARCH,
        SEARCH.replace("enumerate(keys, start=1)", "enumerate(reversed(keys), start=1)"),
    ),
    (
        "the first key is not tried",
        SEARCH,
        SEARCH.replace("enumerate(keys, start=1)", "list(enumerate(keys, start=1))[1 if len(keys) > 1 else 0 :]"),
    ),
    *(
        (f"keys behind place {most} are not tried", SEARCH, SEARCH.replace("keys,", f"keys[:{most}],"))
        for most in (5, 9)
    ),
    (
        "trying goes on when the salt is remembered",
        "        if named is not None:\n",
        "        if named is not None and (salt_of(request) not in device.spent or key == keys[-1]):\n",
    ),
    (
        "16 bytes are tried with the secret too",
        "        return device.keys\n",
        "        return device.keys + (sha256(event.secret).digest()[:16],)\n",
    ),
    (
        "16 bytes need an accepted point",
        "        return device.keys\n",
        "        return device.keys if event.accepted else ()\n",
    ),
    (
        "80 bytes are tried with the account keys too",
        "        return (sha256(event.secret).digest()[:16],)\n",
        "        return (sha256(event.secret).digest()[:16],) + device.keys\n",
    ),
    (
        "the key is the last 16 bytes of the hash",
        "        return (sha256(event.secret).digest()[:16],)\n",
        "        return (sha256(event.secret).digest()[16:],)\n",
    ),
    (
        "the key is the secret's first 16 bytes",
        "        return (sha256(event.secret).digest()[:16],)\n",
        "        return (event.secret[:16],)\n",
    ),
    ("a rejected point gives a candidate", "    if event.accepted:\n", "    if True:\n"),
    (
        "a rejected point leads to the account keys",
        "    return ()\n\n\ndef first_fitting",
        "    return device.keys\n\n\ndef first_fitting",
    ),
    ("the request is the last 16 bytes", "event.data[:16])", "event.data[-16:])"),
    ("byte 0 is not looked at", OTHER_TYPE, "    if False:\n"),
    ("type 0x10 fits", OTHER_TYPE, OTHER_TYPE.replace("!= REQUEST", "not in (REQUEST, 0x10)")),
    ("the public address does not fit", PUBLIC, "    return None\n"),
    ("the BLE address does not fit", BLE + PUBLIC, PUBLIC),
    *(
        (f"the {which} byte of {whose} address is not compared", right, compared(right, part))
        for which, part in (("last", "[:5]"), ("first", "[1:]"))
        for whose, right in (("the BLE", BLE), ("the public", PUBLIC))
    ),
    ("an address is compared in reverse", BLE + PUBLIC, (BLE + PUBLIC).replace("request[2:8]", "request[7:1:-1]")),
    ("any address fits", PUBLIC, "    return Named.PUBLIC\n"),
    ("any address fits as the BLE address", BLE, BLE.replace("request[2:8] == device.ble", "True")),
    ("the salt is always bytes 8 to 15", SALT, "    return request[8:]\n"),
    ("the salt is always bytes 14 to 15", SALT, "    return request[14:]\n"),
    ("flag 0x10 leaves the salt at byte 8", SALT, SALT.replace("(BONDING | RETROACTIVE)", "BONDING")),
    ("flag 0x40 leaves the salt at byte 8", SALT, SALT.replace("(BONDING | RETROACTIVE)", "RETROACTIVE")),
    (
        "flag 0x80 shortens the salt",
        SALT,
        SALT.replace("(BONDING | RETROACTIVE)", "(BONDING | RETROACTIVE | 0x80)"),
    ),
    (
        "flag 0x20 shortens the salt",
        SALT,
        SALT.replace("(BONDING | RETROACTIVE)", "(BONDING | RETROACTIVE | 0x20)"),
    ),
    (
        "both flags are needed for a short salt",
        SALT,
        SALT.replace("request[1] & (BONDING | RETROACTIVE)", "request[1] & 0x50 == 0x50"),
    ),
    (
        "flags are compared as a whole",
        SALT,
        SALT.replace("request[1] & (BONDING | RETROACTIVE)", "request[1] in (BONDING, RETROACTIVE)"),
    ),
    ("a short salt is byte 15 alone", SALT, SALT.replace("request[14:]", "request[15:]")),
    ("a short salt is bytes 13 to 15", SALT, SALT.replace("request[14:]", "request[13:]")),
    ("a long salt is bytes 8 to 14", SALT, SALT.replace("request[8:]", "request[8:15]")),
    ("a long salt is bytes 9 to 15", SALT, SALT.replace("request[8:]", "request[9:]")),
    (
        "a short salt is filled up with zeros",
        SALT,
        SALT.replace("request[14:] if", "request[14:].ljust(8, bytes(1)) if"),
    ),
    (
        "a short salt is filled up from the left",
        SALT,
        SALT.replace("request[14:] if", "request[14:].rjust(8, bytes(1)) if"),
    ),
    ("fifteen salts are remembered", "MOST_SALTS = 16", "MOST_SALTS = 15"),
    ("seventeen salts are remembered", "MOST_SALTS = 16", "MOST_SALTS = 17"),
    ("the oldest salts stay", REMEMBERED, REMEMBERED.replace("[-MOST_SALTS:]", "[:MOST_SALTS]")),
    (
        "the newest salt stands first",
        REMEMBERED,
        "    spent = ((salt_of(request),) + device.spent)[-MOST_SALTS:]\n",
    ),
    ("the salt is not remembered", REMEMBERED, "    spent = device.spent\n"),
    (
        "sixteen salts of each length are remembered",
        REMEMBERED,
        "    salt = salt_of(request)\n"
        "    same = [s for s in device.spent if len(s) == len(salt)][-15:]\n"
        "    spent = tuple(s for s in device.spent if len(s) != len(salt) or s in same) + (salt,)\n",
    ),
    (
        "only the last salt is refused",
        "salt_of(request) in device.spent",
        "salt_of(request) in device.spent[-1:]",
    ),
    (
        "a salt is compared by its first two bytes",
        "salt_of(request) in device.spent",
        "salt_of(request)[:2] in [s[:2] for s in device.spent]",
    ),
    (
        "a salt is compared by its last two bytes",
        "salt_of(request) in device.spent",
        "salt_of(request)[-2:] in [s[-2:] for s in device.spent]",
    ),
    ("the failure's moment is not stored", COUNTED, "device.copy(failures=device.failures + 1)"),
    (
        "the failure's moment is that of the first one",
        COUNTED,
        "device.copy(failures=device.failures + 1, failed_at=device.failed_at if device.failures else device.clock)",
    ),
    ("an accepted request empties the filter", ACCEPTED, ACCEPTED.replace("failures=0", 'failures=0, filter=b""')),
    ("an accepted request leaves the count", ACCEPTED, ACCEPTED.replace(", failures=0", "")),
    (
        "an accepted request takes one from the count",
        ACCEPTED,
        ACCEPTED.replace("failures=0", "failures=max(0, device.failures - 1)"),
    ),
    ("an accepted request leaves an earlier K", HELD, "    if device.links[event.link] is None:\n    " + HELD),
    (
        "an accepted request leaves the stage",
        HELD,
        "    stage = device.links[event.link].stage if device.links[event.link] else Stage.ASKED\n"
        "    device = hold(device, event.link, Session(key, stage, device.clock))\n",
    ),
    (
        "an accepted request leaves the stage's moment",
        HELD,
        "    began = device.links[event.link].began if device.links[event.link] else device.clock\n"
        "    device = hold(device, event.link, Session(key, Stage.ASKED, began))\n",
    ),
    ("an accepted request begins in pairing", HELD, HELD.replace("Stage.ASKED", "Stage.PAIRING")),
    (
        "an accepted request makes the other links idle",
        HELD,
        HELD.replace("hold(device,", "hold(device.copy(links=(None,) * 8),"),
    ),
    *uses_by_requests.EDITS,
    *rotation_wait.EDITS,
    ("the response names the BLE address", RESPONSE, RESPONSE.replace("device.public", "device.ble")),
    (
        "the response names the address that the request names",
        RESPONSE,
        RESPONSE.replace("device.public", "request[2:8]"),
    ),
    ("the response begins with 0x00", "RESPONSE = 0x01", "RESPONSE = 0x00"),
    ("the response is not encrypted", RESPONSE, RESPONSE[len("encrypt(key, ") : -1]),
    ("the response is decrypted", RESPONSE, RESPONSE.replace("encrypt", "decrypt")),
    (
        "the response has its salt before the address",
        RESPONSE,
        "encrypt(key, bytes([RESPONSE]) + event.salt + device.public)",
    ),
    ("no address is handed out for bonding", BOND, "    bond = None\n"),
    ("an address is handed out without a flag", BOND, "    bond = request[8:14]\n"),
    ("flag 0x10 hands out an address", BOND, BOND.replace("& BONDING", "& (BONDING | RETROACTIVE)")),
    ("flag 0x80 hands out an address", BOND, BOND.replace("& BONDING", "& (BONDING | 0x80)")),
    (
        "an address is handed out for flags 0x40 alone",
        BOND,
        BOND.replace("request[1] & BONDING", "request[1] == BONDING"),
    ),
    ("the address is bytes 2 to 7", BOND, BOND.replace("[8:14]", "[2:8]")),
    ("the address is bytes 9 to 14", BOND, BOND.replace("[8:14]", "[9:15]")),
    ("the address is handed out in reverse", BOND, BOND.replace("[8:14]", "[13:7:-1]")),
    ("flag 0x20 hands out an address", BOND, BOND.replace("& BONDING", "& (BONDING | NAME_WANTED)")),
    ("a packet is written without flag 0x20", PACKET, "    packet = seal(key, event.nonce, device.name)\n"),
    ("no packet is written", PACKET, '    packet = b""\n'),
    *(
        (f"flag 0x{flag:02x} asks for the name", PACKET, PACKET.replace("NAME_WANTED", f"(NAME_WANTED | {flag})"))
        for flag in (0x80, 0x40, 0x10, 0x08)
    ),
    *(
        (f"flag 0x{flag:02x} asks for the name instead", "NAME_WANTED = 0x20", f"NAME_WANTED = {flag}")
        for flag in (0x80, 0x40, 0x10, 0x04)
    ),
    ("flags 0x20 alone ask for the name", PACKET, PACKET.replace("request[1] &", "request[1] ==")),
    ("flag 0x40 withholds the name", PACKET, PACKET.replace("& NAME_WANTED", "& (NAME_WANTED | BONDING) == NAME_WANTED")),
    (
        "flag 0x10 withholds the name",
        PACKET,
        PACKET.replace("& NAME_WANTED", "& (NAME_WANTED | RETROACTIVE) == NAME_WANTED"),
    ),
    ("an empty name gives no packet", PACKET, PACKET.replace("if request", "if device.name and request")),
    (
        "80 bytes give no packet",
        PACKET,
        PACKET.replace("if request", "if len(event.data) == 16 and request"),
    ),
    ("the packet has zeros for its nonce", PACKET, PACKET.replace("event.nonce", "bytes(8)")),
    ("the packet's nonce is of the salt", PACKET, PACKET.replace("event.nonce", "event.salt[:8]")),
    ("the packet's nonce is the request's salt", PACKET, PACKET.replace("event.nonce", "request[8:]")),
    ("the packet is under the first account key", PACKET, PACKET.replace("seal(key", "seal((device.keys or (key,))[0]")),
    ("the packet is cut to 63 bytes of name", PACKET, PACKET.replace("device.name)", "device.name[:63])")),
    ("asking for the name empties it", PACKET, PACKET + "    device = device.copy(name=b'') if packet else device\n"),
    ("the length is that of the name", OUTPUTS, OUTPUTS.replace("len(packet)", "max(0, len(packet) - 16)")),
    ("the length is always 80", OUTPUTS, OUTPUTS.replace("len(packet)", "80 if packet else 0")),
    ("the length is always 0", OUTPUTS, OUTPUTS.replace("len(packet)", "0")),
    ("the length of an unasked packet is told", OUTPUTS, OUTPUTS.replace("len(packet)", "16 + len(device.name)")),
    ("the length counts both outputs", OUTPUTS, OUTPUTS.replace("len(packet)", "len(packet) + (16 if packet else 0)")),
    ("a packet is told and not written", OUTPUTS, OUTPUTS.replace("put(packet, event.packet)", "event.packet")),
    (
        "a packet stands at the end of its output",
        OUTPUTS,
        OUTPUTS.replace("put(packet, event.packet)", "event.packet[: len(event.packet) - len(packet)] + packet"),
    ),
    (
        "bytes past the packet become zeros",
        OUTPUTS,
        OUTPUTS.replace("event.packet)", "bytes(len(event.packet)) if packet else event.packet)"),
    ),
    (
        "bytes up to 80 past the packet become zeros",
        OUTPUTS,
        OUTPUTS.replace("put(packet, event.packet)", "put(packet.ljust(80, bytes(1)) if packet else b'', event.packet)"),
    ),
    (
        "bytes up to 80 become zeros without a packet",
        OUTPUTS,
        OUTPUTS.replace("put(packet, event.packet)", "put(packet or bytes(80), event.packet)"),
    ),
    (
        "the packet stands behind the response",
        OUTPUTS,
        "    outputs = put(response + packet, event.out), len(packet), event.packet\n",
    ),
    (
        "a packet takes the response's place",
        OUTPUTS,
        OUTPUTS.replace("put(response, event.out)", "event.out if packet else put(response, event.out)"),
    ),
    (
        "8 writes the packet",
        SPENT,
        "        packet = seal(key, event.nonce, device.name) if request[1] & NAME_WANTED else b''\n"
        "        return device, Reply(8, place, None, None, event.out, 0, put(packet, event.packet))\n",
    ),
    (
        "8 tells the packet's length",
        SPENT,
        "        length = 16 + len(device.name) if request[1] & NAME_WANTED else 0\n"
        "        return device, Reply(8, place, None, None, event.out, length, event.packet)\n",
    ),
    (
        "7 tells a packet's length",
        FAILED,
        "        length = 16 + len(device.name)\n"
        "        return count_failure(device), Reply(7, len(keys), None, None, event.out, length, event.packet)\n",
    ),
)
