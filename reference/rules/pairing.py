"""The pairing, passkey and account key events, after the clock step."""

from .account_keys import with_key
from .advertising import account_key_filter
from .aes import decrypt, encrypt
from .device import Session, Stage, drop, hold
from .events import Reply, plain_reply
from .lent_output import put

SEEKER_PASSKEY = 0x02
PROVIDER_PASSKEY = 0x03
ACCOUNT_KEY = 0x04
# Capabilities of the Bluetooth pairing request.
NO_INPUT_NO_OUTPUT = 3
KEYBOARD_DISPLAY = 4


def stage_refusal(device, link, needed):
    """The answer 9 or 10, or None if the link's stage is the needed one."""
    session = device.links[link]
    # "pairing, passkey or account key event on an idle link"
    if session is None:
        return 9
    # "link's stage is not the one this event needs"
    return None if session.stage is needed else 10


def refuse(device, event, answer):
    """ "its K dropped"; on an idle link (9) there is none."""
    return drop(device, event.link), plain_reply(event, answer)


def enter(device, event, stage, passkey=0):
    """The event is taken and this link's K comes into the stage."""
    key = device.links[event.link].key
    session = Session(key, stage, device.clock, passkey)
    return hold(device, event.link, session), plain_reply(event, 0)


def pairing_started(device, event):
    """ "asked to pairing" """
    answer = stage_refusal(device, event.link, Stage.ASKED)
    # "Capability 3 (NoInputNoOutput) or above 4 gives 11."
    capability = event.capability
    refused = capability == NO_INPUT_NO_OUTPUT or capability > KEYBOARD_DISPLAY
    if answer is None and refused:
        answer = 11
    if answer is not None:
        return refuse(device, event, answer)
    return enter(device, event, Stage.PAIRING)


def confirmation_needed(device, event):
    """ "(our passkey): pairing to confirming" """
    answer = stage_refusal(device, event.link, Stage.PAIRING)
    if answer is not None:
        return refuse(device, event, answer)
    return enter(device, event, Stage.CONFIRMING, event.passkey)


def open_block(session, block, first):
    """The decrypted block, or None: "not 16 bytes, or wrong first byte"."""
    if len(block) != 16:
        return None
    plain = decrypt(session.key, block)
    return plain if plain[0] == first else None


def passkey_write(device, event):
    """ "In confirming, decrypt 16 bytes with K. Byte 0 must be 0x02" """
    answer = stage_refusal(device, event.link, Stage.CONFIRMING)
    if answer is not None:
        return refuse(device, event, answer)
    session = device.links[event.link]
    plain = open_block(session, event.block, SEEKER_PASSKEY)
    if plain is None:
        return refuse(device, event, 12)
    # "bytes 1 to 3 are the passkey, big-endian"
    equal = int.from_bytes(plain[1:4], "big") == session.passkey
    return compared(device, event, session, equal)


def compared(device, event, session, equal):
    """ "Either way the answer is 0 and the response is 0x03, our passkey (3), event salt (12)" """
    raw = bytes([PROVIDER_PASSKEY]) + session.passkey.to_bytes(3, "big") + event.salt
    out = put(encrypt(session.key, raw), event.out)
    # "Equal to ours: reply yes, stage proved. Unequal: reply no, K dropped."
    if equal:
        device, _ = enter(device, event, Stage.PROVED)
    else:
        device = drop(device, event.link)
    return device, Reply(0, confirm=equal, out=out)


def pairing_ended(device, event):
    """ "Success: proved to paired." """
    answer = stage_refusal(device, event.link, Stage.PROVED)
    # "Failure: K dropped in any stage, answer 0."
    if answer != 9 and not event.success:
        return drop(device, event.link), plain_reply(event, 0)
    if answer is not None:
        return refuse(device, event, answer)
    return enter(device, event, Stage.PAIRED)


def account_key_write(device, event):
    """ "In paired, decrypt 16 bytes. Byte 0 must be 0x04." """
    answer = stage_refusal(device, event.link, Stage.PAIRED)
    if answer is not None:
        return refuse(device, event, answer)
    key = open_block(device.links[event.link], event.block, ACCOUNT_KEY)
    if key is None:
        return refuse(device, event, 12)
    # "K is dropped whatever the answer from 0 or 9 to 12."
    device = drop(device, event.link)
    # "A use is being stored, being written again, or .."
    keys, kept = with_key(device.keys, key), device.filter
    # "A change of order alone changes none of its bytes."
    if key not in device.keys:
        kept = account_key_filter(keys, device.salt)
    return device.copy(keys=keys, filter=kept), plain_reply(event, 0)
