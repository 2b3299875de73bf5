"""The generator: it reaches what it should, and finds the mistakes that document 01 names."""

import unittest
from random import Random
from unittest import mock

from ..generator import seeker_blocks
from ..generator.coverage import Coverage, not_reached, table
from ..generator.generate import Generator
from ..generator.known_secrets import KEYS, SECRETS
from ..generator.malformed_lists import MALFORMED
from ..generator.random_names import characters, ill_formed, long_name, some_name
from ..generator.rare_cases import RareCases
from ..rules import control, events, key_based, model, name, name_packet, pairing
from ..rules.account_keys import used
from ..rules.advertising import advertisement
from ..rules.device import Stage, drop
from ..rules.events import lent_outputs, plain_reply
from ..rules.model import step
from ..rules.name import is_name
from ..rules.stored_list import pack, read_stored_list, stored_list

SIZES = {"public": 6, "ble": 6, "model": 3, "secret": 32, "nonce": 8}
SALT_SIZES = {
    events.PowerOn: 2,
    events.AddressRotated: 2,
    events.KeyBasedWrite: 9,
    events.PasskeyWrite: 12,
}
LIMITS = {"link": 2**8, "clock": 2**64, "capability": 2**8, "passkey": 2**32}


def generated(count, seed):
    """The steps of a run: state before, event, state after, reply."""
    generator, device, steps = Generator(seed), None, []
    for _ in range(count):
        event = generator.next_event(device)
        after, reply = step(device, event)
        steps.append((device, event, after, reply))
        device = after
    return steps


def seen(device, reply):
    """All that can be seen of a step without reading the state."""
    if device is None:
        return reply, None
    return reply, stored_list(device), advertisement(device, False), device.name


class Generating(unittest.TestCase):
    @classmethod
    def setUpClass(cls):
        cls.steps = generated(20_000, 5)

    def test_same_seed_same_events(self):
        again = generated(500, 5)
        self.assertEqual([s[1] for s in again], [s[1] for s in self.steps[:500]])
        other = generated(500, 6)
        self.assertNotEqual([s[1] for s in other], [s[1] for s in self.steps[:500]])

    def test_all_answers_stages_and_situations_are_reached(self):
        coverage = Coverage()
        for one in self.steps:
            coverage.note(*one)
        self.assertEqual(not_reached(coverage), ([], [], []))
        self.assertGreaterEqual(min(coverage.answers.values()), 20)
        self.assertGreaterEqual(min(coverage.uses.counts.values()), 3)
        self.assertIn("all", table(coverage))

    def test_every_rare_case_is_met(self):
        rare_cases = RareCases()
        for one in self.steps:
            rare_cases.note(*one)
        self.assertEqual(rare_cases.missed(), [])

    def test_fields_are_in_range(self):
        for _, event, _, _ in self.steps:
            for name, value in vars(event).items():
                if name in LIMITS:
                    self.assertIn(value, range(LIMITS[name]))
                if name in SIZES:
                    self.assertEqual(len(value), SIZES[name])
                if name == "salt":
                    self.assertEqual(len(value), SALT_SIZES[type(event)])

    def test_outputs_change_only_with_answer_0(self):
        for _, event, _, reply in self.steps:
            out, packet = lent_outputs(event)
            self.assertEqual((len(reply.out), len(reply.packet)), (len(out), len(packet)))
            self.assertEqual(reply.out[16:], out[16:])
            length = reply.packet_length
            self.assertEqual(reply.packet[length:], packet[length:])
            if reply.answer != 0:
                self.assertEqual((reply.out, length), (out, 0))

    def test_malformed_lists_are_malformed(self):
        random = Random(14)
        for make in MALFORMED:
            for _ in range(300):
                self.assertIsNone(read_stored_list(make(random)), make.__name__)

    def test_keys_of_known_secrets_are_account_keys(self):
        self.assertEqual(len(SECRETS), 16)
        for key, secret in SECRETS.items():
            self.assertEqual((len(secret), seeker_blocks.session_key(secret)), (32, key))
        self.assertEqual(read_stored_list(pack(KEYS[:10])), list(KEYS[:10]))

    def test_names_and_bad_names(self):
        random = Random(15)
        for _ in range(500):
            self.assertTrue(is_name(some_name(random)))
            for make in (long_name, ill_formed):
                self.assertFalse(is_name(make(random)), make.__name__)
            self.assertGreater(len(long_name(random)), 64)
            self.assertLessEqual(len(ill_formed(random)), 64)
        for size in range(65):
            self.assertEqual(len(characters(random, size)), size)


class MistakesWeHaveSeen(unittest.TestCase):
    """The generator finds the mistakes that document 01 names."""

    @classmethod
    def setUpClass(cls):
        cls.steps = generated(6_000, 7)

    def assert_found(self):
        device = None
        for _, event, after, reply in self.steps:
            device, other = step(device, event)
            if seen(device, other) != seen(after, reply):
                return
        self.fail("the mistake was not found")

    def test_right_model_is_not_suspected(self):
        with self.assertRaises(AssertionError):
            self.assert_found()

    def test_marker_skipped(self):
        with mock.patch.object(control, "drop_all", lambda device: device):
            self.assert_found()

    def test_marker_clears_one_link(self):
        with mock.patch.object(control, "drop_all", lambda device: drop(device, 0)):
            self.assert_found()

    def test_answer_6_counted(self):
        def counting(device, event):
            after, reply = key_based.key_based_write(device, event)
            return (key_based.count_failure(after) if reply.answer == 6 else after), reply

        with mock.patch.dict(model.RULES, {events.KeyBasedWrite: counting}):
            self.assert_found()

    def test_marker_lifts_the_wait_for_a_rotation(self):
        def lifting(device, event):
            after, reply = overflow(device, event)
            return after.copy(rotation_awaited=False), reply

        overflow = control.overflow
        with mock.patch.object(control, "overflow", lifting):
            self.assert_found()

    def test_answer_16_counted(self):
        def counting(device, event):
            after, reply = key_based.key_based_write(device, event)
            return (key_based.count_failure(after) if reply.answer == 16 else after), reply

        with mock.patch.dict(model.RULES, {events.KeyBasedWrite: counting}):
            self.assert_found()

    def test_k_kept_after_a_bad_account_key(self):
        def keeping(device, event):
            after, reply = pairing.account_key_write(device, event)
            return (device if reply.answer == 12 else after), reply

        with mock.patch.dict(model.RULES, {events.AccountKeyWrite: keeping}):
            self.assert_found()

    def test_failure_on_an_idle_link_taken(self):
        def taking(device, event):
            after, reply = pairing.pairing_ended(device, event)
            failed_idle = reply.answer == 9 and not event.success
            return after, plain_reply(event, 0) if failed_idle else reply

        with mock.patch.dict(model.RULES, {events.PairingEnded: taking}):
            self.assert_found()

    def test_request_does_not_use_its_key(self):
        with mock.patch.object(key_based, "used", lambda keys, key: keys):
            self.assert_found()

    def test_80_bytes_use_a_held_key(self):
        def using(device, event):
            after, reply = key_based.key_based_write(device, event)
            key = after.links[event.link].key if reply.answer == 0 else None
            return (after.copy(keys=used(after.keys, key)) if key in after.keys else after), reply

        with mock.patch.dict(model.RULES, {events.KeyBasedWrite: using}):
            self.assert_found()

    def test_key_stored_longest_ago_evicted(self):
        def oldest_first(keys, key):
            return keys if key in keys else (*keys, key)[-5:]

        with mock.patch.object(pairing, "with_key", oldest_first):
            self.assert_found()

    def test_nonce_left_out_of_the_hmac(self):
        def without(key, nonce, encrypted):
            return name_packet.hmac_sha256(key, encrypted)[:8]

        with mock.patch.object(name_packet, "tag_of", without):
            self.assert_found()

    def test_name_taken_in_paired(self):
        with mock.patch.object(name, "TAKEN_IN", tuple(Stage)):
            self.assert_found()

    def test_15_drops_k(self):
        def dropping(device, event):
            after, reply = name.name_write(device, event)
            return (drop(after, event.link) if reply.answer == 15 else after), reply

        with mock.patch.dict(model.RULES, {events.NameWrite: dropping}):
            self.assert_found()


if __name__ == "__main__":
    unittest.main()
