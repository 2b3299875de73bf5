"""Whether the comparison can fail: each mistake has to be found, and its list shortened."""

from unittest import mock

from reference.rules.device import MOST_KEYS

from . import (
    filter_mistakes,
    list_mistakes,
    marked_lists,
    record_mistakes,
    result_mistakes,
    run_pair,
    use_mistakes,
    wait_mistakes,
)
from .any_bytes import AnyBytes
from .compare import first_difference
from .records import Records
from .report import shortest
from .result_mistakes import with_mistakes
from .run_pair import HELD_KEY, compared_after
from .runs import runs
from .two_runs import unseen

EVENTS = 6_000
LIST = 300
# As many as the two runs have by themselves: an account key write that gets 9 beside 10 or 12 is rare in them.
IN_TWO_RUNS = 40_000
# A stored key takes six events after power-on and pairing mode, seven with a rotation; some mistakes need the fourth.
SHORT = 30
# A list that is filled by events takes as many for each key.
FILLED = 7 * MOST_KEYS

# The function, the mistake in its results, and how the difference is called.
MISTAKES = (
    ("fp_key_based_write", result_mistakes.another_answer, "reply: answer"),
    ("fp_key_based_write", result_mistakes.one_more_tried, "reply: tried"),
    ("fp_key_based_write", result_mistakes.bond_withheld, "reply: bond"),
    ("fp_key_based_write", result_mistakes.bond_not_zero, "memory or reply"),
    ("fp_key_based_write", result_mistakes.response_byte, "reply: out"),
    ("fp_key_based_write", result_mistakes.behind_response, "reply: out"),
    ("fp_key_based_write", result_mistakes.behind_output, "memory or reply"),
    ("fp_key_based_write", result_mistakes.before_output, "memory or reply"),
    ("fp_key_based_write", result_mistakes.input_written, "memory or reply"),
    ("fp_key_based_write", result_mistakes.tag_byte, "reply: packet"),
    ("fp_key_based_write", result_mistakes.packet_byte, "reply: packet"),
    ("fp_key_based_write", result_mistakes.behind_packet, "reply: packet"),
    ("fp_key_based_write", result_mistakes.packet_unasked, "reply: packet"),
    ("fp_key_based_write", result_mistakes.packet_on_refusal, "reply: packet"),
    ("fp_key_based_write", result_mistakes.behind_second_output, "memory or reply"),
    ("fp_key_based_write", result_mistakes.packet_length_more, "reply: packet_length"),
    ("fp_key_based_write", result_mistakes.packet_length_unasked, "reply: packet_length"),
    ("fp_key_based_write", result_mistakes.packet_length_on_refusal, "reply: packet_length"),
    ("fp_key_based_write", result_mistakes.nonce_written, "memory or reply"),
    ("fp_passkey_write", result_mistakes.confirm_inverted, "reply: confirm"),
    ("fp_passkey_write", result_mistakes.response_byte, "reply: out"),
    ("fp_passkey_write", result_mistakes.written_on_refusal, "reply: out"),
    ("fp_account_key_write", result_mistakes.next_stored, "state"),
    ("fp_key_based_write", use_mistakes.request_uses_no_key, "state"),
    ("fp_key_based_write", use_mistakes.request_moves_to_front, "state"),
    ("fp_key_based_write", use_mistakes.request_swaps_with_last, "state"),
    ("fp_key_based_write", use_mistakes.place_after_the_move, "reply: tried"),
    ("fp_key_based_write", use_mistakes.used_with_8, "state"),
    ("fp_key_based_write", use_mistakes.used_with_7, "state"),
    ("fp_key_based_write", use_mistakes.used_by_80_bytes, "state"),
    ("fp_account_key_write", use_mistakes.held_key_not_used, "state"),
    ("fp_account_key_write", use_mistakes.used_with_12, "state"),
    ("fp_power_on", use_mistakes.list_reversed, "state"),
    ("fp_overflow", use_mistakes.first_key_used, "state"),
    ("fp_name_write", result_mistakes.name_answer, "reply: answer"),
    ("fp_name_write", result_mistakes.name_not_taken, "state"),
    ("fp_name_write", result_mistakes.name_taken_with_15, "state"),
    ("fp_name_write", result_mistakes.name_cut, "state"),
    ("fp_name_write", result_mistakes.behind_name, "state"),
    ("fp_name_write", result_mistakes.key_dropped_on_15, "state"),
    ("fp_name_write", result_mistakes.moment_moved, "state"),
    ("fp_name_write", result_mistakes.input_written, "memory or reply"),
    ("fp_power_on", result_mistakes.name_kept, "state"),
    ("fp_power_on", result_mistakes.name_input_written, "memory or reply"),
    ("fp_factory_reset", result_mistakes.name_kept, "state"),
    ("fp_link_down", result_mistakes.key_byte_kept, "state"),
    ("fp_overflow", result_mistakes.marker_ignored, "state"),
    ("fp_overflow", result_mistakes.marker_keeps_link_7, "state"),
    ("fp_factory_reset", result_mistakes.salts_kept, "state"),
    ("fp_stored_list", result_mistakes.stored_list_byte, "stored list"),
    ("fp_stored_list", result_mistakes.stored_list_length, "stored list"),
    ("fp_stored_list", result_mistakes.short_list_written, "stored list"),
    ("fp_address_rotated", filter_mistakes.kept_when_taken, "state"),
    ("fp_address_rotated", filter_mistakes.changed_on_4, "state"),
    ("fp_account_key_write", filter_mistakes.kept_with_a_new_key, "state"),
    ("fp_account_key_write", filter_mistakes.bit_of_order, "state"),
    ("fp_key_based_write", filter_mistakes.bit_of_order, "state"),
    ("fp_factory_reset", filter_mistakes.kept_when_taken, "state"),
    ("fp_power_on", filter_mistakes.kept_when_taken, "state"),
    ("fp_power_on", filter_mistakes.behind_filter, "state"),
    ("fp_pairing_mode", filter_mistakes.emptied_by_mode, "state"),
    ("fp_overflow", filter_mistakes.emptied, "state"),
    ("fp_power_on", list_mistakes.older_refused, "reply: answer"),
    ("fp_power_on", list_mistakes.older_with_six_taken, "reply: answer"),
    ("fp_power_on", list_mistakes.eleven_taken, "reply: answer"),
    ("fp_power_on", list_mistakes.full_list_refused, "reply: answer"),
    ("fp_power_on", list_mistakes.older_stays_older, "state"),
    ("fp_stored_list", list_mistakes.short_list_written_as_older, "stored list"),
    ("fp_key_based_write", wait_mistakes.named_lost, "reply: named"),
    ("fp_key_based_write", wait_mistakes.named_exchanged, "reply: named"),
    ("fp_key_based_write", wait_mistakes.named_public_if_equal, "reply: named"),
    ("fp_key_based_write", wait_mistakes.named_with_8, "reply: named"),
    ("fp_key_based_write", wait_mistakes.named_with_16, "reply: named"),
    ("fp_key_based_write", wait_mistakes.unknown_address, "memory or reply"),
    ("fp_key_based_write", wait_mistakes.rotation_not_asked, "memory or reply"),
    ("fp_key_based_write", wait_mistakes.rotation_asked_for_public, "memory or reply"),
    ("fp_key_based_write", wait_mistakes.rotation_asked_with_2, "memory or reply"),
    ("fp_key_based_write", wait_mistakes.wait_not_begun, "state"),
    ("fp_key_based_write", wait_mistakes.wait_begun_by_public, "state"),
    ("fp_key_based_write", wait_mistakes.wait_begun_by_8, "state"),
    ("fp_key_based_write", wait_mistakes.awaited_as(6), "reply: answer"),
    ("fp_key_based_write", wait_mistakes.awaited_as(5), "reply: answer"),
    ("fp_key_based_write", wait_mistakes.six_before_awaited, "reply: answer"),
    ("fp_key_based_write", wait_mistakes.tried_with_16, "reply: tried"),
    ("fp_key_based_write", wait_mistakes.written_with_16, "reply: out"),
    ("fp_key_based_write", wait_mistakes.counted_with_16, "state"),
    ("fp_key_based_write", wait_mistakes.no_clock_with_16, "state"),
    ("fp_key_based_write", wait_mistakes.key_dropped_with_16, "state"),
    ("fp_key_based_write", wait_mistakes.lifted_with_16, "state"),
    ("fp_overflow", wait_mistakes.lifted, "state"),
    ("fp_overflow", wait_mistakes.begun, "state"),
    ("fp_link_up", wait_mistakes.lifted, "state"),
    ("fp_link_down", wait_mistakes.lifted, "state"),
    ("fp_pairing_mode", wait_mistakes.lifted, "state"),
    ("fp_pairing_ended", wait_mistakes.lifted, "state"),
    ("fp_account_key_write", wait_mistakes.lifted, "state"),
    ("fp_address_rotated", wait_mistakes.lifted_if_refused, "state"),
    ("fp_power_on", wait_mistakes.lifted_if_refused, "state"),
    ("fp_factory_reset", wait_mistakes.lifted_if_refused, "state"),
    ("fp_address_rotated", wait_mistakes.not_lifted, "state"),
    ("fp_address_rotated", wait_mistakes.not_lifted_by_the_same_address, "state"),
    ("fp_power_on", wait_mistakes.not_lifted, "state"),
    ("fp_factory_reset", wait_mistakes.not_lifted, "state"),
    ("fp_advertisement", result_mistakes.filter_bit, "payload"),
    ("fp_advertisement", result_mistakes.prompt_shown, "payload"),
)
# These show with many keys, which events may have brought.
WITH_MANY_KEYS = (
    ("fp_account_key_write", use_mistakes.last_evicted, "state"),
    ("fp_account_key_write", filter_mistakes.kept_on_eviction, "state"),
    ("fp_account_key_write", filter_mistakes.evicted_bits_stay, "state"),
    ("fp_account_key_write", list_mistakes.evicts_at(5), "state"),
    ("fp_account_key_write", list_mistakes.evicts_at(9), "state"),
)
# These show in corrupted devices alone, and there is no list of events to shorten.
WITH_ANY_BYTES = (
    ("fp_link_up", result_mistakes.no_device_taken, "any bytes"),
    ("fp_key_based_write", result_mistakes.no_device_changed, "any bytes"),
    ("fp_name_write", result_mistakes.no_device_changed, "any bytes"),
    ("fp_link_up", result_mistakes.unused_key_kept, "any bytes"),
    ("fp_link_up", result_mistakes.unused_name_bytes_kept, "any bytes"),
    ("fp_link_up", filter_mistakes.mended, "any bytes"),
    ("fp_link_up", list_mistakes.older_device_refused, "any bytes"),
    ("fp_link_up", list_mistakes.older_device_kept, "any bytes"),
    ("fp_link_up", wait_mistakes.unknown_wait_taken, "any bytes"),
    ("fp_link_up", wait_mistakes.wait_with_failures_taken, "any bytes"),
)
# These show in the record of one event, and there is no list either.
WITH_RECORDS = (
    ("fp_record_overflow", record_mistakes.last_byte, "record"),
    ("fp_record_power_on", record_mistakes.last_byte, "record"),
    ("fp_record_link_up", record_mistakes.kind_byte, "record"),
    ("fp_record_factory_reset", record_mistakes.length_little_endian, "record"),
    ("fp_record_link_down", record_mistakes.behind_record, "record"),
    ("fp_record_address_rotated", record_mistakes.behind_output, "record"),
    ("fp_record_pairing_started", record_mistakes.written_on_13, "record"),
    ("fp_record_power_on", record_mistakes.written_on_2, "record"),
    ("fp_record_passkey_write", record_mistakes.length_without_its_field, "record"),
    ("fp_record_confirmation_needed", record_mistakes.length_on_refusal, "record"),
    ("fp_record_name_write", record_mistakes.thirteen_first, "record"),
    ("fp_record_pairing_ended", record_mistakes.too_short_is_taken, "record"),
    ("fp_record_account_key_write", record_mistakes.limit_1023, "record"),
    ("fp_record_account_key_write", record_mistakes.limit_1025, "record"),
    ("fp_record_name_write", record_mistakes.length_in_two_bytes, "record"),
    ("fp_record_pairing_mode", record_mistakes.flag_as_it_came, "record"),
    ("fp_record_pairing_ended", record_mistakes.reserved_not_zero, "record"),
    ("fp_record_key_based_write", record_mistakes.secret_of_a_rejected_point, "record"),
    ("fp_record_key_based_write", record_mistakes.lengths_exchanged, "record"),
    ("fp_record_passkey_write", record_mistakes.length_in_four_bytes, "record"),
    ("fp_record_account_key_write", record_mistakes.input_written, "record"),
)
# These are looked for by the two runs of demand 3.
WITH_TWO_RUNS = (
    ("fp_overflow", result_mistakes.marker_ignored, "after a marker"),
    ("fp_overflow", result_mistakes.marker_keeps_link_7, "after a marker"),
    ("fp_overflow", result_mistakes.marker_clears_salts, "two runs"),
    ("fp_overflow", result_mistakes.marker_clears_count, "two runs"),
    ("fp_overflow", result_mistakes.marker_empties_list, "two runs"),
    ("fp_overflow", result_mistakes.marker_empties_name, "two runs"),
    ("fp_name_write", result_mistakes.name_taken_on_idle, "after a marker"),
    ("fp_name_write", result_mistakes.name_changed_on_9, "two runs"),
    ("fp_passkey_write", result_mistakes.written_on_9, "two runs"),
    ("fp_link_up", result_mistakes.stores_a_key, "after a marker"),
    ("fp_pairing_ended", result_mistakes.stores_a_key, "after a marker"),
    ("fp_key_based_write", result_mistakes.stores_a_key, "after a marker"),
    ("fp_key_based_write", use_mistakes.request_uses_no_key_beside_others, "two runs: stored lists"),
    ("fp_account_key_write", use_mistakes.held_key_placed_by_links, "two runs: stored lists"),
    ("fp_account_key_write", use_mistakes.used_with_9, "two runs: stored lists"),
    ("fp_overflow", use_mistakes.first_key_used, "two runs"),
    ("fp_overflow", wait_mistakes.lifted, "two runs"),
    ("fp_overflow", wait_mistakes.begun, "two runs"),
)
# Two runs that part at a wrong place, and what they then show on the right library.
WRONG_PARTINGS = (
    ("parts", use_mistakes.parts_by_no_held_key, "two runs: stored lists"),
    ("parts", use_mistakes.parts_by_every_write, compared_after(HELD_KEY)),
)


def in_lists(library, name, mistake, called, short=SHORT):
    """Found, called right, and shown by a short list; a text that says so, or None."""
    wrong = with_mistakes(library, {name: mistake})
    _, failure = runs(wrong, 1, EVENTS, LIST)
    if failure is None or not failure.difference.what.startswith(called):
        return None
    events = shortest(wrong, failure)
    fails_still = first_difference(wrong, events) and not first_difference(library, events)
    if not fails_still or len(events) > short:
        return None
    return f"found after {len(failure.events)} events, shortened to {len(events)}"


def in_filled_lists(library, name, mistake, called):
    return in_lists(library, name, mistake, called, FILLED)


def in_any_bytes(library, name, mistake, called):
    wrong = with_mistakes(library, {name: mistake})
    return in_runs(wrong, called, AnyBytes(wrong, 1))


def in_records(library, name, mistake, called):
    wrong = with_mistakes(library, {name: mistake})
    return in_runs(wrong, called, records=Records(wrong, 1))


def in_runs(wrong, called, any_bytes=None, records=None):
    """Found and called right, whatever list shows it."""
    tally, failure = runs(wrong, 1, EVENTS, LIST, any_bytes, records)
    found = failure is not None and failure.difference.what.startswith(called)
    return f"found after {tally.events} events" if found else None


def in_two_runs(library, name, mistake, called):
    wrong = with_mistakes(library, {name: mistake})
    _, failure = marked_lists.run_pairs(wrong, 1, IN_TWO_RUNS)
    if failure is None or not failure.what.startswith(called):
        return None
    entries = marked_lists.shortest(wrong, failure)
    fails_still = marked_lists.breach(wrong, entries) and not marked_lists.breach(library, entries)
    if not fails_still or len(entries) > SHORT:
        return None
    return f"found in {len(failure.entries)} events, shortened to {len(entries)}"


def in_wrong_parting(library, name, wrong, called):
    """Found by a breach, or by what is then never seen."""
    if two_runs_show(library):
        return None
    with mock.patch.object(run_pair, name, wrong):
        shown = two_runs_show(library)
    return next((f"found: {called}" for one in shown if one.startswith(called)), None)


def two_runs_show(library):
    """A breach in words, and what was never seen."""
    counts, failure = marked_lists.run_pairs(library, 1, EVENTS)
    return [failure.what] if failure else unseen(counts)


def selftest(library):
    """The exit code: 1 if a mistake was not found."""
    missed = 0
    ways = {
        in_lists: MISTAKES,
        in_filled_lists: WITH_MANY_KEYS,
        in_any_bytes: WITH_ANY_BYTES,
        in_records: WITH_RECORDS,
        in_two_runs: WITH_TWO_RUNS,
        in_wrong_parting: WRONG_PARTINGS,
    }
    for look, mistakes in ways.items():
        for name, mistake, called in mistakes:
            found = look(library, name, mistake, called)
            missed += found is None
            print(f"{name}, {mistake.__name__}: {found or 'NOT FOUND'}", flush=True)
    print(f"{missed} mistakes not found")
    return 1 if missed else 0
