"""Whether a wrong rule is found: by the scenarios, and by random events and recordings beside the right rules."""

from random import Random

from differential.records import Records
from reference.generator.divisions import at_random, with_empty_parts
from reference.generator.generate import Generator
from reference.generator.recordings import of_a_run
from scenarios.names import lent
from scenarios.run import first_difference
from scenarios.sides import RIGHT_RULES, SecondProgram

# The texts that speak of a file of the rules are run first, since the search ends with the first difference.
FIRST = {
    "model": ("refusals_without_change", "order_of_checks", "clock_backwards", "rotation_wait"),
    "clock": ("stage_timers", "lockout"),
    "control": (
        "overflow_marker",
        "power_on",
        "factory_reset",
        "pairing_mode",
        "address_rotation",
        "links",
        "rotation_wait",
    ),
    "device": ("links", "ten_keys"),
    "key_based": (
        "personalized_name",
        "fitting_requests",
        "keys_tried",
        "order_of_use",
        "request_flags",
        "remembered_salts",
        "lockout",
        "rotation_wait",
    ),
    "pairing": ("pairing_stages", "passkey", "account_keys", "capability"),
    "account_keys": ("order_of_use", "account_keys"),
    "name": ("name_write_stages", "name_packets", "utf8_names"),
    "name_packet": ("personalized_name", "name_packets"),
    "utf8": ("utf8_names",),
    "stored_list": ("malformed_lists", "stored_lists", "stored_list_versions"),
    "advertising": ("payloads",),
    "lent_output": ("stored_lists", "payloads"),
    "record_layout": ("records", "recording_bad_records"),
    "recording": ("records", "recording_bad_records", "recording_cut_end", "recording_lengths"),
    "replay": ("recording_before_power_on", "recording_refused_power_on", "recording_lost_stretch"),
    "parts": ("recording_in_parts",),
}
# Their wrong rules show in records and replays, and in no reply.
OF_RECORDINGS = ("record_layout", "recording", "replay")
# Its wrong rules show in recordings that come in parts.
OF_PARTS = "parts"


def by_scenarios(rules, texts, file):
    """The place of the first difference in the texts, or None."""
    first = FIRST.get(file, ())
    for text in sorted(texts, key=lambda text: text.path.stem not in first):
        difference = first_difference(text, SecondProgram(rules))
        if difference:
            return text.place(difference.line.number)
    return None


def random_runs(seed, count, length):
    """Runs of random events, each event with what the right rules show; the runs are those of the differential test."""
    runs = []
    while len(runs) * length < count:
        generator, device, run = Generator(f"{seed}.{len(runs)}"), None, []
        while len(run) < length:
            event = generator.next_event(device)
            device, shown = step_shown(RIGHT_RULES, device, event)
            run.append((event, shown))
        runs.append(run)
    return runs


def by_random_events(rules, runs):
    """After how many events the wrong rules show something else, or None."""
    count = 0
    for run in runs:
        device = None
        for event, expected in run:
            count += 1
            device, shown = step_shown(rules, device, event)
            if shown != expected:
                return count
    return None


class Writer:
    """The writer of some rules, in the place of the library's."""

    def __init__(self, rules):
        self.rules = rules

    def record(self, event, out, lengths):
        answer, after = self.rules.write_record(event, out, lengths)
        return answer, 0 if answer else 2 + int.from_bytes(after[:2], "big"), after


def random_recordings(seed, runs):
    """The recordings of each run, each with the lines of the right rules."""
    made = (of_a_run(f"{seed}.{run}") for run in range(runs))
    return [[(recording, RIGHT_RULES.replay(recording)) for recording in recordings] for recordings in made]


def by_random_recordings(rules, runs, recordings):
    """After how many events the wrong rules write another record, or show another line; None if they never do."""
    records, count = Records(Writer(rules), 0), 0
    for run, recorded in zip(runs, recordings):
        for event, _ in run:
            count += 1
            if records.check(event):
                return count
        for recording, lines in recorded:
            count += len(lines)
            if rules.replay(recording) != lines:
                return count
    return None


def by_random_parts(rules, recordings):
    """After how many events the wrong rules show another line of a recording in parts; None if they never do."""
    random, count = Random(0), 0
    for recording, lines in (found for recorded in recordings for found in recorded):
        count += len(lines)
        if fed_lines(rules.parts, with_empty_parts(random, at_random(random, recording))) != lines:
            return count
    return None


def fed_lines(rules, parts):
    """The lines of a recording in parts."""
    replay, lines = rules.Replay(), []
    for part in parts:
        replay, more = rules.feed(replay, part)
        lines += more
    _, cut = rules.end(replay)
    return lines + [cut] if cut else lines


def step_shown(rules, device, event):
    """The next device, and all that is seen of the step without reading the state of links and guard."""
    device, reply = rules.step(device, event)
    if device is None:
        return device, (reply,)
    payloads = (rules.advertisement(device, hide) for hide in (False, True))
    texts = rules.stored_list(device), *payloads
    return device, (reply, device.name, device.filter, *(written(rules, text) for text in texts))


def written(rules, text):
    """The text in an output with room, in one of its size, and in one that lacks a byte."""
    return [rules.put_or_refuse(text, lent(len(text) + more)) for more in (1, 0, -1)]
