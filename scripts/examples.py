#!/usr/bin/env python3
"""Makes the example recordings and banks, examples/*.recording and *.bank, from what is below.

    scripts/examples.py            writes them
    scripts/examples.py --check    only compares them with the files present; status 1 on a difference

An exchange is a pair of a request and a reply. A text stands for the frame of that text, the
controller's address before it; bytes stand for themselves, so that a frame can be wrong. The answer
of the judge to each recording stands in examples/expected and is not made here. Of the banks the
totals are made too, examples/totals_expected, and the page examples/week_46.md.
"""

import argparse
import pathlib
import random
import re
import sys
import typing

FOLDER = pathlib.Path(__file__).resolve().parent.parent / "examples"

START = 0x02
END_OF_TEXT = 0x03
PAD = 0x7F
SILENCE = b""

VERSION = 1
HEADER_LENGTH = 5


# Frames and recordings


def framed(address, text):
    """The frame of a text: start mark, text, end mark, check character, pad."""
    checked = f"{address:02}{text}".encode("ascii") + bytes([END_OF_TEXT])
    check = 0
    for byte in checked:
        check ^= byte
    return bytes([START]) + checked + bytes([check, PAD])


def exchange_bytes(address, request, reply):
    """One exchange as it stands in a recording: each frame behind its length."""
    stored = b""
    for frame in (request, reply):
        if isinstance(frame, str):
            frame = framed(address, frame)
        stored += bytes([len(frame)]) + frame
    return stored


def header(length, address, access, version=VERSION):
    return bytes([version]) + length.to_bytes(2, "big") + bytes([address, access])


def recording(address, access, exchanges, version=VERSION):
    body = b"".join(exchange_bytes(address, request, reply) for request, reply in exchanges)
    return header(HEADER_LENGTH + len(body), address, access, version) + body


# The bench: address 1, access 2, as in the worked examples of document 01

BENCH_OLD_FACTOR = [
    ("EQ", "000000"),
    ("PC 032 10150", "OK"),
    ("RC", "RC 03 00010012"),
]

# Recipe 4 is another recipe than the one written, and its factor was never shown before.
BENCH_OTHER_RECIPE = BENCH_OLD_FACTOR[:-1] + [("RC", "RC 04 00010012")]

# Byte for byte as printed in document 01: the check character of the reply is 02, as the start mark.
CHECK_CHARACTER_02 = [
    (
        bytes.fromhex("02 30 31 45 51 03 16 7F"),
        bytes.fromhex("02 30 31 30 30 30 30 30 30 03 02 7F"),
    ),
]

# SP's refusal rules out Running, SA's Set and Stopped, SB's the two that are left.
NO_PHASE_LEFT = [
    ("SP", "NO05"),
    ("SA", "NO05"),
    ("SB 500", "NO05"),
]

# The keypad is tested before the phase: whoever names the phase has found the keypad off.
KEYPAD_THEN_PHASE = [
    ("SA", "NO02"),
    ("SB 1", "NO05"),
]

# Level 3 is above this link's access of 2, so the refusal tells nothing of the level that the
# parameter has: 032 turns out to be open to this link and 042 closed.
LEVEL_STAYS_OPEN = [
    ("XC 032 3", "NO07"),
    ("XV 032", "XV 032 1"),
    ("PC 032 10150", "OK"),
    ("XC 042 3", "NO07"),
    ("XV 042", "XV 042 3"),
    ("PC 042 10150", "NO07"),
]

# The new factor was meant for recipe 3 and turns up in recipe 4.
ANOTHER_RECIPES_FACTOR = [
    ("RR", "RR 03"),
    ("PV 032", "PV 032 00010012"),
    ("PV 042", "PV 042 00009990"),
    ("PC 032 10150", "OK"),
    ("PV 042", "PV 042 00010150"),
    ("PV 032", "PV 032 00010012"),
]

# No rule joins two fields, so this is a state to start from, however it came about. The first
# status character is 8 + 4 + 1 = 13, which is "=". SP alone is accepted with the keypad on.
RUNNING_WITH_KEYPAD_ON = [
    ("EQ", "=80100"),
    ("RS", "RS PF PW TP RL "),
    ("SA", "NO02"),
    ("PC 032 10150", "NO02"),
    ("SP", "OK"),
    ("EQ", "980100"),
    ("ET", "NO02"),
]

# The power was away while a batch ran; since then the power-fail alarm is on (A3's 1 of EA).
BATCH_HELD_BY_ALARM = [
    ("EQ", "181100"),
    ("RS", "RS AL PF TP "),
    ("SA", "NO09"),
    ("EA", "00100"),
    ("AR", "OK"),
    ("EA", "00000"),
    ("SA", "OK"),
    ("EQ", "580100"),
    ("RS", "RS PF TP RL "),
]

# Two alarms: communications, which only the panel clears (A4's 4), and user alarm 2 (A3's 4).
ALARM_STAYS_ON = [
    ("SB 500", "OK"),
    ("SA", "NO09"),
    ("EA", "00440"),
    ("AR", "OK"),
    ("EA", "00040"),
    ("SA", "NO09"),
    ("AR", "OK"),
    ("EA", "00040"),
    ("EQ", "121000"),
    ("ET", "OK"),
    ("RS", "RS AL BD "),
]

# What the first AR left on is an alarm that no AR switches off; it was never asked which.
LASTING_ALARM_FORGOTTEN = [
    ("EQ", "101000"),
    ("AR", "OK"),
    ("EQ", "101000"),
    ("SA", "NO09"),
    ("AR", "OK"),
    ("SA", "OK"),
    ("EQ", "580000"),
]

# A start is accepted only while no alarm is on.
STARTED_WITH_ALARM = [
    ("SB 500", "OK"),
    ("SA", "OK"),
    ("EQ", "5:1000"),
    ("EA", "00001"),
]

# The host reloads recipe 3 each morning, with the values that are already there.
MORNING_BEFORE_THE_FLAG = [
    ("RS", "RS "),
    ("PV 031", "PV 031 00002500"),
    ("PV 032", "PV 032 00010150"),
    ("PV 033", "PV 033 00000120"),
    ("PC 031 00002500", "OK"),
    ("PC 032 00010150", "OK"),
    ("PC 033 00000120", "OK"),
]

MORNING_RELOAD = MORNING_BEFORE_THE_FLAG + [
    # Nothing is different from before, and no flag says so.
    ("EQ", "000000"),
    ("RS", "RS "),
    # Recipe 4 too; what it held was not asked, but the flag tells that it was the same.
    ("PC 041 00007500", "OK"),
    ("PC 042 00009990", "OK"),
    ("RS", "RS "),
    # The foreman's change during the day.
    ("PC 032 10180", "OK"),
    ("EQ", "000800"),
    ("RS", "RS PC "),
    # The next morning, from the new sheet: the flag is on until someone has seen it.
    ("PC 032 00010180", "OK"),
    ("RS", "RS PC "),
    ("RE PC", "OK"),
    ("PC 032 00010180", "OK"),
    ("RS", "RS "),
]

# A controller that lights the flag at every write, as the first ones did.
FLAG_ALWAYS_LIT = MORNING_BEFORE_THE_FLAG + [
    ("EQ", "000800"),
    ("RE PC", "OK"),
    ("RS", "RS "),
]

# Tens for the recipe and units for the kind: share, factor and low flow of recipe 3.
THREE_KINDS = [
    ("PV 031", "PV 031 00002500"),
    ("PV 032", "PV 032 00010150"),
    ("PV 033", "PV 033 00000120"),
]

SERVICE_WALK = THREE_KINDS + [
    # The codes on either side are not in the list.
    ("PV 030", "NO04"),
    ("PV 034", "NO04"),
    # Nor is there a recipe 0 or 9, and hundreds do not go with a recipe.
    ("PV 001", "NO04"),
    ("PV 091", "NO04"),
    ("PV 131", "NO04"),
    # The digits the other way round are recipe 1's low flow.
    ("PV 013", "PV 013 00000080"),
    # Each kind has its own range, and what is not in the list has none.
    ("PC 031 10001", "NO06"),
    ("PC 032 7999", "NO06"),
    ("PC 033 0", "NO06"),
    ("PC 034 0", "NO04"),
    # Nor has it a level.
    ("XV 033", "XV 033 1"),
    ("XV 034", "NO04"),
    ("XC 034 1", "NO04"),
    # An end of the range is accepted, and lands in no other recipe.
    ("PC 033 9999", "OK"),
    ("PV 033", "PV 033 00009999"),
    ("PV 013", "PV 013 00000080"),
]

# Behind recipe 3's three parameters this controller shows what it keeps next, recipe 4's share.
FOURTH_KIND = THREE_KINDS + [
    ("PV 034", "PV 034 00007500"),
    ("PV 041", "PV 041 00007500"),
]

# On the way to the controller a digit became another; the check character is still that of 10150.
DISTURBED_WRITE = framed(1, "PC 032 10150").replace(b"10150", b"10950")

WRONG_FRAME_SILENCE = [
    ("PV 032", "PV 032 00010012"),
    (DISTURBED_WRITE, SILENCE),
    ("PV 032", "PV 032 00010012"),
    # The pad was lost, and the frame is a byte short.
    (framed(1, "PC 032 10150")[:-1], SILENCE),
    # 65 bytes, one more than the longest frame.
    (framed(1, "PC 032 10150" + " " * 47), SILENCE),
    # Meant for the controller with address 2.
    (framed(2, "PC 032 10150"), SILENCE),
    ("PV 032", "PV 032 00010012"),
    ("PC 032 10150", "OK"),
    ("PV 032", "PV 032 00010150"),
]

WRONG_FRAME_ANSWERED = [
    ("PV 032", "PV 032 00010012"),
    (DISTURBED_WRITE, "OK"),
    ("PV 032", "PV 032 00010950"),
]


# The Monday of the drum change: address 12, access 2

MONDAY_BEFORE_THE_FAULT = [
    # Switching on: nothing runs, and Friday's last batch was number 417 of recipe 5.
    ("EQ", "000000"),
    ("RS", "RS "),
    ("TN", "TN 0417"),
    ("RR", "RR 05"),
    ("RC", "RC 05 00009940"),
    # To recipe 3, whose drum was changed; its factor is still that of the old drum.
    ("NR 03", "OK"),
    ("RR", "RR 03"),
    ("RC", "RC 03 00010012"),
    ("PV 031", "PV 031 00002500"),
    ("XV 032", "XV 032 1"),
    # The factor on the new drum's sheet. The controller says OK, and that a value was changed.
    ("PC 032 10150", "OK"),
    ("EQ", "000800"),
    ("RE PC", "OK"),
]

MONDAY_AFTER_THE_OK = [
    # The old factor, of the very recipe whose new one was accepted.
    ("RC", "RC 03 00010012"),
    ("PV 032", "PV 032 00010012"),
    # Nobody looked, and the batch was started.
    ("SB 4000", "OK"),
    ("TN", "TN 0418"),
    ("EQ", "120000"),
    ("SA", "OK"),
    ("EQ", "5:0000"),
]

MONDAY_DRUM_CHANGE = MONDAY_BEFORE_THE_FAULT + MONDAY_AFTER_THE_OK


# The Thursday of that week, on the same unit

THURSDAY_LOOK_AROUND = [
    # Nothing runs, and the last batch was number 423.
    ("EQ", "000000"),
    ("TN", "TN 0423"),
    ("RC", "RC 03 00010012"),
]

# What came of Tuesday's batch, number 420: it is the fourth from the newest that are kept.
TUESDAYS_BATCH = [("RT R 004", "RT R 00003987 004")]

# The new drum's factor once more, and the old one is still shown.
THURSDAY_DRUM_CHANGE = [
    ("PC 032 10150", "OK"),
    ("RC", "RC 03 00010012"),
]

THURSDAY_ASKS = THURSDAY_LOOK_AROUND + TUESDAYS_BATCH + THURSDAY_DRUM_CHANGE
THURSDAY_ASKS_LAST = THURSDAY_LOOK_AROUND + THURSDAY_DRUM_CHANGE + TUESDAYS_BATCH

THURSDAY_NOT_HEARD = THURSDAY_LOOK_AROUND + [
    # Meant for the controller with address 13.
    (framed(13, "RT R 004"), SILENCE),
    # A digit became another on the way; the check character is still that of 004.
    (framed(12, "RT R 004").replace(b"004", b"006"), SILENCE),
    # Mistyped, and a total that is kept of no batch.
    ("RT R 4", "NO01"),
    ("RT N 004", "NO01"),
    # The raw total of the record itself is no kept batch.
    ("RT R", "RT R 00004003"),
    # So all that follows is judged; this time the new factor is shown.
    ("PC 032 10150", "OK"),
    ("RC", "RC 03 00010150"),
]


# A day without a fault: address 7, access 2

HONEST_DAY = [
    # The morning's look around.
    ("EQ", "000000"),
    ("RS", "RS "),
    ("TN", "TN 0211"),
    ("RR", "RR 02"),
    ("RC", "RC 02 00009987"),
    ("RT R", "RT R 00048210"),
    ("RT N", "NO08"),
    ("PV 801", "PV 801 00000005"),
    ("XV 807", "XV 807 3"),
    # Another recipe, mistyped twice.
    ("NR 3", "NO01"),
    ("NR 09", "NO30"),
    ("NR 03", "OK"),
    ("RR", "RR 03"),
    ("RC", "RC 03 00010012"),
    # A new factor: above the highest, to a parameter that is not there, then as it should be.
    ("PC 032 13000", "NO06"),
    ("PC 092 10150", "NO04"),
    ("PC 032 10150", "OK"),
    ("PV 032", "PV 032 00010150"),
    ("RC", "RC 03 00010150"),
    ("EQ", "000800"),
    # What this link may not do, and what it may.
    ("PC 807 120", "NO07"),
    ("XC 032 3", "NO07"),
    ("XV 032", "XV 032 1"),
    ("XC 032 2", "OK"),
    ("XV 032", "XV 032 2"),
    ("RE PC", "OK"),
    ("EQ", "000000"),
    # A batch, which cannot be started before it is set.
    ("SA", "NO05"),
    ("SB 0", "NO06"),
    ("SB 2500", "OK"),
    ("TN", "TN 0212"),
    ("RT R", "RT R 00000000"),
    ("EQ", "120000"),
    ("SP", "NO05"),
    ("SA", "OK"),
    ("EQ", "5:0000"),
    ("RS", "RS BD TP RL "),
    # While it runs nothing may be changed.
    ("PC 032 10200", "NO05"),
    ("NR 04", "NO05"),
    ("SB 100", "NO05"),
    ("ET", "NO05"),
    ("QQ", "NO00"),
    ("RE PF", "NO08"),
    ("RE BD", "OK"),
    ("EQ", "580000"),
    # A pause, then to the end.
    ("SP", "OK"),
    ("EQ", "180000"),
    ("RS", "RS TP "),
    ("SA", "OK"),
    ("SA", "NO05"),
    ("SP", "OK"),
    ("ET", "OK"),
    ("EQ", "000000"),
    ("RS", "RS "),
    ("TN", "TN 0212"),
    ("RC", "RC 03 00010150"),
]


# The long one, from a simulation of the rules

RECIPES = range(1, 9)
HIGHEST_LEVEL = 3
HIGHEST_BATCH_NUMBER = 9_999
HIGHEST_RAW_VOLUME = 99_999_999

# The lowest and highest value of each parameter: shares, factors, low flows, then the system's.
PARAMETER_RANGES = {
    **{f"0{recipe}1": (0, 10_000) for recipe in RECIPES},
    **{f"0{recipe}2": (8_000, 12_000) for recipe in RECIPES},
    **{f"0{recipe}3": (1, 9_999) for recipe in RECIPES},
    "801": (0, 99),
    "802": (0, 999),
    "803": (0, 9_999),
    "804": (1, 9_999),
    "805": (0, 3),
    "806": (0, 1),
    "807": (1, 99_999),
    "808": (0, 9),
}
PARAMETERS = list(PARAMETER_RANGES)

# What has to follow each code.
FORMS = {
    "EQ": r"",
    "RS": r"",
    "TN": r"",
    "RR": r"",
    "RC": r"",
    "RT": r" [RGNPM]",
    "PV": r" [0-9]{3}",
    "XV": r" [0-9]{3}",
    "PC": r" [0-9]{3} [0-9]{1,8}",
    "XC": r" [0-9]{3} [0-9]",
    "NR": r" [0-9]{2}",
    "SB": r" [0-9]{1,6}",
    "SA": r"",
    "SP": r"",
    "ET": r"",
    "RE": r" (BD|PC|PF)",
}

# The phases in which a command is accepted; the others are accepted in each.
PHASES_NEEDED = {
    "PC": ("Idle", "Done"),
    "NR": ("Idle", "Done"),
    "SB": ("Idle", "Done"),
    "SA": ("Set", "Stopped"),
    "SP": ("Running",),
    "ET": ("Set", "Stopped", "Done"),
}


class Chance:
    """Numbers by chance, the same from a seed in every version of Python."""

    def __init__(self, seed):
        self.source = random.Random(seed)

    def below(self, limit):
        # Python promises the same sequence in later versions for random() alone.
        return int(self.source.random() * limit)

    def between(self, lowest, highest):
        return lowest + self.below(highest - lowest + 1)

    def one_of(self, things):
        return things[self.below(len(things))]


class SimulatedController:
    """A controller that keeps the rules. Keypad and alarms stay off, for no panel event comes."""

    def __init__(self, access, chance):
        self.access = access
        self.phase = "Idle"
        self.flow = True
        self.changed = False
        self.batch_reset = False
        self.power_fail = True
        self.recipe = chance.one_of(RECIPES)
        self.raw_volume = chance.between(0, HIGHEST_RAW_VOLUME)
        # So near to the highest that the number starts again from 1 on the way.
        self.batch_number = HIGHEST_BATCH_NUMBER - 20
        self.values = {code: chance.between(*PARAMETER_RANGES[code]) for code in PARAMETERS}
        self.levels = {code: chance.between(0, HIGHEST_LEVEL) for code in PARAMETERS}

    def answer(self, request):
        """The text of the reply; a request that is accepted is carried out."""
        code, rest = request[:2], request[2:]
        if code not in FORMS:
            return "NO00"
        if not re.fullmatch(FORMS[code], rest):
            return "NO01"
        words = rest.split()
        return self.refusal(code, words) or self.shown(code, words) or self.carried_out(code, words)

    def refusal(self, code, words):
        """The first refusal that applies, or nothing; keypad and alarms being off, no NO02 or NO09."""
        if (code, words) == ("RE", ["PF"]) or (code == "RT" and words != ["R"]):
            return "NO08"
        if code in ("PV", "XV", "PC", "XC") and words[0] not in PARAMETER_RANGES:
            return "NO04"
        if code == "NR" and int(words[0]) not in RECIPES:
            return "NO30"
        if code == "PC":
            lowest, highest = PARAMETER_RANGES[words[0]]
            if not lowest <= int(words[1]) <= highest:
                return "NO06"
        if code == "XC" and int(words[1]) > HIGHEST_LEVEL:
            return "NO06"
        if code == "SB" and int(words[0]) == 0:
            return "NO06"
        if code in ("PC", "XC") and self.levels[words[0]] > self.access:
            return "NO07"
        if code == "XC" and int(words[1]) > self.access:
            return "NO07"
        if code in PHASES_NEEDED and self.phase not in PHASES_NEEDED[code]:
            return "NO05"
        return None

    def shown(self, code, words):
        """The reply to a request that only asks, or nothing."""
        if code == "EQ":
            return self.status_characters()
        if code == "RS":
            return self.status_codes()
        if code == "TN":
            return f"TN {self.batch_number:04}"
        if code == "RR":
            return f"RR {self.recipe:02}"
        if code == "RC":
            return f"RC {self.recipe:02} {self.values[f'0{self.recipe}2']:08}"
        if code == "RT":
            return f"RT R {self.raw_volume:08}"
        if code == "PV":
            return f"PV {words[0]} {self.values[words[0]]:08}"
        if code == "XV":
            return f"XV {words[0]} {self.levels[words[0]]}"
        return None

    def status_characters(self):
        running = self.phase == "Running"
        begun = self.phase in ("Running", "Stopped")
        values = [
            4 * running + 2 * self.flow + (begun or self.phase == "Set"),
            8 * begun + 4 * (self.phase == "Done") + 2 * self.batch_reset,
            0,
            8 * self.changed + self.power_fail,
            0,
            0,
        ]
        return "".join(chr(0x30 + value) for value in values)

    def status_codes(self):
        codes = [
            ("FL", self.flow),
            ("BD", self.batch_reset),
            ("PC", self.changed),
            ("PF", self.power_fail),
            ("TD", self.phase == "Done"),
            ("TP", self.phase in ("Running", "Stopped")),
            ("RL", self.phase == "Running"),
        ]
        return "RS " + "".join(f"{code} " for code, on in codes if on)

    def carried_out(self, code, words):
        if code == "PC":
            value = int(words[1])
            self.changed = self.changed or value != self.values[words[0]]
            self.values[words[0]] = value
        elif code == "XC":
            self.levels[words[0]] = int(words[1])
        elif code == "NR":
            self.recipe = int(words[0])
        elif code == "SB":
            self.phase = "Set"
            self.raw_volume = 0
            self.batch_reset = True
            self.batch_number = self.batch_number % HIGHEST_BATCH_NUMBER + 1
        elif code == "SA":
            self.phase = "Running"
        elif code == "SP":
            self.phase = "Stopped"
        elif code == "ET":
            self.phase = "Idle"
        elif words == ["BD"]:
            self.batch_reset = False
        else:
            self.changed = False
        return "OK"


# How often the simulated host sends each code, against the others. Short exchanges are frequent, so
# that many go into one recording; phases are passed through often, so that most writes come by.
HOW_OFTEN = {
    "EQ": 14,
    "RS": 3,
    "TN": 4,
    "RR": 5,
    "RC": 3,
    "RT": 2,
    "PV": 4,
    "XV": 3,
    "PC": 5,
    "XC": 3,
    "NR": 4,
    "SB": 11,
    "SA": 14,
    "SP": 11,
    "ET": 13,
    "RE": 5,
    "QQ": 1,
}
SENT_CODES = [code for code, times in HOW_OFTEN.items() for _ in range(times)]


def simulated_request(chance):
    """A request by chance; one in some dozens breaks a rule of form or range."""
    code = chance.one_of(SENT_CODES)
    parameter = chance.one_of(PARAMETERS) if chance.below(20) else "084"
    if code == "RT":
        return "RT " + chance.one_of("RRRRGNPM")
    if code in ("PV", "XV"):
        return f"{code} {parameter}"
    if code == "PC":
        lowest, highest = PARAMETER_RANGES.get(parameter, (0, 1))
        value = chance.between(lowest, highest + highest // 10)
        return f"PC {parameter} {value:0{chance.between(1, 8)}}"
    if code == "XC":
        return f"XC {parameter} {chance.below(5)}"
    if code == "NR":
        return f"NR {chance.below(10):02}" if chance.below(20) else "NR 3"
    if code == "SB":
        return f"SB {chance.below(10) * chance.below(10)}"
    if code == "RE":
        return "RE " + chance.one_of(["BD", "BD", "PC", "PC", "PC", "PF", "TD"])
    return code if chance.below(40) else code + " "


def long_honest():
    """Thousands of exchanges with a controller that keeps the rules, up to the longest recording."""
    address, access, longest = 23, 2, 65_535
    chance = Chance(417)
    controller = SimulatedController(access, chance)
    exchanges = []
    length = HEADER_LENGTH
    while True:
        kind = chance.below(20)
        if kind == 0:
            # The host looks for a controller at another address, and there is none.
            exchange = (framed(chance.between(24, 99), "EQ"), SILENCE)
        elif kind == 1:
            # The pad arrived as another byte: whatever was asked meets silence and has no effect.
            frame = framed(address, simulated_request(chance))
            exchange = (frame[:-1] + bytes([PAD - 1]), SILENCE)
        else:
            request = simulated_request(chance)
            exchange = (request, controller.answer(request))
        length += len(exchange_bytes(address, *exchange))
        if length >= longest:
            return recording(address, access, exchanges)
        exchanges.append(exchange)


# The files that are not recordings


def cut_by_the_recorder():
    """Monday's, ending within the reply that follows the refuted one, its length field right."""
    kept = len(MONDAY_BEFORE_THE_FAULT) + 2
    whole = recording(12, 2, MONDAY_DRUM_CHANGE[:kept])[:-10]
    return header(len(whole), 12, 2) + whole[HEADER_LENGTH:]


def length_field_wrong():
    """The day without a fault, whose last exchange was lost: the length field still counts it."""
    whole = recording(7, 2, HONEST_DAY)
    return whole[: -len(exchange_bytes(7, *HONEST_DAY[-1]))]


def every_recording():
    return {
        "alarm_stays_on": recording(1, 2, ALARM_STAYS_ON),
        "another_recipes_factor": recording(1, 2, ANOTHER_RECIPES_FACTOR),
        "batch_held_by_alarm": recording(1, 2, BATCH_HELD_BY_ALARM),
        "bench_old_factor": recording(1, 2, BENCH_OLD_FACTOR),
        "bench_other_recipe": recording(1, 2, BENCH_OTHER_RECIPE),
        "check_character_02": recording(1, 2, CHECK_CHARACTER_02),
        "cut_by_the_recorder": cut_by_the_recorder(),
        "flag_always_lit": recording(1, 2, FLAG_ALWAYS_LIT),
        "fourth_kind": recording(1, 2, FOURTH_KIND),
        "honest_day": recording(7, 2, HONEST_DAY),
        "keypad_then_phase": recording(1, 2, KEYPAD_THEN_PHASE),
        "lasting_alarm_forgotten": recording(1, 2, LASTING_ALARM_FORGOTTEN),
        "length_field_wrong": length_field_wrong(),
        "level_stays_open": recording(1, 2, LEVEL_STAYS_OPEN),
        "long_honest": long_honest(),
        "monday_drum_change": recording(12, 2, MONDAY_DRUM_CHANGE),
        "morning_reload": recording(1, 2, MORNING_RELOAD),
        "no_exchange": recording(1, 2, []),
        "no_phase_left": recording(1, 2, NO_PHASE_LEFT),
        "running_with_keypad_on": recording(1, 2, RUNNING_WITH_KEYPAD_ON),
        "service_walk": recording(1, 2, SERVICE_WALK),
        "started_with_alarm": recording(1, 2, STARTED_WITH_ALARM),
        "thursday_asks": recording(12, 2, THURSDAY_ASKS),
        "thursday_asks_last": recording(12, 2, THURSDAY_ASKS_LAST),
        "thursday_not_heard": recording(12, 2, THURSDAY_NOT_HEARD),
        "version_2": recording(1, 2, BENCH_OTHER_RECIPE, version=2),
        "wrong_frame_answered": recording(1, 2, WRONG_FRAME_ANSWERED),
        "wrong_frame_silence": recording(1, 2, WRONG_FRAME_SILENCE),
    }


# Banks of finished batches: version, total length, then the batches, oldest first

BANK_VERSION = 1
BANK_HEADER_LENGTH = 3
# The bytes of number, recipe, factor, raw volume and preset.
BATCH_WIDTHS = (2, 1, 2, 4, 3)


class Batch(typing.NamedTuple):
    number: int
    recipe: int
    factor: int
    raw: int
    preset: int

    def units(self):
        """What it counts for, in ten-thousandths of a unit, the factor being in ten-thousandths."""
        return self.raw * self.factor


def bank(batches):
    body = b"".join(
        field.to_bytes(width, "big")
        for batch in batches
        for field, width in zip(batch, BATCH_WIDTHS)
    )
    return bytes([BANK_VERSION]) + (BANK_HEADER_LENGTH + len(body)).to_bytes(2, "big") + body


def decimals(number):
    """A number of ten-thousandths, with four decimals."""
    return f"{number // 10_000}.{number % 10_000:04}"


def totals(batches):
    """The line for each recipe that occurs: its number, how many batches, their exact sum."""
    for recipe in RECIPES:
        units = [batch.units() for batch in batches if batch.recipe == recipe]
        if units:
            yield f"{recipe:02} {len(units)} {decimals(sum(units))}"


# Purchasing's week. The same preset comes again and again, so that rounding errs to the same side.

OLD_DRUM, NEW_DRUM = 10_012, 10_150

WEEK_46 = {
    "Monday": [
        Batch(9986, 1, 9_983, 3_204, 3_200),
        Batch(9987, 1, 9_983, 3_207, 3_200),
        Batch(9988, 3, OLD_DRUM, 503, 500),
        Batch(9989, 5, 9_940, 24_091, 24_000),
        Batch(9990, 1, 9_983, 3_202, 3_200),
    ],
    "Tuesday": [
        Batch(9991, 5, 9_940, 24_088, 24_000),
        Batch(9992, 1, 9_983, 3_206, 3_200),
        Batch(9993, 1, 9_983, 2_503, 2_500),
        Batch(9994, 3, OLD_DRUM, 402, 400),
        Batch(9995, 5, 9_940, 12_086, 12_000),
    ],
    "Wednesday": [
        Batch(9996, 1, 9_983, 3_205, 3_200),
        # The drum was empty.
        Batch(9997, 3, OLD_DRUM, 417, 500),
        Batch(9998, 5, 9_940, 24_093, 24_000),
        # The new drum was on, its factor was not: stopped and ended before anything flowed.
        Batch(9999, 3, OLD_DRUM, 0, 500),
        Batch(1, 3, NEW_DRUM, 501, 500),
        Batch(2, 1, 9_983, 3_203, 3_200),
    ],
    "Thursday": [
        Batch(3, 5, 9_940, 24_087, 24_000),
        Batch(4, 3, NEW_DRUM, 304, 300),
        Batch(5, 1, 9_983, 3_208, 3_200),
        Batch(6, 1, 9_983, 2_506, 2_500),
        Batch(7, 5, 9_940, 12_092, 12_000),
    ],
    "Friday": [
        Batch(8, 3, NEW_DRUM, 502, 500),
        Batch(9, 1, 9_983, 3_201, 3_200),
        Batch(10, 5, 9_940, 24_095, 24_000),
        # Stopped for the weekend.
        Batch(11, 5, 9_940, 8_641, 24_000),
        Batch(12, 3, NEW_DRUM, 303, 300),
    ],
}
WEEK_46_BATCHES = [batch for batches in WEEK_46.values() for batch in batches]


def every_bank():
    """The batches of each bank."""
    return {
        "each_recipe_once": [Batch(400 + r, r, 10_000 + 11 * r, 500 + r, 500) for r in RECIPES],
        "full_of_the_largest": 100
        * [Batch(HIGHEST_BATCH_NUMBER, RECIPES[-1], 12_000, HIGHEST_RAW_VOLUME, 999_999)],
        "no_batch": [],
        "recipe_nine": WEEK_46_BATCHES[:-1] + [WEEK_46_BATCHES[-1]._replace(recipe=9)],
        "week_46": WEEK_46_BATCHES,
    }


def totals_expected():
    """What scripts/totals writes for all banks; one with a recipe that there is not is refused."""
    for name, batches in every_bank().items():
        good = all(batch.recipe in RECIPES for batch in batches)
        for line in totals(batches) if good else ["refused K7"]:
            yield f"examples/{name}.bank: {line}\n"


# The page on that week


def rounded(number, to):
    """A number of ten-thousandths, rounded to so many of them, half of that up."""
    return (number + to // 2) // to * to


def difference(number):
    return ("-" if number < 0 else "+") + decimals(abs(number))


def week_46_page():
    """The sheets, what purchasing made of them by hand, and why that is not the exact sum."""

    def batches_of(recipe):
        return [batch for batch in WEEK_46_BATCHES if batch.recipe == recipe]

    def exact(recipe):
        return sum(batch.units() for batch in batches_of(recipe))

    def errors(recipe, to):
        """By how much each batch is off if it is rounded."""
        return [rounded(batch.units(), to) - batch.units() for batch in batches_of(recipe)]

    sheets = "".join(
        f"| {day} | {batch.number} | {batch.recipe} | {decimals(batch.factor)} | {batch.raw} "
        f"| {decimals(batch.units())} |\n"
        for day, batches in WEEK_46.items()
        for batch in batches
    )
    raw = sum(batch.raw for batch in batches_of(3))
    raw_before = sum(batch.raw for batch in batches_of(3) if batch.factor == OLD_DRUM)
    off = {
        1: sum(errors(1, 10_000)),
        3: raw * NEW_DRUM - exact(3),
        5: sum(errors(5, 10_000)),
    }
    seen = {recipe: sum(batch.raw > 0 for batch in batches_of(recipe)) for recipe in off}
    by_hand = "".join(
        f"| {recipe} | {seen[recipe]} | {decimals(exact(recipe) + off[recipe])} "
        f"| {len(batches_of(recipe))} | {decimals(exact(recipe))} | {difference(off[recipe])} |\n"
        for recipe in off
    )
    first = batches_of(1)[0]
    up = sum(error > 0 for error in errors(1, 10_000))
    down = sum(error < 0 for error in errors(5, 10_000))
    lines = "".join(f"    {line}\n" for line in totals(WEEK_46_BATCHES))
    return f"""# Week 46, added up

Made by `scripts/examples.py` from the batches that it puts into `week_46.bank`.

## The sheets

For whoever adds up a week. A batch counts for its raw volume times its factor, the one that its recipe had when it was ended. A factor has four decimals: 10000 is 1.0000.

| day | number | recipe | factor | raw | raw times factor |
|---|---|---|---|---|---|
{sheets}
After 9999 the numbers start again from 1. On Wednesday recipe 3 got a new drum. Batch 9999 was started while the unit still had the old drum's factor, {decimals(OLD_DRUM)}; somebody saw it, and the batch was ended before anything had flowed. From batch 1 on the factor is the new drum's, {decimals(NEW_DRUM)}.

## What purchasing had by hand

| recipe | batches by hand | sum by hand | batches | exact sum | off by |
|---|---|---|---|---|---|
{by_hand}
## Where it went wrong

**Rounded before it was added** (recipes 1 and 5). Each batch was written down as a whole number of units. That is half a unit at most, but the same preset comes again and again, and each time the error is to the same side. Batch {first.number}, {decimals(first.units())}, was written as {rounded(first.units(), 10_000) // 10_000}; like it {up} of recipe 1's {len(batches_of(1))} batches went up, and {down} of recipe 5's {len(batches_of(5))} went down. Over the week recipe 1 is off by {difference(off[1])} and recipe 5 by {difference(off[5])}. Two decimals for each batch are not enough either: that gives {difference(sum(errors(1, 100)))} and {difference(sum(errors(5, 100)))}. Add first, and round the sum if it has to be.

**Friday's factor for the whole week** (recipe 3). The week's raw volume is {raw}, and {raw} times {decimals(NEW_DRUM)} is {decimals(raw * NEW_DRUM)}. But {raw_before} of it ran before the drum was changed, with {decimals(OLD_DRUM)}: that is {decimals(off[3])} too much, {raw_before} times {decimals(NEW_DRUM - OLD_DRUM)}. Each batch has its own factor on its sheet.

**A batch left out** (recipe 3). Batch 9999 has raw 0. It adds nothing to the sum, but it is a finished batch, and its sheet was printed: there are {len(batches_of(3))}, not {seen[3]}.

## What the program says

    scripts/totals examples/week_46.bank

prints for each recipe the number of batches and the exact sum, in which nothing is rounded:

{lines}
Together that is {decimals(sum(batch.units() for batch in WEEK_46_BATCHES))}, the sum over all {len(WEEK_46_BATCHES)} batches.
"""


def every_file():
    """The content of each file, by its name."""
    return {
        **{f"{name}.recording": content for name, content in every_recording().items()},
        **{f"{name}.bank": bank(batches) for name, batches in every_bank().items()},
        "totals_expected": "".join(totals_expected()).encode("ascii"),
        "week_46.md": week_46_page().encode("ascii"),
    }


def differences(made):
    """A line for each file that is missing, not as made here, or not made here at all."""
    present = {path.name: path for kind in ("*.recording", "*.bank") for path in FOLDER.glob(kind)}
    for name in sorted(made.keys() | present.keys()):
        path = FOLDER / name
        if not path.exists():
            yield f"examples/{name}: missing"
        elif name not in made:
            yield f"examples/{name}: not made by scripts/examples.py"
        elif made[name] != path.read_bytes():
            yield f"examples/{name}: differs from what scripts/examples.py makes"


def main():
    arguments = argparse.ArgumentParser(description="Makes the example recordings and banks.")
    arguments.add_argument(
        "--check", action="store_true", help="only compare them with the files present"
    )
    made = every_file()
    if arguments.parse_args().check:
        lines = list(differences(made))
        for line in lines:
            print(line)
        return 1 if lines else 0
    FOLDER.mkdir(exist_ok=True)
    for name, content in made.items():
        (FOLDER / name).write_bytes(content)
    return 0


if __name__ == "__main__":
    sys.exit(main())
