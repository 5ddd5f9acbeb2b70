"""The record of documents 01 and 02: its fields and ranges, what the panel does to it, and its stored form. Written from the
documents alone."""
import copy

PHASES = ["Idle", "Set", "Running", "Stopped", "Done"]
# in the order of the stored flags' bits
FLAGS = ["keypad", "flow", "changed", "reset", "powerfail"]

# the alarms by number from 1 on, and whether AR switches them off
ALARMS = [(name, False) for name in ("RAM Corrupt", "Flash Error", "RAM Bad", "ROM Bad")]
ALARMS += [(name, False) for name in ("Passcodes Reset", "Prog Error", "Watchdog", "Flash Backup Bad")]
ALARMS += [(name, True) for name in ("User Alarm 3", "User Alarm 2", "User Alarm 1", "Powerfail Alarm")]
ALARMS += [("Clean Line", False), ("Communications", False), ("User Alarm 5", True), ("User Alarm 4", True)]
ALARMS += [("PTB PRN", False), ("Shared PRN", False), ("Overrun", False)]
assert len(ALARMS) == 19


def alarm(number):
    """The alarms as one number of nineteen bits, alarm 1 the highest, where this one alone is on; 0 if there is none."""
    return 1 << len(ALARMS) - number if 1 <= number <= len(ALARMS) else 0


EVERY_ALARM = sum(alarm(number) for number in range(1, 20))
RESETTABLE = sum(alarm(number) for number, (_, resettable) in enumerate(ALARMS, 1) if resettable)

# the low end and the high end of each field
LIMITS = {"address": (1, 99), "access": (0, 3), "recipe": (1, 8), "preset": (0, 999999), "raw": (0, 99999999), "number": (1, 9999)}
LIMITS["alarms"] = (0, EVERY_ALARM)

# the same for each parameter's value, by code
RANGES = {}
for recipe in range(1, 9):
    RANGES[10 * recipe + 1] = (0, 10000)
    RANGES[10 * recipe + 2] = (8000, 12000)
    RANGES[10 * recipe + 3] = (1, 9999)
RANGES.update({801: (0, 99), 802: (0, 999), 803: (0, 9999), 804: (1, 9999)})
RANGES.update({805: (0, 3), 806: (0, 1), 807: (1, 99999), 808: (0, 9)})
CODES = sorted(RANGES)
assert len(CODES) == 32


class Record:
    def __init__(self):
        """Every field at its low end, Idle, flags and alarms off."""
        self.phase = "Idle"
        for name in FLAGS:
            setattr(self, name, False)
        for name, (low, _) in LIMITS.items():
            setattr(self, name, low)
        self.values = {code: RANGES[code][0] for code in CODES}
        self.levels = {code: 0 for code in CODES}

    def but(self, **fields):
        """The same record with some fields changed."""
        other = copy.deepcopy(self)
        for name, value in fields.items():
            setattr(other, name, value)
        return other

    def but_parameter(self, code, value=None, level=None):
        other = copy.deepcopy(self)
        if value is not None:
            other.values[code] = value
        if level is not None:
            other.levels[code] = level
        return other

    def valid(self):
        return (
            self.phase in PHASES
            and all(low <= getattr(self, name) <= high for name, (low, high) in LIMITS.items())
            and all(low <= self.values[code] <= high for code, (low, high) in RANGES.items())
            and all(0 <= level <= 3 for level in self.levels.values())
        )


def bench():
    """01's bench record."""
    record = Record().but(address=1, access=2, recipe=3, number=9999)
    record.levels = {code: 1 for code in CODES}
    return record.but_parameter(32, value=10012).but_parameter(807, level=3)


# ---- what the panel does


def after(record, event, count=0):
    """The count is that of pulses, or the number of an alarm."""
    if not record.valid():
        return record
    if event == "pulses":
        if count == 0:
            return record
        result = record.but(flow=True)
        if record.phase != "Idle":
            total = record.raw + count
            result.raw = total % 100000000
            if record.phase == "Running" and total >= record.preset:
                result.phase = "Done"
        return result
    if event == "still":
        return record.but(flow=False)
    if event == "keypad on":
        return record.but(keypad=True) if record.phase in ("Idle", "Done") else record
    if event == "keypad off":
        return record.but(keypad=False)
    if event == "power back":
        return record.but(powerfail=True, flow=False, phase="Stopped" if record.phase == "Running" else record.phase)
    if event == "alarm on":
        return record.but(alarms=record.alarms | alarm(count))
    if event == "alarm off":
        return record.but(alarms=record.alarms & ~alarm(count))
    raise ValueError(event)


# ---- the stored form

# the lengths that are read, with the version of each; the last is written
VERSIONS = {177: 1, 180: 2}
LENGTH = 180


def values_of(alarms):
    """A1 to A5, each of four bits; the reserved bit, A5's 8, is 0."""
    return [alarms >> 15, alarms >> 11 & 15, alarms >> 7 & 15, alarms >> 3 & 15, alarms & 7]


def stored_alarms(alarms):
    """A1 to A5 and a zero, four bits each, high half first."""
    a1, a2, a3, a4, a5 = values_of(alarms)
    return bytes([a1 << 4 | a2, a3 << 4 | a4, a5 << 4])


def read_alarms(stored):
    """The alarms of three bytes, or None if the reserved bit or one of the last four is set."""
    if stored[2] & 0x8F:
        return None
    return stored[0] << 11 | stored[1] << 3 | stored[2] >> 4


def form_of(record, version=2):
    """The stored form; version 1 leaves the alarms out."""
    length = {number: length for length, number in VERSIONS.items()}[version]
    flags = sum(1 << place for place, name in enumerate(FLAGS) if getattr(record, name))
    form = bytes([version]) + length.to_bytes(2, "big")
    form += bytes([record.address, record.access, PHASES.index(record.phase), flags, record.recipe])
    form += record.preset.to_bytes(3, "big") + record.raw.to_bytes(4, "big") + record.number.to_bytes(2, "big")
    form += stored_alarms(record.alarms) if version == 2 else b""
    for code in CODES:
        form += record.values[code].to_bytes(4, "big") + bytes([record.levels[code]])
    assert len(form) == length
    return form


def write(record, buffer):
    """The refusal or None, and the buffer."""
    if not record.valid():
        return "K5", buffer
    if len(buffer) < LENGTH:
        return "K6", buffer
    return None, form_of(record) + buffer[LENGTH:]


def read(stored):
    """The refusal or None, and the record."""
    if len(stored) not in VERSIONS:
        return "K1", Record()
    version = VERSIONS[len(stored)]
    if stored[0] != version:
        return "K2", Record()
    if int.from_bytes(stored[1:3], "big") != len(stored):
        return "K3", Record()
    alarms = read_alarms(stored[17:20]) if version == 2 else 0
    if stored[5] > 4 or stored[6] > 31 or alarms is None:
        return "K4", Record()
    record = Record().but(address=stored[3], access=stored[4], phase=PHASES[stored[5]], recipe=stored[7])
    for place, name in enumerate(FLAGS):
        setattr(record, name, bool(stored[6] >> place & 1))
    record.preset = int.from_bytes(stored[8:11], "big")
    record.raw = int.from_bytes(stored[11:15], "big")
    record.number = int.from_bytes(stored[15:17], "big")
    record.alarms = alarms
    for place, code in enumerate(CODES):
        at = len(stored) - 5 * (len(CODES) - place)
        record.values[code] = int.from_bytes(stored[at : at + 4], "big")
        record.levels[code] = stored[at + 4]
    return (None, record) if record.valid() else ("K4", Record())
