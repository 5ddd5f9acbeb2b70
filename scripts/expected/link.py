"""The link of documents 01 and 02: frames of either kind, the host side, the commands and one call. Written from the documents
alone."""
from record import RANGES, RESETTABLE, values_of

STX, ETX, PAD, STAR, CR, LF = 0x02, 0x03, 0x7F, 0x2A, 0x0D, 0x0A

# ---- frames; a kind is M (minicomputer) or T (terminal)


def check_of(text):
    check = ETX
    for byte in text:
        check ^= byte
    return check


def frame_of(kind, text):
    if kind == "M":
        return bytes([STX]) + text + bytes([ETX, check_of(text), PAD])
    return bytes([STAR]) + text + bytes([CR, LF])


# the frames that 01 itself prints
assert frame_of("M", b"01EQ") == bytes.fromhex("02 30 31 45 51 03 16 7F")
assert frame_of("M", b"01000000") == bytes.fromhex("02 30 31 30 30 30 30 30 30 03 02 7F")
assert frame_of("M", b"01OK") == bytes.fromhex("02 30 31 4F 4B 03 06 7F")


def is_text(text):
    return all(0x20 <= byte <= 0x7E for byte in text)


def locate(kind, frame):
    """S3 to S6 or None, and the text."""
    least, most = (8, 64) if kind == "M" else (7, 63)
    if not least <= len(frame) <= most:
        return "S3", b""
    if kind == "M":
        text, marks = frame[1:-3], frame[0] == STX and frame[-3] == ETX and frame[-1] == PAD
    else:
        text, marks = frame[1:-2], frame[0] == STAR and frame[-2] == CR and frame[-1] == LF
    if not marks:
        return "S4", b""
    if kind == "M" and frame[-2] != check_of(text):
        return "S5", b""
    if not is_text(text):
        return "S6", b""
    return None, text


def address(kind, frame):
    """S3 to S7 or None, the address and the text."""
    silence, text = locate(kind, frame)
    if silence:
        return silence, 0, b""
    digits = all(0x30 <= byte <= 0x39 for byte in text[0:2])
    capitals = all(0x41 <= byte <= 0x5A for byte in text[2:4])
    if not (digits and capitals):
        return "S7", 0, b""
    return None, int(text[0:2]), text


# ---- the host side: the refusal or None, what is laid at the start of the buffer, and the buffer


def laid(data, buffer):
    return None, data, data + buffer[len(data) :]


def build(kind, text, buffer):
    if len(buffer) < 64:
        return "H1", b"", buffer
    if not 4 <= len(text) <= 60:
        return "H2", b"", buffer
    if not is_text(text):
        return "H3", b"", buffer
    return laid(frame_of(kind, text), buffer)


def read_text(kind, frame, buffer):
    if len(buffer) < 64:
        return "H1", b"", buffer
    silence, text = locate(kind, frame)
    if silence:
        return silence, b"", buffer
    return laid(text, buffer)


# ---- commands


def digits(word, least, most):
    return least <= len(word) <= most and all("0" <= letter <= "9" for letter in word)


def words(rest):
    """The arguments' words, none if nothing follows the code; None if something other than a space does."""
    if rest == "":
        return []
    if rest[0] != " ":
        return None
    return rest[1:].split(" ")


ALONE = ("EQ", "RS", "EA", "TN", "RR", "RC", "SA", "SP", "ET", "AR")
FORMS = {code: lambda a: a == [] for code in ALONE}
FORMS.update(
    {
        "RT": lambda a: a == ["R"],
        "PV": lambda a: len(a) == 1 and digits(a[0], 3, 3),
        "XV": lambda a: len(a) == 1 and digits(a[0], 3, 3),
        "PC": lambda a: len(a) == 2 and digits(a[0], 3, 3) and digits(a[1], 1, 8),
        "XC": lambda a: len(a) == 2 and digits(a[0], 3, 3) and digits(a[1], 1, 1),
        "NR": lambda a: len(a) == 1 and digits(a[0], 2, 2),
        "SB": lambda a: len(a) == 1 and digits(a[0], 1, 6),
        "RE": lambda a: a in (["BD"], ["PC"]),
    }
)
NOT_SERVED = ["RT G", "RT N", "RT P", "RT M", "RE PF"]
NEEDED = {
    "PC": ["Idle", "Done"],
    "NR": ["Idle", "Done"],
    "SB": ["Idle", "Done"],
    "SA": ["Set", "Stopped"],
    "SP": ["Running"],
    "ET": ["Set", "Stopped", "Done"],
}


def refusal(r, code, rest):
    """The number of NO, or None."""
    if code not in FORMS:
        return 0
    if code + rest in NOT_SERVED:
        return 8
    a = words(rest)
    if a is None or not FORMS[code](a):
        return 1
    parameter = int(a[0]) if code in ("PV", "XV", "PC", "XC") else None
    if parameter is not None and parameter not in RANGES:
        return 4
    if code == "NR" and not 1 <= int(a[0]) <= 8:
        return 30
    if code == "PC" and not RANGES[parameter][0] <= int(a[1]) <= RANGES[parameter][1]:
        return 6
    if code == "XC" and int(a[1]) > 3:
        return 6
    if code == "SB" and int(a[0]) == 0:
        return 6
    if code in ("PC", "XC", "NR", "SB", "SA", "ET", "RE", "AR") and r.keypad:
        return 2
    if code in ("PC", "XC") and r.levels[parameter] > r.access:
        return 7
    if code == "XC" and int(a[1]) > r.access:
        return 7
    if code in NEEDED and r.phase not in NEEDED[code]:
        return 5
    if code == "SA" and r.alarms != 0:
        return 9
    return None


def characters(values):
    return "".join(chr(0x30 + value) for value in values)


def status(r):
    first = 8 * r.keypad + 4 * (r.phase == "Running") + 2 * r.flow + (r.phase in ("Set", "Running", "Stopped"))
    second = 8 * (r.phase in ("Running", "Stopped")) + 4 * (r.phase == "Done") + 2 * r.reset
    third = 1 if r.alarms != 0 else 0
    fourth = 8 * r.changed + r.powerfail
    return characters([first, second, third, fourth, 0, 0])


def codes(r):
    table = [("AL", r.alarms != 0), ("FL", r.flow), ("BD", r.reset), ("PC", r.changed), ("PF", r.powerfail), ("PW", r.keypad)]
    table += [("TD", r.phase == "Done"), ("TP", r.phase in ("Running", "Stopped")), ("RL", r.phase == "Running")]
    return "RS " + "".join(code + " " for code, shown in table if shown)


def command(r, code, rest):
    """The reply behind the address digits, and the record afterwards."""
    number = refusal(r, code, rest)
    if number is not None:
        return "NO%02d" % number, r
    a = words(rest)
    if code == "EQ":
        return status(r), r
    if code == "RS":
        return codes(r), r
    if code == "EA":
        return characters(values_of(r.alarms)), r
    if code == "TN":
        return "TN %04d" % r.number, r
    if code == "RR":
        return "RR %02d" % r.recipe, r
    if code == "RC":
        return "RC %02d %08d" % (r.recipe, r.values[10 * r.recipe + 2]), r
    if code == "RT":
        return "RT R %08d" % r.raw, r
    if code == "PV":
        return "PV %s %08d" % (a[0], r.values[int(a[0])]), r
    if code == "XV":
        return "XV %s %d" % (a[0], r.levels[int(a[0])]), r
    if code == "PC":
        parameter, value = int(a[0]), int(a[1])
        return "OK", r.but_parameter(parameter, value=value).but(changed=r.changed or value != r.values[parameter])
    if code == "XC":
        return "OK", r.but_parameter(int(a[0]), level=int(a[1]))
    if code == "NR":
        return "OK", r.but(recipe=int(a[0]))
    if code == "SB":
        number = 1 if r.number == 9999 else r.number + 1
        return "OK", r.but(phase="Set", preset=int(a[0]), raw=0, reset=True, number=number)
    if code in ("SA", "SP", "ET"):
        return "OK", r.but(phase={"SA": "Running", "SP": "Stopped", "ET": "Idle"}[code])
    if code == "AR":
        return "OK", r.but(alarms=r.alarms & ~RESETTABLE)
    assert code == "RE"
    return "OK", r.but(**{{"BD": "reset", "PC": "changed"}[a[0]]: False})


# ---- one call


def call(kind, r, request, buffer):
    """S1 to S8 or None, the reply, the buffer and the record afterwards."""
    if not r.valid():
        return "S1", b"", buffer, r
    if len(buffer) < 64:
        return "S2", b"", buffer, r
    silence, unit, text = address(kind, request)
    if not silence and unit != r.address:
        silence = "S8"
    if silence:
        return silence, b"", buffer, r
    reply, r = command(r, text[2:4].decode(), text[4:].decode())
    return laid(frame_of(kind, text[:2] + reply.encode()), buffer) + (r,)
