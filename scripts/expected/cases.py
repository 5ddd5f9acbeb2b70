"""The cases of the program `bench`, as the lines of its input."""
from link import frame_of
from record import EVERY_ALARM, RANGES, RESETTABLE, Record, alarm, bench, form_of

LINES = []

# what the input says first
LEGEND = """\
Examples, limits and traps of documents 01 and 02: one case to a line. Each is written back with what it gets behind "->".
  = PKFCBX          the bench record in phase P (0 Idle, 1 Set, 2 Running, 3 Stopped, 4 Done),
                    with keypad, flow, changed, batch reset and power fail off (0) or on (1)
  set address N     the record with this field, valid or not; also access, recipe, raw, alarms (as behind L), and 032 for
                    that parameter's value
  panel pulses N    the record after what the panel does; also still, keypad on, keypad off, power back,
                    alarm on N and alarm off N for the alarm with that number
  ?                 the record: PKFCBX as above, address @, access A, recipe R, preset P, raw W, batch number N,
                    alarms L (a number of nineteen bits, alarm 1 the highest)
  into N            buffers that are lent from here on have N bytes, each ee before
  M "TEXT"          one call, minicomputer, with the frame of the text: the reply's text and its bytes
  M 02 30 ..        one call, minicomputer, with these bytes
  T ..              the same for a terminal
  build M "TEXT"    the frame of a text, or of a text in bytes; M or T
  enclose NNN M ee 30 ..
                    the frame of the NNN bytes from the second on, built in the buffer that is given: its length, and the buffer
  read M 02 30 ..   the text's bytes; then the length of the text that is located; then the unit's address and the text's length
  write             the record's stored form
  load 02 00 ..     the record that is read from stored bytes of either version: how many were read, and the record
  change NNN N      the same of the present record's form with the byte at place NNN changed to N
A silence or refusal has its number in place of what is got. +N counts the bytes of a lent buffer behind that are as before.
"""

# ---- lines


def line(text):
    LINES.append(text)


def section(*comments):
    if LINES:
        line("")
    for comment in comments:
        line("# " + comment)


def note(comment):
    line("# " + comment)


def spaced(data):
    return "".join(" %02x" % byte for byte in data)


def start(phase_and_flags="000000"):
    line("= " + phase_and_flags)


def ask(*texts, kind="M"):
    for text in texts:
        line('%s "01%s"' % (kind, text))


def ask_text(*texts, kind="M"):
    for text in texts:
        line('%s "%s"' % (kind, text))


def send(kind, *requests):
    for request in requests:
        line(kind + spaced(bytes.fromhex(request) if isinstance(request, str) else request))


def with_room(room, *lines):
    line("into %d" % room)
    for each in lines:
        line(each)
    line("into 64")


def field(name, value):
    line("set %s %d" % (name, value))


def show():
    line("?")


# a text of 60 bytes
SIXTY = b"01PV " + b"0123456789" * 5 + b"01234"
assert len(SIXTY) == 60

# ---- 01's examples on the bench record


def worked():
    section("The bench record: 01's examples, starred and not")
    start()
    send("M", "02 30 31 45 51 03 16 7f")
    ask("RC", "PC 807 5")
    send("M", frame_of("M", b"01PC 032 10150"))
    ask("PV 032", "EQ", "SB 500", "TN", "EQ", "SA", "EQ", "RS")
    ask("PC 032 7999", "PC 032 8000", "PC 807 5", "XC 032 3", "EQ ")
    show()

    section("A frame of 64 bytes is read, one of 65 is not; a terminal frame of 63, and one of 64 is not")
    start()
    send("M", frame_of("M", b"01EQ" + b" " * 56), frame_of("M", b"01EQ" + b" " * 57))
    ask("PC 032 10150" + " " * 46)
    send("T", frame_of("T", b"01EQ" + b"x" * 56), frame_of("T", b"01EQ" + b"x" * 57))
    ask("ZZ" + "~" * 56, kind="T")

    section("A check of 02 is no new STX: in a request, and in a reply")
    send("M", "02 30 31 52 52 03 02 7f", "02 30 31 45 51 03 16 7f")

    section("Terminal kind")
    start()
    send("T", "2a 30 31 45 51 0d 0a")
    ask("EQ", "RC", "PC 807 5", "PC 032 10150", "PV 032", "SB 500", "TN", "EQ", "SA", "RS", kind="T")
    ask("PC 032 8000", "ZZ", "EQX", kind="T")
    show()


# ---- silences


def silences():
    section("S1, before all others")
    start()
    field("recipe", 9)
    ask("EQ")
    ask("EQ", kind="T")
    with_room(63, 'M "02EQ"')
    send("M", b"")
    field("recipe", 0)
    ask("EQ")
    field("recipe", 8)
    ask("RC")
    field("access", 4)
    ask("EQ")
    field("access", 2)
    field("address", 0)
    ask_text("00EQ")
    field("address", 100)
    ask("EQ")
    field("address", 1)
    field("raw", 100000000)
    ask("EQ")
    field("raw", 99999999)
    ask("RT R")
    field("raw", 0)
    field("032", 12001)
    ask("EQ")
    field("032", 7999)
    ask("EQ")
    field("032", 12000)
    ask("RC")
    show()

    section("S2, before those behind it")
    with_room(63, 'M "01EQ"', 'M "02eq"', 'T "01EQ"', "M 00")
    with_room(0, 'M "01EQ"')
    with_room(65, 'M "01EQ"')

    section("S3")
    send("M", b"", "02 30 31 45 03 47 7f", "02", bytes(7), bytes(65), bytes(70))
    send("T", b"", "2a 30 31 45 0d 0a", bytes(6), bytes(64))

    section("S4, before S5")
    send("M", "42 30 31 45 51 03 16 7f", "02 30 31 45 51 43 16 7f", "02 30 31 45 51 03 16 3f", "02 30 31 45 51 03 17 00")
    send("M", bytes(8), bytes(64), "02 02 30 31 45 51 03 16 7f", "02 30 31 45 51 03 16 7f 7f")
    send("M", "2a 30 31 45 51 0d 0a 00", "2a 30 31 45 51 31 0d 0a")
    send("T", "6a 30 31 45 51 0d 0a", "2a 30 31 45 51 4d 0a", "2a 30 31 45 51 0d 4a", "2a 30 31 45 51 13 10")
    send("T", bytes(7), bytes(63), "02 30 31 45 51 03 16 7f")

    section("S5, before S6")
    send("M", "02 30 31 45 51 03 17 7f", "02 30 31 45 51 03 15 7f", "02 30 31 45 51 03 14 7f")
    send("M", "02 30 31 45 51 1f 03 89 7f", "02 30 31 45 50 03 16 7f")

    section("S6, before S7")
    for byte in (0x1F, 0x7F, 0x00, 0x02, 0x03, 0x80, 0xFF):
        send("M", frame_of("M", b"01EQ" + bytes([byte])))
    send("M", frame_of("M", b"\x1f1eq"), frame_of("M", b"01E\r"))
    send("T", frame_of("T", b"01EQ\r\n"), frame_of("T", b"01\x1fQ"), frame_of("T", b"01EQ\x7f"))

    section("S7, before S8")
    ask_text("0AEQ", "A1EQ", "01eQ", "01Eq", "01E1", "01 EQ", "1EQ ", "02eq", "/1EQ", ":1EQ", "0/EQ", "0:EQ")
    ask_text("01@Q", "01[Q", "01E@", "01E[", "+1EQ")
    ask_text("0AEQ", "01eQ", kind="T")

    section("S8")
    ask_text("02EQ", "00EQ", "99EQ", "10EQ", "02ZZ", "11EQ")
    ask_text("02EQ", kind="T")
    field("address", 99)
    ask_text("99EQ", "99RR", "01EQ", "99PC 807 5")
    ask_text("99TN", kind="T")
    field("address", 10)
    ask_text("10TN", "01TN")
    field("address", 1)


# ---- refusals


def forms():
    section("NO00, before NO01 (decision 1)")
    start()
    ask("ZZ", "ZZX", "ZZ ", "ZZ 032 5", "QE", "AA", "CP 032 5", "RX R")
    ask("EQX", "EQ X", "EQ  ", "RS ", "TN1", "RR 01", "RC 03", "SA ", "SP 1", "ET ET")
    ask("EAX", "EA ", "EA 1", "EA SY", "EA M1", "ARX", "AR ", "AR 1", "AR AA", "AR PA SY", "AE", "RA")

    section("S7 and not NO00 for a code that is not two capitals (decision 2)")
    ask("zz", "Z1", "..")
    ask_text("00ZZ")

    section("NO01: forms are strict (decision 3)")
    ask("PV 32", "PV ABC", "PV  032", "PV 032 ", "PV", "PV ", "PV 0032", "PV032", "PV 032 1", "PV-032", "PV 03A", "PV 999 ")
    ask("XV", "XV 32", "XV 032 1", "XV 03:")
    ask("PC 032 123456789", "PC 032", "PC 032 ", "PC 032  10150", "PC 032 10150 ", "PC 032 -1", "PC 032 1e3", "PC 32 10150")
    ask("PC 03210150", "PC 999 x", "PC 032 10150 1", "PC 032_10150", "PC", "PC 032 00010150", "PC 032 000010150")
    ask("XC 032 10", "XC 032 00", "XC 032", "XC 032 ", "XC 032 x", "XC 32 1", "XC 999 10")
    ask("NR 3", "NR 003", "NR", "NR ", "NR 0 3", "NR 03 ", "NR AB", "NR 9", "NR03", "NR 00", "NR 09", "NR 99")
    ask("SB 1234567", "SB", "SB ", "SB 500 ", "SB x", "SB 5 0", "SB500", "SB 0000000")
    ask("RT", "RT ", "RT RR", "RT  R", "RT R ", "RTR", "RT r")
    ask("RE", "RE ", "RE B", "RE BDX", "RE BD ", "RE BD PC", "REBD", "RE bd")
    show()

    section("NO08 for its five exact texts (decision 4)")
    ask("RT R", "RT G", "RT N", "RT P", "RT M", "RE PF")
    ask("RT G ", "RT X", "RTG", "RT GN", "RT  G", "RE PF ", "RE TD", "RE PW", "RE FL", "REPF")
    start("010001")
    ask("RE PF", "RT G", "EQ")
    start("000001")
    ask("RE PF", "RS")
    start("100001")
    ask("RE PF", "RE BD", "RE PC", "RE TD", "RT G")
    show()


def values():
    section("NO04")
    start()
    for code in ("PV", "XV"):
        for number in (0, 1, 10, 14, 20, 24, 84, 91, 93, 111, 320, 800, 809, 899, 999):
            ask("%s %03d" % (code, number))
    ask("PC 034 5", "PC 809 5", "PC 000 0", "PC 999 99999999", "XC 034 1", "XC 809 9", "XC 000 0", "PV 032", "XV 032")
    note("Recipes 0 and 9, a fourth kind, and hundreds before a recipe's code")
    for number in (2, 3, 90, 92, 94, 100, 121, 811):
        ask("PV %03d" % number)
    for number in (1, 14, 91, 111):
        ask("PC %03d 9000" % number, "XC %03d 1" % number)

    section("NO30")
    ask("NR 00", "NR 09", "NR 99", "NR 10", "NR 01", "RR", "RC", "NR 08", "RR", "RC", "NR 03", "RC")
    show()

    section("NO06")
    start()
    field("access", 3)
    for code in (11, 12, 13, 31, 32, 33, 81, 82, 83, 801, 802, 803, 804, 805, 806, 807, 808):
        low, high = RANGES[code]
        if low > 0:
            ask("PC %03d %d" % (code, low - 1))
        ask("PC %03d %d" % (code, low), "PV %03d" % code)
        ask("PC %03d %d" % (code, high + 1), "PC %03d %d" % (code, high), "PV %03d" % code)
    ask("PC 032 99999999", "PC 032 00000000", "PC 032 42949672", "PC 032 00012000", "PC 032 00012001")
    show()
    ask("SB 0", "SB 00", "SB 000000", "SB 1", "ET", "SB 999999")
    show()

    section("XC: NO06, NO02 and NO07 (decision 5)")
    start()
    ask("XC 032 4", "XC 032 9", "XC 032 3", "XC 807 1", "XC 807 4", "XC 032 2", "XV 032", "XC 032 0", "XV 032", "XC 032 2")
    field("access", 1)
    ask("XC 032 1", "XC 033 1", "XC 033 2", "PC 032 9000", "XC 033 0", "XV 033")
    field("access", 0)
    ask("XC 033 0", "XC 031 0", "XC 033 1", "PC 033 1", "PC 031 1", "XC 032 4")
    field("access", 3)
    ask("XC 807 0", "XC 807 3", "XC 032 3", "PC 807 5", "XV 807", "XV 032", "PV 807")
    start("100000")
    ask("XC 032 4", "XC 032 3", "XC 807 1", "XC 032 1", "PC 032 7999", "PC 032 8000", "PC 807 5")
    for phase in range(1, 5):
        start("%d00000" % phase)
        ask("XC 032 3", "XC 032 2", "XV 032")


def states():
    section("NO02: never SP, and no read")
    for phase in range(5):
        start("%d10000" % phase)
        ask("PC 032 9000", "XC 032 1", "NR 04", "NR 00", "SB 500", "SB 0", "SA", "ET", "RE BD", "RE PC", "RE PF", "EQ", "TN", "RR", "RC")
        ask("AR", "AR ", "EA", "RT R", "PV 032", "XV 032", "SP", "EQ")
        show()

    section("NO05: each command in each phase")
    for text in ("PC 032 9000", "NR 04", "SB 500", "SA", "SP", "ET"):
        for phase in range(5):
            start("%d00000" % phase)
            ask(text)
            show()

    section("No phase test for XC and RE; a flag that is off is cleared too (decision 6)")
    for phase in range(5):
        start("%d00110" % phase)
        ask("RE BD", "RS", "RE BD", "RE PC", "RS", "RE PC", "XC 032 2")
        show()
    start("101111")
    ask("RE BD", "RE PC", "RS")

    section("SB: 0 in any width; flow and changed stay (decision 7)")
    start("011001")
    ask("SB 000000", "SB 000500")
    show()
    ask("EQ", "RT R", "TN")
    start("401101")
    ask("SB 7")
    show()


# ---- alarms


def raised(*numbers):
    for number in numbers:
        happens("alarm on %d" % number)


def alarms():
    section("EA: none, and each alarm by itself; AR switches off 9 to 12, 15 and 16")
    start()
    ask("EA", "EQ", "RS", "AR", "EA")
    for number in range(1, 20):
        start()
        raised(number)
        ask("EA", "AR", "EA")

    section("EA: all at once, then all but each")
    start()
    raised(*range(1, 20))
    ask("EA", "EQ", "RS")
    for number in range(1, 20):
        happens("alarm off %d" % number)
        ask("EA")
        raised(number)
    ask("AR", "EA", "AR", "EA")
    ask("EA", "AR", kind="T")
    show()

    section("EQ's A3 and RS's AL, which is first, in every phase; AR and EA in every phase")
    for phase in range(5):
        for flags in ("00000", "11111"):
            start("%d%s" % (phase, flags))
            raised(12, 19)
            ask("EQ", "RS", "AR", "EA", "EQ", "RS")
            show()

    section("NO09, behind NO05 and NO02: SA in every phase, for an alarm that lasts and for one that AR switches off")
    for number in (19, 12):
        for phase in range(5):
            start("%d00000" % phase)
            raised(number)
            ask("SA", "AR", "SA")
            show()
    start("110000")
    raised(1)
    ask("SA", "AR", "SA ")
    happens("keypad off")
    ask("SA")
    happens("alarm off 1")
    ask("SA")
    show()

    section("AR: no access and no phase is asked for, and no other command or event touches an alarm")
    start("200000")
    field("access", 0)
    raised(9, 13)
    ask("AR", "EA")
    start("001110")
    raised(9, 13)
    ask("SB 500", "SA", "ET", "RE BD", "RE PC", "NR 04", "PC 042 9000", "XC 042 2", "EA")
    happens("pulses 7", "still", "keypad on", "keypad off", "power back")
    ask("EA")

    section("The panel raises and clears one alarm: twice, in every phase, and numbers that no alarm has")
    for phase in range(5):
        start("%d00000" % phase)
        happens("alarm on 1", "alarm on 1", "alarm on 19", "alarm off 2", "alarm off 1", "alarm off 1", "alarm off 19")
    for name, before in (("None on", ["= 000000"]), ("All on", EVERY_ALARM_ON)):
        once(name, before)
        for number in (0, 20, 21, 32, 255, 257, 65535):
            happens("alarm on %d" % number, "alarm off %d" % number)

    section("A record with other alarms than the nineteen is not valid")
    start()
    field("alarms", EVERY_ALARM)
    ask("EA")
    field("alarms", EVERY_ALARM + 1)
    ask("EA", "AR", "EQ")
    happens("alarm on 1", "alarm off 1", "power back")
    with_room(183, "write")


# ---- what commands change


def changes():
    section("SB takes the batch number 9999 to 1, and 1 to 2")
    start()
    ask("TN", "SB 500", "TN", "ET", "SB 1", "TN", "ET", "NR 08", "SB 999999", "TN")
    show()

    section("A write that does not land in another recipe's factor")
    start()
    for recipe in range(1, 9):
        ask("PC %03d %d" % (10 * recipe + 2, 9000 + recipe))
    for recipe in range(1, 9):
        ask("NR %02d" % recipe, "RC", "RR")
    for code in sorted(RANGES):
        ask("PV %03d" % code)
        if code > 800:
            ask("XV %03d" % code)
    start()
    ask("PC 042 9000", "RC", "NR 04", "RC", "PV 032")

    section("PC switches changed on exactly if the value differs from the one held; else the flag stays (L2)")
    start()
    ask("PC 032 10012", "EQ", "RS", "PC 032 00010012", "EQ", "PC 032 10013", "EQ", "RS", "PC 032 10013", "EQ", "RS")
    ask("RE PC", "PC 032 10013", "EQ", "PC 032 10012", "EQ")
    note("The value that another recipe holds does not count")
    start()
    ask("PC 042 8000", "EQ", "PC 042 10012", "EQ")
    note("A refused PC leaves the flag, off or on")
    for flags in ("000000", "000100"):
        start(flags)
        ask("PC 032 7999", "PC 807 1", "PC 807 5", "EQ")
    note("The first and last parameters, of a recipe and of the system: at the low end, off and on; then at the high end")
    ends = (11, 13, 81, 83, 801, 808)
    for flags in ("000000", "000100"):
        start(flags)
        ask(*("PC %03d %d" % (code, RANGES[code][0]) for code in ends), "EQ")
    for code in ends:
        ask("RE PC", "PC %03d %d" % (code, RANGES[code][1]))
        show()

    section("A batch from its set-up to its end")
    start()
    ask("SA", "SP", "ET", "SB 500", "SB 500", "SP", "SA", "SA", "ET", "SP", "SP", "SA", "SP", "ET", "ET", "RE BD", "EQ")
    show()

    section("EQ and RS: every phase with every flag")
    for phase in range(5):
        for flags in range(32):
            start("%d%s" % (phase, format(flags, "05b")))
            ask("EQ", "RS")


# ---- the panel

EVENTS = ("pulses 0", "pulses 1", "pulses 65535", "still", "keypad on", "keypad off", "power back", "alarm on 3", "alarm off 3")


def happens(*events):
    for event in events:
        line("panel " + event)


# the bench record with a batch of 500, in each phase
TO_SET = ["= 000000", 'M "01SB 500"']
TO_RUNNING = TO_SET + ['M "01SA"']
TO_STOPPED = TO_RUNNING + ["panel pulses 499", 'M "01SP"']
TO_DONE = TO_RUNNING + ["panel pulses 500"]

EVERY_ALARM_ON = ["= 000000", "set alarms %d" % EVERY_ALARM]


def each_event(name, before):
    """Every event by itself."""
    note(name)
    for event in EVENTS:
        for each in before:
            line(each)
        happens(event)


def once(name, before, *lines):
    note(name)
    for each in before + list(lines):
        line(each)


def panel():
    section("The panel, in every phase")
    each_event("Idle", ["= 000000"])
    each_event("Set", TO_SET)
    each_event("Running", TO_RUNNING)
    each_event("Stopped", TO_STOPPED)
    each_event("Done", TO_DONE)
    each_event("Done with the keypad on", TO_DONE + ["panel keypad on"])
    each_event("Running with the keypad on", TO_RUNNING + ["change 006 9"])

    section("The panel, at the limits")
    once("Running, one below the preset", TO_RUNNING, "panel pulses 499")
    once("Running, the preset exactly", TO_RUNNING, "panel pulses 500")
    once("Running, one above the preset", TO_RUNNING, "panel pulses 501")
    once("Running, the preset in two steps", TO_RUNNING, "panel pulses 499", "panel pulses 1")
    once("Running, preset 0, no pulses; then one", ["= 200000"], "panel pulses 0", "panel pulses 1")
    once("Running, raw above the preset, no pulses; then one", TO_RUNNING, "set raw 501", "panel pulses 0", "panel pulses 1")
    once("Running, raw 99999999", TO_RUNNING, "set raw 99999999", "panel pulses 1")
    once("Running, preset 999999", ["= 000000", 'M "01SB 999999"', 'M "01SA"'], "set raw 99999998", "panel pulses 2")
    once("Set", TO_SET, "set raw 99999998", "panel pulses 1", "panel pulses 1")
    once("Stopped", TO_STOPPED, "set raw 99934465", "panel pulses 65535")
    once("Done", TO_DONE, "set raw 99999999", "panel pulses 65535")
    once("Idle", ["= 000000"], "set raw 99999999", "panel pulses 1")

    section("A record that is not valid comes back from the panel unchanged")
    once("Running, address 0", TO_RUNNING, "set address 0", "?")
    happens(*EVENTS)
    once("Running, raw 100000000", TO_RUNNING, "set raw 100000000", "?")
    happens(*EVENTS)
    once("Done, 032 = 12001", TO_DONE, "set 032 12001", "?")
    happens(*EVENTS)

    section("The panel, a day at the bench")
    start()
    show()
    happens("keypad on")
    ask("SB 500")
    happens("keypad off")
    ask("SB 500")
    show()
    ask("SA")
    show()
    happens("pulses 300", "keypad on", "power back", "pulses 7")
    ask("SA")
    show()
    happens("pulses 192", "pulses 1", "still")
    ask("ET")
    show()


# ---- the stored form


def stored():
    form = form_of(bench())
    old = form_of(bench(), 1)
    section("The bench record, stored; and read back")
    start()
    with_room(183, "write")
    with_room(180, "write")
    line("load" + spaced(form))
    ask("PV 032", "XV 032", "PV 807", "XV 807")

    section("Every value and level read back from its place; no two values are the same")
    line("load" + spaced(form_of(told_apart())))
    for code in sorted(RANGES):
        ask("PV %03d" % code, "XV %03d" % code)

    section("Version 1 is read as no alarms, and written as version 2")
    line("load" + spaced(form_of(bench().but(alarms=EVERY_ALARM), 1)))
    ask("EA", "EQ", "PV 011", "XV 011", "PV 032", "PV 808", "XV 808")
    with_room(180, "write")

    section("Other records, stored")
    line("into 183")
    once("keypad on", ["= 000000"], "panel keypad on", "write")
    once("changed", ["= 000100"], "write")
    once("Running", ["= 000000", 'M "01SB 123456"', 'M "01SA"', "panel pulses 54321"], "write")
    once("the highest raw", [], "set raw 99999999", "write", "set raw 54321")
    once("power back", [], "panel power back", "write")
    once("Set, and Done", ["= 100000"], "write", "= 400000", "write")
    once("every field at its high end", [], "load" + spaced(form_of(highest())), "write", 'M "99EA"')
    once("what AR switches off", ["= 000000"], "set alarms %d" % RESETTABLE, "write")
    once("what lasts", ["= 000000"], "set alarms %d" % (EVERY_ALARM - RESETTABLE), "write")
    once("alarms 1, 12 and 19", ["= 000000"], "set alarms %d" % (alarm(1) | alarm(12) | alarm(19)), "write")
    line("into 64")

    section("Stored forms that are refused; beside the number is the low record")
    once("K1: 179 bytes", ["= 000000"], "load" + spaced(form[:179]), 'M "01PV 032"', 'M "01XV 032"')
    with_room(183, "write")
    once("K1: 181 bytes", ["= 000000"], "load" + spaced(form + b"\xee"), 'M "01PV 032"', 'M "01XV 032"')
    once("K1: no bytes", ["= 000000"], "load", 'M "01PV 032"', 'M "01XV 032"')
    once("K1: 176 and 178 bytes, version 1", ["= 000000"], "load" + spaced(old[:176]), "load" + spaced(old + b"\x00"))
    spoiled("K2: version 3", 0, 3)
    spoiled("K2: version 1 with the length of version 2", 0, 1)
    once("K2, before K3: version 1 and its length field with 180 bytes", [], load_with(form, 0, 1, 0, 177))
    once("K2: version 2 with the length of version 1", [], load_with(old, 0, 2))
    once("K2, before K3: version 2 and its length field with 177 bytes", [], load_with(old, 0, 2, 0, 180))
    once("K3: version 1, length field 180", [], load_with(old, 2, 180))
    once("K4: version 1, address 0", [], load_with(old, 3, 0))
    once("K4: version 1, the last level 4", [], load_with(old, 176, 4))
    spoiled("K3: length field 436", 1, 1)
    spoiled("K3: length field 177", 2, 177)
    spoiled("K4: address 0", 3, 0)
    spoiled("K4: address 100", 3, 100)
    spoiled("K4: access 4", 4, 4)
    spoiled("K4: phase 5", 5, 5)
    spoiled("K4: flag bit 32", 6, 32)
    spoiled("K4: recipe 0", 7, 0)
    spoiled("K4: recipe 9", 7, 9)
    spoiled("K4: the factor of recipe 3 too large", 56, 255)
    spoiled("K4: the last level 4", 179, 4)
    spoiled("All flags, which is read", 6, 31)
    note("The alarms' bits one by one: K4 for the reserved one and the last four")
    for place in (17, 18, 19):
        for bit in range(8):
            line("= 000000")
            line("change %03d %d" % (place, 0x80 >> bit))
    once("K4: the reserved bit beside all alarms", EVERY_ALARM_ON, "change 019 240")
    once("K4: the last bit beside all alarms", EVERY_ALARM_ON, "change 019 113")
    once("All alarms, which is read", EVERY_ALARM_ON, "change 019 112")
    above("K4: preset 1000000", 10, 0x40)
    above("K4: raw 100000255", 13, 0xE1)
    above("K4: batch number 10000", 16, 0x10)
    above("K4: 012 = 12001", 28, 0xE1)
    once("K4: batch number 0", ["load" + spaced(form_of(Record()))], "change 016 0")
    once("K2, before K3 and K4: version, length field and address wrong", [], load_with(form, 0, 3, 1, 1, 0))
    once("K3, before K4: length field and address wrong", [], load_with(form, 1, 1, 1, 0))

    section("Writing that is refused: K5, before K6; the buffer is untouched")
    start()
    with_room(179, "write")
    with_room(177, "write")
    with_room(0, "write")
    field("address", 0)
    with_room(183, "write")
    with_room(179, "write")
    start()
    field("032", 12001)
    with_room(183, "write")


def told_apart():
    """A record in which no two parameters hold the same value."""
    record = bench()
    for place, code in enumerate(sorted(RANGES)):
        low, high = RANGES[code]
        record = record.but_parameter(code, value=low + (7 * place + 5) % (high - low + 1), level=place % 4)
    assert len(set(record.values.values())) == len(RANGES)
    return record


def highest():
    record = Record().but(address=99, access=3, phase="Done", recipe=8, preset=999999, raw=99999999, number=9999)
    record = record.but(keypad=True, flow=True, changed=True, reset=True, powerfail=True, alarms=EVERY_ALARM)
    for code, (_, high) in RANGES.items():
        record = record.but_parameter(code, value=high, level=3)
    return record


def spoiled(name, at, byte):
    """The bench record's form with one byte changed, and the record that reading it gives."""
    once(name, ["= 000000"], "change %03d %d" % (at, byte), 'M "01PV 032"', 'M "01XV 032"')


def above(name, at, byte):
    """The same of the record with every field at its high end."""
    once(name, ["load" + spaced(form_of(highest()))], "change %03d %d" % (at, byte))


def load_with(form, at, *data):
    return "load" + spaced(form[:at] + bytes(data) + form[at + len(data) :])


# ---- the host side


def built(name, text, room=70):
    """Of either kind, in a buffer of a size."""
    note(name)
    line("into %d" % room)
    for kind in "MT":
        line("build %s %s" % (kind, '"%s"' % text if isinstance(text, str) else spaced(text)[1:]))


def enclosed(name, text, claimed, size=70):
    """The text stands in the buffer from the second byte on; so many bytes of it are claimed."""
    note(name)
    for kind in "MT":
        line("enclose %03d %s%s" % (claimed, kind, spaced((b"\xee" + text + b"\xee" * size)[:size])))


def tried(name, kind, frame):
    note(name)
    line("read " + kind + spaced(frame))


def host():
    sixty = SIXTY.decode()
    section("Frames of the texts in 01's examples")
    for text in ("EQ", "RC", "PC 807 5", "PC 032 10150", "PV 032", "SB 500", "TN", "SA", "RS"):
        both("01" + text)
    for text in ("000000", "RC 03 00010012", "NO07", "OK", "PV 032 00010150"):
        both("01" + text)
    for text in ("000800", "TN 0001", "120800", "5:0800", "RS BD PC TP RL "):
        both("01" + text)

    section("Building frames")
    built("the check equals STX", "01000000")
    built("a text of no bytes", "")
    built("a text of 3 bytes", "01E")
    built("a text of 4 bytes", "01EQ")
    built("a text of 60 bytes", sixty)
    built("a text of 61 bytes", sixty + "5")
    built("byte 1f", b"01EQ\x1f")
    built("byte 20", "01EQ ")
    built("byte 7e", "01EQ~")
    built("byte 7f", b"01EQ\x7f")
    built("byte ff", b"01EQ\xff")
    built("first byte 1f", b"\x1f1EQ")
    built("ETX in the text", b"01E\x03Q")
    built("H2, before H3: a text of 3 bytes with 1f", b"01\x1f")
    built("an address that S7 refuses", "0AEQ")
    built("a code that S7 refuses", "01Eq")
    built("a buffer of 0", "01EQ", 0)
    built("a buffer of 63", "01EQ", 63)
    built("a buffer of 64", "01EQ", 64)
    built("H1, before H2: a buffer of 63, a text of 3 bytes", "01E", 63)
    built("a buffer of 64, a text of 60 bytes", sixty, 64)

    section("Building frames in place: the buffer before and afterwards")
    enclosed("the check equals STX", b"01000000", 8)
    enclosed("3 bytes", b"01EQ", 3)
    enclosed("4 bytes of a longer text", b"01EQ  ", 4)
    enclosed("60 bytes", SIXTY, 60)
    enclosed("61 bytes", SIXTY + b"5", 61)
    enclosed("more bytes than there are", SIXTY, 999)
    enclosed("a byte behind the text", b"01EQ", 5)
    enclosed("a buffer of 63", b"01EQ", 4, 63)
    enclosed("a buffer of 64", SIXTY, 60, 64)
    reading()


def both(text):
    for kind in "MT":
        line('build %s "%s"' % (kind, text))


def reading():
    section("Reading frames")
    line("into 70")
    # the frames stand here as bytes, so that a wrong one shows in what is read from it
    tried("the check equals STX", "M", b"\x0201000000\x03\x02\x7f")
    tried("the check equals ETX", "M", b"\x0201RS\x03\x03\x7f")
    tried("8 bytes", "M", b"\x0201EQ\x03\x16\x7f")
    tried("7 bytes", "T", b"*01EQ\r\n")
    tried("no bytes", "M", b"")
    tried("no bytes", "T", b"")
    tried("7 bytes", "M", b"\x0201E\x03\x47\x7f")
    tried("6 bytes", "T", b"*01E\r\n")
    tried("64 bytes", "M", b"\x02" + SIXTY + b"\x03\x11\x7f")
    tried("65 bytes", "M", b"\x02" + SIXTY + b"5\x03\x24\x7f")
    tried("63 bytes", "T", b"*" + SIXTY + b"\r\n")
    tried("64 bytes", "T", b"*" + SIXTY + b"5\r\n")
    tried("ETX in the text", "M", b"\x0201E\x03Q\x03\x15\x7f")
    tried("ETX in the text", "T", b"*01E\x03Q\r\n")
    tried("first byte 03", "M", b"\x0301EQ\x03\x16\x7f")
    tried("first byte 2a", "M", b"*01EQ\x03\x16\x7f")
    tried("no ETX", "M", b"\x0201EQ\x02\x16\x7f")
    tried("no PAD", "M", b"\x0201EQ\x03\x16\x7e")
    tried("first byte 02", "T", b"\x0201EQ\r\n")
    tried("first byte 2b", "T", b"+01EQ\r\n")
    tried("no CR", "T", b"*01EQ\x13\n")
    tried("no LF", "T", b"*01EQ\r\x10")
    tried("LF and CR", "T", b"*01EQ\n\r")
    tried("a frame of the other kind", "M", b"*01EQ  \r\n")
    tried("a frame of the other kind", "T", b"\x0201EQ\x03\x16\x7f")
    tried("wrong check", "M", b"\x0201EQ\x03\x17\x7f")
    tried("check without ETX", "M", b"\x0201EQ\x03\x15\x7f")
    tried("wrong check and wrong mark", "M", b"\x0201EQ\x03\x17\x7e")
    tried("wrong check and byte 1f", "M", b"\x0201EQ\x1f\x03\x16\x7f")
    tried("byte 1f", "M", b"\x0201EQ\x1f\x03\x09\x7f")
    tried("byte 1f", "T", b"*01EQ\x1f\r\n")
    tried("byte 7f", "M", b"\x0201EQ\x7f\x03\x69\x7f")
    tried("byte 7f", "T", b"*01EQ\x7f\r\n")
    tried("byte 20", "M", b"\x0201EQ \x03\x36\x7f")
    tried("byte 7e", "T", b"*01EQ~\r\n")
    tried("address 0A", "M", b"\x020AEQ\x03\x66\x7f")
    tried("address 0A", "T", b"*0AEQ\r\n")
    tried("code Eq", "M", b"\x0201Eq\x03\x36\x7f")
    tried("code Eq", "T", b"*01Eq\r\n")
    tried("address :0", "T", b"*:0EQ\r\n")
    tried("code E[", "T", b"*01E[\r\n")
    tried("code @Q", "T", b"*01@Q\r\n")
    tried("address 00", "T", b"*00AZ\r\n")
    tried("address 99", "T", b"*99ZA\r\n")
    line("into 63")
    tried("a buffer of 63", "M", b"\x0201EQ\x03\x16\x7f")
    tried("a buffer of 63", "T", b"*01EQ\r\n")
    tried("H1, before S3: a buffer of 63, no bytes", "T", b"")
    line("into 64")
    tried("a buffer of 64", "M", b"\x0201EQ\x03\x16\x7f")
    tried("a buffer of 64", "T", b"*01EQ\r\n")


def lines():
    """All lines of the input."""
    LINES.clear()
    for text in LEGEND.splitlines():
        note(text)
    for part in (worked, silences, forms, values, states, alarms, changes, panel, stored, host):
        part()
    return list(LINES)
