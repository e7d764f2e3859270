"""The steps at an AS-WE, bore 40, whose presets are written and never read: by 06 and by 10, at the ends of their ranges, whole pairs and halves. What was
written is looked for where the meter keeps its bank.

Each step with "preset" in its text must fail at a meter that reads presets out, or at one that takes none."""
from masters import send_raw, with_check
from played_meter import UNCHANGED, at_new_line, refused

FIRST, LAST = 0x0118, 0x011E
PLACE = 20    # of 0118 in the bank
NOT_READ = "can be written but not read"
NOT_BACK = "; it cannot be read back"
NAMES = {0x0118: "Preset volume upper digit", 0x0119: "Preset volume middle digits", 0x011A: "Preset volume lower digits", 0x011B: "Preset second volume"}
RANGES = {0x0118: "0 to 9 (0 to 90000000 m3)", 0x0119: "0 to 9999 (0 to 9999000 m3)", 0x011A: "0 to 9999 (0.0 to 999.9 m3)"}
FRESH = " ".join(7 * ["0000"])


def in_bank(meter, expected, text="is in the bank"):
    """All seven words, in both copies that the meter keeps."""
    return (f".. the preset {text}", lambda: meter.kept_words(PLACE, LAST - FIRST + 1), expected)


def on_screen(meter, *lines):
    return (".. the meter's screen shows the preset", lambda: " / ".join(meter.last_lines(len(lines))), " / ".join(lines))


def too_high(master, meter, address, value, would_be):
    """The first value behind a range of plain digits, by 06."""
    return refused(meter, f"{address:04X} = {value:04X}, a preset that is too high", lambda: master.write(address, value), "error 3",
                   f"error 03 at 9600: the item at {address:04X}, {NAMES[address]}, would be too high: it takes {RANGES[address]}, "
                   f"this would be {would_be}{UNCHANGED}")


def steps_of_digits(master, meter):
    return [
        ("0118 = 0002, a preset", lambda: master.write(0x0118, 0x0002), "done"),
        on_screen(meter, f"0118 {NAMES[0x0118]}: 20000000 m3, it was 0 m3{NOT_BACK}"),
        in_bank(meter, f"0002 {FRESH[5:]}"),
        ("0118 = 0009, a preset at its highest", lambda: master.write(0x0118, 0x0009), "done"),
        *too_high(master, meter, 0x0118, 0x000A, "10 (100000000 m3)"),
        ("0119 = 270F, a preset at its highest", lambda: master.write(0x0119, 0x270F), "done"),
        *too_high(master, meter, 0x0119, 0x2710, "10000 (10000000 m3)"),
        ("011A = 270F, a preset at its highest", lambda: master.write(0x011A, 0x270F), "done"),
        *too_high(master, meter, 0x011A, 0x2710, "10000 (1000.0 m3)"),
        in_bank(meter, "0009 270F 270F 0000 0000 0000 0000"),
        ("raw: 0118 = 0004 by 10, a preset", lambda: send_raw(meter.link, with_check("01 10 01 18 00 01 02 00 04")),
         with_check("01 10 01 18 00 01").hex(" ").upper()),
        in_bank(meter, "0004 270F 270F 0000 0000 0000 0000"),
        ("0118 = 0001 0929 1A85, three presets", lambda: master.write(0x0118, 0x0001, 0x0929, 0x1A85), "done"),
        on_screen(meter, f"0118 {NAMES[0x0118]}: 10000000 m3, it was 40000000 m3{NOT_BACK}",
                  f"0119 {NAMES[0x0119]}: 2345000 m3, it was 9999000 m3{NOT_BACK}", f"011A {NAMES[0x011A]}: 678.9 m3, it was 999.9 m3{NOT_BACK}"),
        in_bank(meter, "0001 0929 1A85 0000 0000 0000 0000"),
        ("0118 = 0003 2710 0005, three presets, the second is bad", lambda: master.write(0x0118, 0x0003, 0x2710, 0x0005), "error 3"),
        in_bank(meter, "0003 0929 1A85 0000 0000 0000 0000", "in front of the bad one is in the bank, no more"),
    ]


def steps_of_pairs(master, meter):
    return [
        ("011B = FFFF FFFE, a preset of two words", lambda: master.write(0x011B, 0xFFFF, 0xFFFE), "done"),
        ("011D = 8000 0001, a preset of two words", lambda: master.write(0x011D, 0x8000, 0x0001), "done"),
        in_bank(meter, "0003 0929 1A85 FFFF FFFE 8000 0001"),
        ("011B = 0001, a preset's upper half", lambda: master.write(0x011B, 0x0001), "done"),
        on_screen(meter, f"011B {NAMES[0x011B]}: 13107.0 m3, it was 429496729.4 m3{NOT_BACK}"),
        ("011C = FFFF, a preset's lower half", lambda: master.write(0x011C, 0xFFFF), "done"),
        in_bank(meter, "0003 0929 1A85 0001 FFFF 8000 0001"),
        ("011C = 1234 5678, a preset's lower half and the next one's upper", lambda: master.write(0x011C, 0x1234, 0x5678), "done"),
        in_bank(meter, "0003 0929 1A85 0001 1234 5678 0001"),
        ("all seven words of the presets", lambda: master.write(FIRST, 0x0009, 0x270F, 0x270F, 0xFFFF, 0xFFFF, 0xFFFF, 0xFFFF), "done"),
        in_bank(meter, "0009 270F 270F FFFF FFFF FFFF FFFF"),
    ]


def steps_of_reading_back(master, meter):
    def each():
        return " ".join(master.read(address, 1) for address in range(FIRST, LAST + 1))

    return [
        *refused(meter, "a read of a preset", lambda: master.read(FIRST, 1), "error 2",
                 f"error 02 at 9600: 0118, {NAMES[0x0118]}, {NOT_READ}{UNCHANGED}"),
        *refused(meter, "a read of all presets", lambda: master.read(FIRST, 7), "error 2",
                 f"error 02 at 9600: 0118, {NAMES[0x0118]}, {NOT_READ}; the frame is for 7 registers from 0118 on{UNCHANGED}"),
        *refused(meter, "a read of a preset of two words", lambda: master.read(0x011B, 2), "error 2",
                 f"error 02 at 9600: 011B, {NAMES[0x011B]}, {NOT_READ}; the frame is for 2 registers from 011B on{UNCHANGED}"),
        ("a read of each word of the presets", each, " ".join(7 * ["error 2"])),
        ("raw: a read of a preset", lambda: send_raw(meter.link, with_check("01 03 01 18 00 01")), with_check("01 83 02").hex(" ").upper()),
        ("the settings in front of them", lambda: master.read(0x0115, 2), "0000 0001"),
        ("the settings behind them", lambda: master.read(0x0123, 2), "FF9C 0000"),
    ]


def steps_of_gaps(master, meter):
    """Runs that come from or go to addresses at which this meter has nothing."""
    def none_at(address, count, start):
        return f"error 02 at 9600: this meter has no register at {address:04X}; the frame is for {count} registers from {start:04X} on{UNCHANGED}"

    return [
        *refused(meter, "a read from 0116 on", lambda: master.read(0x0116, 3), "error 2", none_at(0x0117, 3, 0x0116)),
        *refused(meter, "a write from 0116 on", lambda: master.write(0x0116, 2, 2, 2), "error 2", none_at(0x0117, 3, 0x0116)),
        *refused(meter, "a write up to 011F", lambda: master.write(0x011E, 2, 2), "error 2", none_at(0x011F, 2, 0x011E)),
        in_bank(meter, "0009 270F 270F FFFF FFFF FFFF FFFF", "is in the bank still"),
    ]


def steps_of_presets(master, meter):
    return [
        *steps_of_digits(master, meter), *steps_of_pairs(master, meter), *steps_of_reading_back(master, meter), *steps_of_gaps(master, meter),
        ("the meter is switched off and on", meter.switch_off_and_on, "status 0, link gone"),
        (".. a preset is not read then either", lambda: at_new_line(master, meter, lambda: master.read(FIRST, 1)), "error 2"),
        ("0118 = 0009, the preset that it has", lambda: master.write(0x0118, 0x0009), "done"),
        on_screen(meter, f"0118 {NAMES[0x0118]}: 90000000 m3, as it was{NOT_BACK}"),
    ]
