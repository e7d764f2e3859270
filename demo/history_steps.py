"""The steps at a meter with a history: records on the line, what each master makes of them, and what is closed."""
import re
import time

from masters import Mbpoll, ReadRecord, send_raw, with_check
from played_meter import UNCHANGED, StandingHistory, at_new_line, refused


def record_of(word):
    """A record of the meter whose history stands still."""
    return " ".join(ReadRecord.words * [word])


def reply_with(word):
    """The bytes of a reply with that record."""
    return with_check(f"01 03 2C {record_of(word)}").hex(" ").upper()


NEWEST, MIDDLE, OLDEST = StandingHistory.STORED
LENGTH = "Message length not corresponding to the computed length (49 != 7)"
NOT_DECODED = "Modbus Error: [Input/Output] No Response received from the remote unit/Unable to decode response, at once"
ONE_AT_A_TIME = "error 03 at 9600: a history record is read one at a time, with a count of 1; the frame has a count of {}" + UNCHANGED


def steps_of_raw_records(meter):
    """What is on the line, which no master's opinion changes."""
    return [
        ("raw: the newest record", lambda: send_raw(meter.link, with_check("01 03 04 00 00 01")), reply_with(NEWEST)),
        (".. the meter's screen shows the record", meter.last_line, f"record 1 of 3, the newest: {record_of(NEWEST)}"),
        ("raw: the record before it", lambda: send_raw(meter.link, with_check("01 03 04 01 00 01")), reply_with(MIDDLE)),
        ("raw: the oldest record", lambda: send_raw(meter.link, with_check("01 03 04 02 00 01")), reply_with(OLDEST)),
        (".. the meter's screen shows the record", meter.last_line, f"record 3 of 3: {record_of(OLDEST)}"),
        ("raw: one record beyond", lambda: send_raw(meter.link, with_check("01 03 04 03 00 01")), with_check("01 83 02").hex(" ").upper()),
        ("raw: two records", lambda: send_raw(meter.link, with_check("01 03 04 00 00 02")), with_check("01 83 03").hex(" ").upper()),
    ]


def steps_of_mbpoll_records(master, _):
    """mbpoll holds a reply to the count that was asked for, and shows no record. With -v it shows the bytes that it drops."""
    return [
        ("0400, of which mbpoll shows nothing", lambda: master.read(0x0400, 1), "invalid data"),
        (".. the record's bytes as they came to it", lambda: master.bytes_read(0x0400), f"{reply_with(NEWEST)}; {LENGTH}"),
        ("0402, of which mbpoll shows nothing", lambda: master.read(0x0402, 1), "invalid data"),
        (".. the record's bytes as they came to it", lambda: master.bytes_read(0x0402), f"{reply_with(OLDEST)}; {LENGTH}"),
        (".. the next read is as ever", lambda: master.read(0x0107, 2), "0001 0001"),
    ]


def steps_of_pymodbus_records(master, _):
    """pymodbus takes as many bytes off the line as the count that is asked for has, and shows no record, unless it is told how many come. The rest is
    there already, as a pseudo-terminal has it, and pymodbus throws it away ahead of the next frame; at the pace of a wire it would still be coming."""
    return [
        ("0400 by a plain read, which pymodbus cannot decode", lambda: master.read_record_plainly(0x0400), NOT_DECODED),
        (".. the next read is as ever", lambda: master.read(0x0107, 2), "0001 0001"),
        ("the newest record, with its length", lambda: master.read_record(0x0400), record_of(NEWEST)),
        ("the oldest record, with its length", lambda: master.read_record(0x0402), record_of(OLDEST)),
        ("one record beyond, with its length", lambda: master.read_record(0x0403), "error 2"),
    ]


def steps_of_closed_records(master, meter):
    return [
        *refused(meter, "one record beyond what is stored", lambda: master.read(0x0403, 1), "error 2",
                 "error 02 at 9600: record 4 is asked for, at 0403; 3 are stored" + UNCHANGED),
        *refused(meter, "the last record that there is room for", lambda: master.read(0x1DC7, 1), "error 2",
                 "error 02 at 9600: record 6600 is asked for, at 1DC7; 3 are stored" + UNCHANGED),
        *refused(meter, "two records", lambda: master.read(0x0400, 2), "error 3", ONE_AT_A_TIME.format(2)),
        *refused(meter, "a record by the number of its words", lambda: master.read(0x0400, 22), "error 3", ONE_AT_A_TIME.format(22)),
        *refused(meter, "48 records, more than a read can have elsewhere", lambda: master.read(0x0400, 48), "error 3", ONE_AT_A_TIME.format(48)),
        *refused(meter, "two records beyond what is stored", lambda: master.read(0x0500, 2), "error 3", ONE_AT_A_TIME.format(2)),
        *refused(meter, "a run from outside into the records", lambda: master.read(0x03FF, 2), "error 2",
                 "error 02 at 9600: the run comes from outside and reaches the history at 0400, whose records are read one at a time; "
                 "the frame is for 2 registers from 03FF on" + UNCHANGED),
        ("the five registers in front of the history", lambda: f"{len(master.read(0x03FB, 5).split())} words", "5 words"),
        *refused(meter, "a write of a record", lambda: master.write(0x0400, 0x0001), "error 2",
                 "error 02 at 9600: 0400 is a history record, which can only be read" + UNCHANGED),
        *refused(meter, "a write of two records", lambda: master.write(0x0401, 0x0001, 0x0001), "error 2",
                 "error 02 at 9600: 0401 is a history record, which can only be read; the frame is for 2 registers from 0401 on" + UNCHANGED),
        *refused(meter, "a clear of a record", lambda: master.clear(0x0400, 0), "error 2",
                 "error 02 at 9600: a clear goes to 0300; this one is for 0400" + UNCHANGED),
        (".. raw: the newest record is as it was", lambda: send_raw(meter.link, with_check("01 03 04 00 00 01")), reply_with(NEWEST)),
    ]


def steps_of_history(master, meter):
    own = steps_of_mbpoll_records if isinstance(master, Mbpoll) else steps_of_pymodbus_records
    return [*steps_of_raw_records(meter), *own(master, meter), *steps_of_closed_records(master, meter)]


def judge_record(said, kept):
    """A record that the meter has made: the one that its file has, of this year, and with what the simulated flow can be; or the words themselves."""
    if said != kept or not re.fullmatch(r"([0-9A-F]{4} ?){22}", said):
        return f"{said}; the file has {kept}"
    record = [int(word, 16) for word in said.split()]
    flow, pressure, temperature, volume = (record[k] << 16 | record[k + 1] for k in (0, 2, 4, 6))
    day = f"{record[13]}-{record[14] >> 8:02}-{record[14] & 0xFF:02}"
    of_today = day in (time.strftime("%Y-%m-%d", time.localtime(time.time() - ago)) for ago in (0, 3600))
    sound = 200 <= flow <= 800 and pressure == 20130 and 1500 <= temperature <= 1800 and volume >= 123456 and of_today
    return "a record of today, as the file has it" if sound else said


def steps_of_growing(master, meter):
    """The records that the meter makes itself, before and after it is switched off."""
    made = "a record of today, as the file has it"
    oldest = []

    def judged(number):
        return judge_record(master.read_record(0x0400 + number - 1), meter.records()[number - 1])

    def oldest_before():
        oldest.append(meter.records()[-1])
        return judged(len(meter.records()))

    def oldest_after():
        said = master.read_record(0x0400 + len(meter.records()) - 1)
        return "the same" if said in oldest else said

    return [
        ("the newest record where none is stored", lambda: master.read(0x0400, 1), "error 2"),
        ("the newest record, once there are two", lambda: meter.with_records(2, lambda: judged(1)), made),
        ("the oldest record", oldest_before, made),
        ("the meter is switched off and on", meter.switch_off_and_on, "status 0, link gone"),
        (".. the oldest record is there still", lambda: at_new_line(master, meter, oldest_after), "the same"),
        ("the newest record, once there are two more", lambda: meter.with_records(len(meter.records()) + 2, lambda: judged(1)), made),
    ]
