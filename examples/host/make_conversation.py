#!/usr/bin/env python3
"""Writes a conversation to standard output: what two base stations send, cut into pieces as a connection would, and what befalls the
host meanwhile. make_conversation.py [conversation | day | limits]: conversation.txt; day.txt, a day on which nothing of the host's own
comes between; tests/host/limits.txt, what a replay of the trace prints otherwise than it was."""
import struct
import sys

METERS = [0x70B3D50000000001, 0x70B3D50000000002, 0x70B3D50000000003]
STRANGER = 0x70B3D500000000FF
SUCCESSOR = 0x70B3D50000000004
STATIONS = [0x70B3D5FFFE00A000, 0x70B3D5FFFE00A001]
held = {0: b"", 1: b""}  # bytes of the last frame that come with the next piece
cuts = iter([0, 7, 1, 13, 0, 30, 2, 11, 5] * 20)


def whole(n):
    if -32 <= n < 128:
        return struct.pack(">b", n)
    forms = ((0xCC, ">B"), (0xCD, ">H"), (0xCE, ">I"), (0xCF, ">Q")) if n >= 0 else ((0xD0, ">b"), (0xD1, ">h"), (0xD3, ">q"))
    for lead, form in forms:
        try:
            return bytes([lead]) + struct.pack(form, n)
        except struct.error:
            pass


def element(value):
    if isinstance(value, bool):
        return b"\xC3" if value else b"\xC2"
    if isinstance(value, int):
        return whole(value)
    if isinstance(value, float):
        return b"\xCB" + struct.pack(">d", value)
    if isinstance(value, str):
        return bytes([0xA0 + len(value)]) + value.encode()
    if isinstance(value, bytes):
        value = list(value)
    if isinstance(value, dict):
        return bytes([0x80 + len(value)]) + b"".join(element(k) + element(v) for k, v in value.items())
    head = bytes([0x90 + len(value)]) if len(value) < 16 else b"\xDC" + struct.pack(">H", len(value))
    return head + b"".join(map(element, value))


def frame(payload):
    return b"MIOTYB01" + struct.pack("<I", len(payload)) + payload


def remark(text):
    print(f"# {text}")


def send(station, frames, cut=None):
    data = held[station] + frames
    keep = next(cuts) if cut is None else cut
    held[station] = data[len(data) - keep:]
    print(f"{station} bytes {data[:len(data) - keep].hex().upper()}")


def say(station, command, op_id, cut=None, **fields):
    remark(f"station {station}: {command} {op_id}")
    send(station, frame(element({"command": command, "opId": op_id, **fields})), cut)


def con(station, uuid, cut=None, **further):
    say(station, "con", 0, cut, version="1.0.2", bsEui=STATIONS[station], bidi=True, snBsUuid=bytes([uuid] * 16), **further)


def heard(station, op_id, meter, counter, cut=None, window=False, ack=False, **further):
    # station 1 is of another maker, which sends whole numbers as integers
    say(station, "ulData", op_id, cut, epEui=meter, rxTime=1700000000000000000 + counter, packetCnt=counter, snr=12.5, rssi=[-97.0, -97][station],
        userData=bytes([0x2F, counter & 255, 200]), dlOpen=window, responseExp=False, dlAck=ack, **further)


def lost(station):
    held[station] = b""
    print(f"{station} lost")


def begin(station, what):
    print(f"{station} begin {what}")


def shut(station, meter, que_id):
    print(f"{station} shut {meter:016X} {que_id}")


def cancel(station, que_id):
    print(f"{station} cancel {que_id}")


def fail(commit=1):
    print(f"fail {commit}")


def full():
    print("full")


def restart():
    held.update({0: b"", 1: b""})
    print("restart")


def come_back(station, uuid, known, issued):
    con(station, uuid, cut=0, snBsOpId=known, snScOpId=issued)
    say(station, "conCmp", 0, cut=0)


def leaves(station, op_id, **further):
    say(station, "det", op_id, epEui=METERS[2], rxTime=1700000000000000999, packetCnt=302, snr=9.0, rssi=-101.5, sign=b"\x01\x02\x03\x04",
        **further)


def connect():
    remark("Two stations connect; one tells of itself in fields that are not kept.")
    con(0, 0xA0, vendor="Example", info={"bsEui": 1, "floors": [1, 2, 3]})
    con(1, 0xA1, geoLocation=[52.5, 13.25, 34])
    say(0, "conCmp", 0)
    say(1, "conCmp", 0)
    say(0, "ping", 1)
    say(1, "ping", 1)
    say(0, "pingCmp", 1)
    say(1, "pingCmp", 1)


def readings():
    remark("Three meters, heard by both stations: the first to tell is billed, the second is a copy.")
    for place, meter in enumerate(METERS):
        heard(0, 2 + place, meter, 101 + 100 * place)
        heard(1, 2 + place, meter, 101 + 100 * place, eqSnr=11.0, profile="eu1")
    for op_id in (2, 3, 4):
        say(0, "ulDataCmp", op_id)
        say(1, "ulDataCmp", op_id)
    remark("A newer packet, then the older one again: it goes to the list of late packets. Then a meter of another house.")
    heard(0, 5, METERS[0], 102, cut=0)
    heard(1, 5, METERS[0], 101)
    heard(1, 6, STRANGER, 9)
    remark("The same operation ID once more, in a connection that did not resume: out of order, so nothing is credited.")
    heard(0, 5, METERS[1], 202)


def operations():
    remark("A meter leaves; the centre asks for a status, pings, and tells the other station.")
    leaves(0, 6)
    say(0, "detCmp", 6)
    begin(0, "status")
    begin(0, "ping")
    begin(1, f"detPrp {METERS[2]:016X}")
    say(0, "pingRsp", -2)
    say(0, "statusRsp", -1, code=0, message="ok", time=1700000000000001000, dutyCycle=0.25, uptime=86400, temp=31.5)
    say(1, "detPrpRsp", -1, cut=0)
    remark("An answer to nothing.")
    say(1, "pingRsp", -7, cut=0)


def lose_and_resume():
    remark("Station 0 is lost inside a frame, comes back and resumes; its IDs go on. A centre can't start anything meanwhile.")
    heard(0, 7, METERS[1], 202, cut=20)
    lost(0)
    begin(0, "ping")
    con(0, 0xA0, snBsOpId=6, snScOpId=-2)
    say(0, "conCmp", 0)
    heard(0, 7, METERS[1], 202)
    say(0, "ulDataCmp", 7, cut=0)
    remark("Station 1 is lost and comes back with another session UUID: it begins anew, its IDs too.")
    lost(1)
    con(1, 0xB1, snBsOpId=6)
    say(1, "conCmp", 0)
    heard(1, 1, METERS[1], 202)
    say(1, "ulDataCmp", 1, cut=0)


def not_stored():
    remark("A commit fails: nothing is answered, and the connection is closed. The station resumes, sends again, and is billed.")
    fail()
    heard(0, 8, METERS[0], 103, cut=0)
    come_back(0, 0xA0, 7, -2)
    heard(0, 8, METERS[0], 103, cut=0)
    say(0, "ulDataCmp", 8, cut=0)
    remark("The same where the centre starts something: its ID is not used up. Then it works.")
    fail()
    begin(0, "ping")
    come_back(0, 0xA0, 8, -2)
    begin(0, "ping")


def restarted():
    remark("The host ends behind the commit of ulData 9, its reply and the ping on their way, and starts again. Station 0 resumes and")
    remark("sends ulData 9 again: its ID is known, so it is answered from outside the session, and the table knows it for a copy.")
    remark("The centre sends its ping again.")
    heard(0, 9, METERS[1], 203, cut=0)
    restart()
    come_back(0, 0xA0, 8, -2)
    heard(0, 9, METERS[1], 203, cut=0)
    say(0, "pingRsp", -3, cut=0)
    say(0, "ulDataCmp", 9, cut=0)
    come_back(1, 0xB1, 1, 0)


def lost_cmp():
    remark("The Cmp of ulData 10 is lost with the connection. After the resume det 11 comes again and ulData 12 is new: so 10 is")
    remark("complete, and 11 is not yet.")
    heard(0, 10, METERS[0], 104, cut=0)
    leaves(0, 11, cut=0)
    lost(0)
    come_back(0, 0xA0, 10, -3)
    leaves(0, 11, cut=0)
    heard(0, 12, METERS[0], 105, cut=0)
    say(0, "detCmp", 11, cut=0)
    say(0, "ulDataCmp", 12, cut=0)


def known_but_not_credited():
    remark("ulData 13 comes damaged and is dropped, ulData 14 of another meter is credited. After a resume 13 comes again, whole: its ID")
    remark("is known, but the table has not seen its packet, so it is billed.")
    send(0, frame(element({"command": "ulData", "opId": 13})), 0)
    heard(0, 14, METERS[1], 204, cut=0)
    lost(0)
    come_back(0, 0xA0, 14, -3)
    heard(0, 13, METERS[0], 106, cut=0)
    say(0, "ulDataCmp", 13, cut=0)


def sixteen_open():
    remark("Fifteen pings and a reading that the station does not complete, then one reading more: the connection is closed at once. The")
    remark("station has the sixteen answers, so after the resume it sends the last reading alone, and the sixteen places are free again.")
    pings = [frame(element({"command": "ping", "opId": 15 + i})) for i in range(15)]
    send(0, b"".join(pings), 0)
    heard(0, 30, METERS[0], 107, cut=0)
    heard(0, 31, METERS[1], 205, cut=0)
    come_back(0, 0xA0, 30, -3)
    heard(0, 31, METERS[1], 205, cut=0)


def con_while_open():
    remark("The station connects anew before the host knows that the old connection is dead: its con is refused, the connection is")
    remark("closed, and its next con resumes.")
    con(0, 0xA0, cut=0, snBsOpId=31, snScOpId=-3)
    come_back(0, 0xA0, 31, -3)
    say(0, "ulDataCmp", 31, cut=0)


def replaced():
    remark("Meter 2 is replaced: its successor has another EUI and was billed up to packet 11 elsewhere. A packet of the old one is a")
    remark("stranger's now.")
    print(f"withdraw {METERS[1]:016X}")
    print(f"meter {SUCCESSOR:016X} 1A2B 11")
    heard(0, 32, SUCCESSOR, 11, cut=0)
    heard(0, 33, SUCCESSOR, 12, cut=0)
    heard(0, 34, METERS[1], 206, cut=0)


def damage():
    ping = element({"command": "ping", "opId": 2})
    remark("Damaged payloads in whole frames: each costs one message.")
    for what, payload in [
        ("cut", ping[:-1]), ("never used", b"\xC1"), ("too deep", b"\x81\xA1x" + b"\x91" * 8 + b"\x90"),
        ("too many elements", b"\x81\xA1x\xDC\x04\x00" + b"\xC0" * 1024), ("key not text", b"\x81\x01\x01"), ("outer not a map", b"\x90"),
        ("left over", ping + b"\x00"), ("no command", b"\x80"), ("unknown command", element({"command": "pong", "opId": 2})),
        ("key twice", b"\x83" + ping[1:] + element("opId") + b"\x03"), ("field missing", element({"command": "ping"})),
        ("invalid", element({"command": "ping", "opId": "2"})),
    ]:
        remark(what)
        send(1, frame(payload), 3)
    remark("The connection still works.")
    say(1, "ping", 2, cut=0)
    remark("A wrong identifier: the stream is lost, and all that comes with it. The station comes back and resumes.")
    send(1, b"MIOTYB02" + frame(ping)[8:] + frame(ping), 0)
    con(1, 0xB1, snBsOpId=2, snScOpId=0)
    say(1, "conCmp", 0)
    say(1, "pingCmp", 2, cut=0)
    remark("A frame of a size that no frame has, then a station of another version.")
    send(1, b"MIOTYB01\x00\x00\x00\x00", 0)
    say(1, "con", 0, cut=0, version="2.0.0", bsEui=STATIONS[1], bidi=True, snBsUuid=bytes([0xB1] * 16))


def valve_shut():
    remark("Shut the valve of meter 1. The command waits at station 0; the first reading opens no window, the second one does. The station")
    remark("takes it, and with its next reading the meter says that it heard it.")
    for op_id in (32, 33, 34):
        say(0, "ulDataCmp", op_id, cut=0)
    shut(0, METERS[0], 1)
    heard(0, 35, METERS[0], 108, cut=0)
    say(0, "ulDataCmp", 35, cut=0)
    heard(0, 36, METERS[0], 109, cut=0, window=True)
    say(0, "ulDataCmp", 36, cut=0)
    say(0, "dlDataQueRsp", -4, cut=0)
    heard(0, 37, METERS[0], 110, cut=0, window=True, ack=True)
    say(0, "ulDataCmp", 37, cut=0)
    remark("An ID that waits already, one that is cancelled, and one that is not there.")
    shut(0, METERS[2], 2)
    shut(0, METERS[0], 2)
    shut(0, METERS[0], 3)
    cancel(0, 3)
    cancel(0, 3)


def valve_and_lost():
    remark("Meter 3 opens a window, and station 0 is lost before its Rsp: the downlink is open in the stored session. After the resume it is")
    remark("sent again, under the ID that it had.")
    heard(0, 38, METERS[2], 303, cut=0, window=True)
    say(0, "ulDataCmp", 38, cut=0)
    lost(0)
    come_back(0, 0xA0, 38, -5)
    say(0, "dlDataQueRsp", -5, cut=0)
    remark("The same at station 1, which comes back with another session UUID: there the downlink is open no more, and is started again.")
    come_back(1, 0xB1, 2, 0)
    shut(1, SUCCESSOR, 4)
    heard(1, 3, SUCCESSOR, 13, cut=0, window=True)
    lost(1)
    con(1, 0xC1, cut=0)
    say(1, "conCmp", 0, cut=0)
    say(1, "dlDataQueRsp", -1, cut=0)


def valve_and_store():
    remark("The second commit from here fails: the one in which a downlink is chosen and started. It waits again, and the connection is closed.")
    shut(1, SUCCESSOR, 5)
    fail(2)
    heard(1, 1, SUCCESSOR, 14, cut=0, window=True)
    come_back(1, 0xC1, 1, -1)
    remark("The host ends and starts again: the queue comes from the store. The next window has what waits; one for another meter still waits.")
    shut(1, METERS[0], 6)
    restart()
    come_back(1, 0xC1, 1, -1)
    heard(1, 2, SUCCESSOR, 15, cut=0, window=True)
    say(1, "dlDataQueRsp", -2, cut=0)
    remark("What is stored of a queue is damaged while the host is down: it is asked when it is loaded, and starts empty.")
    print("2 damage")
    restart()


def all_completed():
    remark("A meter leaves. Then nothing is open at either station.")
    leaves(0, 6)
    say(0, "ulDataCmp", 5, cut=0)
    say(0, "detCmp", 6, cut=0)
    say(1, "ulDataCmp", 5, cut=0)
    say(1, "ulDataCmp", 6, cut=0)


def resume_quietly():
    remark("Station 0 is lost inside a frame and resumes. Station 1 comes back with another session UUID and begins anew, its IDs too.")
    heard(0, 7, METERS[1], 202, cut=20)
    lost(0)
    come_back(0, 0xA0, 6, 0)
    heard(0, 7, METERS[1], 202, cut=0)
    say(0, "ulDataCmp", 7, cut=0)
    lost(1)
    con(1, 0xB1, cut=0)
    say(1, "conCmp", 0, cut=0)
    heard(1, 1, METERS[1], 202, cut=0)
    say(1, "ulDataCmp", 1, cut=0)


def evening():
    remark("Station 1 is back with the right version. One meter's packets come crosswise: the older one is late at the other station.")
    come_back(1, 0xB1, 2, 0)
    heard(1, 3, METERS[0], 103, cut=0)
    heard(0, 8, METERS[0], 104, cut=0)
    heard(1, 4, METERS[0], 104, cut=0)
    heard(0, 9, METERS[0], 103, cut=0)
    heard(0, 10, METERS[2], 302, cut=0)
    heard(1, 5, METERS[2], 4294967295, cut=0)


def afresh(uuid):
    restart()
    for station in (0, 1):
        con(station, uuid, cut=0)
        say(station, "conCmp", 0, cut=0)


def enrolled_meanwhile():
    remark("1: A meter is withdrawn and another enrolled behind the trace's start. The replay knows neither.")
    afresh(1)
    print(f"withdraw {METERS[1]:016X}")
    print(f"meter {SUCCESSOR:016X} 1A2B 11")
    heard(0, 1, SUCCESSOR, 12, cut=0)
    heard(0, 2, METERS[1], 1001, cut=0)
    heard(0, 3, METERS[0], 1001, cut=0)


def known_and_credited():
    remark("2: ulData 1 comes damaged; after a resume it comes again, whole. Its ID is known by then: the host credits it beside the session, the")
    remark("replay does not.")
    afresh(2)
    send(0, frame(element({"command": "ulData", "opId": 1})), 0)
    heard(0, 2, METERS[2], 2001, cut=0)
    lost(0)
    come_back(0, 2, 2, 0)
    heard(0, 1, METERS[0], 2001, cut=0)


def completed_by_the_host():
    remark("3: Sixteen Cmps are lost with the connection. The host completes the operations itself; in the replay they stay open until the station")
    remark("begins anew.")
    afresh(3)
    pings = [frame(element({"command": "ping", "opId": 1 + i})) for i in range(15)]
    send(0, b"".join(pings), 0)
    heard(0, 16, METERS[0], 3001, cut=0)
    lost(0)
    come_back(0, 3, 16, 0)
    heard(0, 17, METERS[0], 3002, cut=0)
    lost(0)
    con(0, 0x33, cut=0)
    say(0, "conCmp", 0, cut=0)
    heard(0, 1, METERS[0], 3003, cut=0)


def not_stored_but_recorded():
    remark("4: The commit of a reading fails, and a newer one comes by way of the other station before it comes again: late for the host. In the")
    remark("replay no commit fails.")
    afresh(4)
    fail()
    heard(0, 1, METERS[0], 4001, cut=0)
    heard(1, 1, METERS[0], 4002, cut=0)
    come_back(0, 4, 0, 0)
    heard(0, 1, METERS[0], 4001, cut=0)


def before_its_con():
    remark("5: A station sends a reading before its con, and again behind it. In the replay its session is still open the first time.")
    afresh(5)
    heard(0, 1, METERS[0], 5001, cut=0)
    lost(0)
    heard(0, 2, METERS[0], 5002, cut=0)
    heard(1, 1, METERS[2], 5001, cut=0)
    come_back(0, 5, 1, 0)
    heard(0, 2, METERS[0], 5002, cut=0)


def not_recorded():
    remark("6: The trace's disk is full. Readings are credited as before, and the trace ends inside a record.")
    afresh(6)
    heard(0, 1, METERS[0], 6001, cut=0)
    full()
    heard(0, 2, METERS[0], 6002, cut=0)
    heard(0, 3, METERS[0], 6003, cut=0)


CONVERSATIONS = {
    "conversation": (connect, readings, operations, lose_and_resume, not_stored, restarted, lost_cmp, known_but_not_credited, sixteen_open,
                     con_while_open, replaced, damage, valve_shut, valve_and_lost, valve_and_store),
    "day": (connect, readings, all_completed, resume_quietly, damage, evening),
    "limits": (enrolled_meanwhile, known_and_credited, completed_by_the_host, not_stored_but_recorded, before_its_con, not_recorded),
}

remark("What two base stations send. Lines are cut inside frames: a frame's end may stand in its station's next line.")
remark("'fail N': the host's Nth commit from there fails. 'restart': the host ends and starts with nothing but its store.")
remark("'shut': a valve of a meter, under a queue ID; 'cancel': by that ID; 'damage': what is stored of the station's queue.")
remark("'full': the trace's disk is full until the restart.")
remark("Meters: long address, short address (two share one), last counter already billed.")
for meter, short, counter in zip(METERS, ("1A2B", "1A2B", "3C4D"), (100, 200, 300)):
    print(f"meter {meter:016X} {short} {counter}")
for part in CONVERSATIONS[sys.argv[1] if len(sys.argv) > 1 else "conversation"]:
    part()
