"""A unit that breaks off, or says what it should not: faulty_unit.py FAULT [EVENT]. It answers what the reference answers otherwise."""

import select
import sys
import time
import osek

NO_EFFECT = bytes([7, 255, 255, 255, 255, 15])
fault, event = sys.argv[1], int(sys.argv[2]) if len(sys.argv) > 2 else -1


def run(config, trace):
    out = bytearray(osek.OUTPUT_MAX)
    count = osek.osek_run(config, trace, out)
    assert count >> 32 == 0, "the case is refused"
    return bytes(out[: 4 * count]), bytes(out[4 * count : 4 * count + 2 * config[1]])


def block():
    length = sys.stdin.buffer.raw.read(4)
    data = b""
    while length and len(data) < int.from_bytes(length, "little"):
        data += sys.stdin.buffer.raw.read(int.from_bytes(length, "little") - len(data))
    return data if length else sys.exit()


def send(data):
    sys.stdout.buffer.write(data)
    sys.stdout.buffer.flush()


def sleep():
    time.sleep(3600)


while True:
    send({"version_2": b"osek-unit 2 x\n", "no_greeting": b"hello\n", "long_greeting": 300 * b"x"}.get(fault, b"osek-unit 1 faulty\n"))
    config, trace = block(), b""
    fresh, losses = run(config, NO_EFFECT)
    if fault == "silent_fresh":
        sleep()
    send(bytes([0, fresh[1], fresh[2], fresh[1] != 255 and fault != "wrong_fresh"]))
    answered = 0
    while events := block():
        if fault == "looks_ahead":
            # More than one event at once, or one that came before this answer: then it knows what follows.
            ahead = select.select([sys.stdin], [], [], 0.02)[0] or len(run(config, events)[0]) > 4
            if ahead:
                print("looked ahead", file=sys.stderr)
                sys.exit(1)
        trace += events
        answers, losses = run(config, trace)
        if fault == "idle_level":  # where nobody runs the level is 1
            answers = b"".join(a if a[1] != 255 else a[:2] + b"\1" + a[3:] for a in (answers[i : i + 4] for i in range(0, len(answers), 4)))
        if fault == "slow":
            time.sleep(0.01)
        if fault == "silent" and len(answers) > 4 * event:
            send(answers[answered : 4 * event + 2])
            sleep()
        if fault == "ends" and len(answers) > 4 * event:
            send(answers[answered : 4 * event])
            print("brown-out", file=sys.stderr)
            sys.exit(1)
        send(answers[answered:])
        answered = len(answers)
    if fault == "silent_losses":
        sleep()
    send(losses if fault != "wrong_losses" else bytes([losses[0] ^ 1]) + losses[1:])
    if fault == "no_reset":
        sleep()
