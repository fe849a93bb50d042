"""A unit in Python. `run` asks the reference: a simulator of your own takes its place."""

import sys
import osek

NO_EFFECT = bytes([7, 255, 255, 255, 255, 15])  # a Line that names no ISR: status 3, and who runs since the fresh start


def run(config, trace):
    """The answers and the losses; a refusal and None."""
    out = bytearray(osek.OUTPUT_MAX)
    result = osek.osek_run(config, trace, out)
    refusal, count = result >> 32, result & 0xFFFFFFFF
    if refusal:
        return bytes([255, refusal, 0, 0]) + count.to_bytes(4, "little"), None
    return bytes(out[: 4 * count]), bytes(out[4 * count : 4 * count + 2 * config[1]])


def block():
    length = sys.stdin.buffer.read(4)
    return sys.stdin.buffer.read(int.from_bytes(length, "little")) if length else sys.exit()


def send(data):
    sys.stdout.buffer.write(data)
    sys.stdout.buffer.flush()


while True:
    send(b"osek-unit 1 the sample in Python\n")
    config, trace, sent = block(), b"", 0
    fresh, losses = run(config, NO_EFFECT)
    send(fresh if losses is None else bytes([0, fresh[1], fresh[2], fresh[1] != 255]))
    while events := block():
        trace += events
        if losses is not None:
            answers, losses = run(config, trace)
            send(answers[sent:])
            sent = len(answers)
    send(losses or b"")
