#!/usr/bin/env python3
"""Runs the programs under faults of their standard input and output, and prints a line for each: ok, or differs.

Run it from anywhere after ./build: python3 tools/faults.py. It goes through what README.md says under "What is said
when something goes wrong": a folder and nothing at all as input, a full device as output, input and output that do not
block, input octet by octet, and the faults of a trace. It does not try signals.
"""
import fcntl
import os
import subprocess
import sys
import threading
import time
from pathlib import Path

ROOT = Path(__file__).resolve().parent.parent
TRACE = (ROOT / "crates/replay/stdin").read_bytes()
LINES = (ROOT / "crates/replay/stdout").read_bytes()
CAPTURE = (ROOT / "crates/decode/stdin").read_bytes()
DECODED = (ROOT / "crates/decode/stdout").read_bytes()
FIRST = {
    "replay": b"kind ref answer note calling called\n",
    "explain": b"kind ref answer note calling called to-calling to-called\n",
    "decode": b"at number type flag ref cause single facility element\n",
    "from_hex": b"",
}
LONG = b"2 2 - - - - - - -\n"
failures = 0


def told(what, good):
    global failures
    failures += not good
    print(f"{what}: {'ok' if good else 'differs'}", flush=True)


def run(name, **streams):
    """A program with these streams: its standard output and standard error, where they are pipes."""
    streams.setdefault("stdout", subprocess.PIPE)
    done = subprocess.run([ROOT / "run", name], stderr=subprocess.PIPE, **streams)
    return done.stdout, done.stderr


def unblocked(end):
    fcntl.fcntl(end, fcntl.F_SETFL, fcntl.fcntl(end, fcntl.F_GETFL) | os.O_NONBLOCK)


def one_line(err, front):
    return err.startswith(front) and err.count(b"\n") == 1


def ends_that_fail():
    for name, first in FIRST.items():
        folder = os.open(ROOT, os.O_RDONLY)
        out, err = run(name, stdin=folder)
        os.close(folder)
        told(f"{name} of a folder", out == first and one_line(err, b"read failed (21)"))
        done = subprocess.run(["sh", "-c", '"$0" "$1" <&-', ROOT / "run", name], capture_output=True)
        told(f"{name} of nothing", done.stdout == first and one_line(done.stderr, b"read failed (9)"))
    for name in (*FIRST, "edges", "annex_b"):
        given = b"00 " * 10 if name == "from_hex" else b""
        with open("/dev/full", "wb") as full:
            out, err = run(name, input=given, stdout=full)
        told(f"{name} to a full device", one_line(err, b"write failed (28)"))


def input_that_pauses(name, octets, wanted):
    back, front = os.pipe()
    unblocked(back)

    def feed():
        for start in range(0, len(octets), len(octets) // 4 + 1):
            piece = octets[start:start + len(octets) // 4 + 1]
            while piece:
                piece = piece[os.write(front, piece):]
            time.sleep(0.3)
        os.close(front)

    feeder = threading.Thread(target=feed)
    feeder.start()
    out, _ = run(name, stdin=back)
    feeder.join()
    os.close(back)
    told(f"{name} of input that does not block and pauses", out == wanted)


def output_that_does_not_block(name, octets, wanted):
    back, front = os.pipe()
    unblocked(front)
    child = subprocess.Popen([ROOT / "run", name], stdin=subprocess.PIPE, stdout=front, stderr=subprocess.DEVNULL)
    os.close(front)
    feeder = threading.Thread(target=lambda: (child.stdin.write(octets), child.stdin.close()))
    feeder.start()
    got = b""
    while piece := os.read(back, 1500):
        got += piece
        time.sleep(0.002)
    feeder.join()
    child.wait()
    os.close(back)
    told(f"{name} to output that does not block, read slowly", got == wanted)


def octet_by_octet():
    message = b"\x08\x01\x05\x45" + b"\x90" * 65531
    capture = len(message).to_bytes(2, "big") + message
    back, front = os.pipe()
    feeder = threading.Thread(
        target=lambda: ([os.write(front, capture[i:i + 1]) for i in range(len(capture))], os.close(front)))
    feeder.start()
    out, err = run("decode", stdin=back)
    feeder.join()
    os.close(back)
    told("decode of a message of 65,535 octets, octet by octet", out == FIRST["decode"] + LONG and not err)


def faults_of_a_trace():
    tick = b"\x08\x00\x05"
    for octets, line in (
        (b"\x09", b"record 1 at octet 0: unknown kind\n"),
        (tick + b"\x08", b"record 2 at octet 3: cut short\n"),
        (tick * 2 + b"\x07\x00\x05\x02", b"record 3 at octet 6: side is out of range\n"),
        (b"\x05\x00\x05\x00\x04", b"record 1 at octet 0: what is out of range\n"),
        (b"\x02\x00\x05\x00\x03\x00" + bytes(132), b"record 1 at octet 0: answer 2 is out of range\n"),
        (b"\x04\x00\x05\x00\x01" + bytes(131), b"record 1 at octet 0: element is out of range\n"),
        (
            b"\x04\x00\x05\x00" + bytes(131) + b"\x01",
            b"record 1 at octet 0: what follows the element is out of range\n",
        ),
    ):
        out, err = run("replay", input=octets)
        told(line.decode().strip(), err == line and out.split(b"\n")[-2].startswith(b"error 3"))


def built():
    """The programs are there, and no source is newer: otherwise ./run says so itself."""
    for name in (*FIRST, "edges", "annex_b"):
        done = subprocess.run([ROOT / "run", name], stdin=subprocess.DEVNULL, capture_output=True)
        if done.returncode or done.stderr:
            sys.exit("faults.py: ./build first: " + done.stderr.decode().strip())


def main():
    built()
    ends_that_fail()
    input_that_pauses("replay", TRACE, LINES)
    input_that_pauses("decode", CAPTURE, DECODED)
    output_that_does_not_block("replay", TRACE, LINES)
    output_that_does_not_block("decode", CAPTURE, DECODED)
    octet_by_octet()
    faults_of_a_trace()
    sys.exit(1 if failures else 0)


if __name__ == "__main__":
    main()
