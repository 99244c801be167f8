#!/usr/bin/env python3
"""Runs the built program on inputs that keep their packets apart, and compares what it prints with what it should.

No proof says how standard input is read: a read that offers less room than there is loses the rest of a packet.

    packets.py PROGRAM
"""

import os
import socket
import subprocess
import sys

TALLIES = 256
BYTES = 65536
SCRIPT = b"b 0\n" + b"m\n" * ((BYTES - 4) // 2)
PIPE_PACKET = 4096
SMALL = 100


def expected():
    yield "ok"
    for i in range((BYTES - 4) // 2):
        yield f"ok {2 * i} {2 * i + 1}" if i < TALLIES else f"no {i + 2} B 11"


def pipe_of_packets():
    """The script in sixteen packets, each as large as a pipe keeps whole."""
    reader, writer = os.pipe2(os.O_DIRECT)
    for start in range(0, BYTES, PIPE_PACKET):
        os.write(writer, SCRIPT[start : start + PIPE_PACKET])
    os.close(writer)
    return reader


def socket_of_packets():
    """The script in two packets, the second far larger."""
    reader, writer = socket.socketpair(socket.AF_UNIX, socket.SOCK_SEQPACKET)
    writer.send(SCRIPT[:SMALL])
    writer.send(SCRIPT[SMALL:])
    writer.close()
    return reader.detach()


def main():
    program = sys.argv[1]
    wanted = list(expected())
    for packets in (pipe_of_packets, socket_of_packets):
        reader = packets()
        ran = subprocess.run([program], stdin=reader, stdout=subprocess.PIPE, timeout=20, text=True)
        os.close(reader)
        told = ran.stdout.splitlines()
        if ran.returncode != 0 or told != wanted:
            sys.exit(f"{packets.__name__}: status {ran.returncode}, {len(told)} lines of {len(wanted)}, or other ones")


if __name__ == "__main__":
    main()
