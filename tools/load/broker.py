#!/usr/bin/env python3
"""Runs dbus-broker on a socket, as its launcher would, but without systemd: whoever connects may do everything.

Usage: broker.py SOCKET. Writes the broker's process number once clients can connect, and ends with it.
"""

import array
import os
import signal
import socket
import struct
import subprocess
import sys

POLICY = "(a(u(bta(btbs)a(btssssuutt)a(btssssuutt)))a(buu(bta(btbs)a(btssssuutt)a(btssssuutt)))a(ss)bs)"
EVERYBODY = 0xFFFFFFFF
ANY_NUMBER = 0xFFFFFFFFFFFFFFFF


class Body:
    """Values in their D-Bus spelling, little-endian."""

    def __init__(self):
        self.bytes = bytearray()

    def align(self, size):
        self.bytes += bytes(-len(self.bytes) % size)

    def numbers(self, letters, *values):
        for letter, value in zip(letters, values):
            layout = {"u": "<I", "b": "<I", "h": "<I", "t": "<Q"}[letter]
            self.align(struct.calcsize(layout))
            self.bytes += struct.pack(layout, value)

    def text(self, text):
        self.numbers("u", len(text))
        self.bytes += text.encode() + b"\0"

    def signature(self, text):
        self.bytes += bytes([len(text)]) + text.encode() + b"\0"

    def structs(self, *writers):
        """An array of structs, each written by one of these."""
        self.numbers("u", 0)
        place = len(self.bytes)
        self.align(8)
        begin = len(self.bytes)
        for write in writers:
            self.align(8)
            write()
        self.bytes[place - 4 : place] = struct.pack("<I", len(self.bytes) - begin)

    def field(self, code, kind, text):
        self.align(8)
        self.bytes += bytes([code, 1]) + kind.encode() + b"\0"
        if kind == "g":
            self.signature(text)
        else:
            self.text(text)


def put_policy(body):
    """Everybody may connect, own each name, send and receive each message."""

    def owns():
        body.numbers("btb", 1, 1, 1)
        body.text("")

    def passes():
        body.numbers("bt", 1, 1)
        for _ in range(4):
            body.text("")
        body.numbers("uutt", 0, 0, 0, ANY_NUMBER)

    def everybody():
        body.numbers("u", EVERYBODY)
        body.align(8)
        body.numbers("bt", 1, 1)
        body.structs(owns)
        body.structs(passes)
        body.structs(passes)

    body.align(8)
    body.structs(everybody)
    body.structs()
    body.structs()
    body.numbers("b", 0)
    body.text("session")


def add_listener():
    body = Body()
    body.text("/org/bus1/DBus/Listener/0")
    body.numbers("h", 0)
    body.signature(POLICY)
    put_policy(body)
    header = Body()
    header.bytes += b"l\1\0\1"
    header.numbers("uuu", len(body.bytes), 1, 0)
    header.field(1, "o", "/org/bus1/DBus/Broker")
    header.field(2, "s", "org.bus1.DBus.Broker")
    header.field(3, "s", "AddListener")
    header.field(8, "g", "ohv")
    header.align(8)
    header.bytes += b"\x09\1u\0" + struct.pack("<I", 1)
    header.bytes[12:16] = struct.pack("<I", len(header.bytes) - 16)
    header.align(8)
    return bytes(header.bytes + body.bytes)


def main():
    listener = socket.socket(socket.AF_UNIX)
    listener.bind(sys.argv[1])
    listener.listen(128)
    listener.setblocking(False)
    ours, brokers = socket.socketpair()
    program = ["dbus-broker", "--controller", str(brokers.fileno()), "--machine-id", "0" * 31 + "1"]
    program += ["--max-bytes", "536870912", "--max-fds", "4096", "--max-matches", "16384"]
    broker = subprocess.Popen(program, pass_fds=[brokers.fileno()])
    signal.signal(signal.SIGTERM, lambda *_: sys.exit(0))
    try:
        brokers.close()
        ours.sendall(b"\0AUTH EXTERNAL\r\nDATA\r\nNEGOTIATE_UNIX_FD\r\nBEGIN\r\n")
        if not ours.recv(65536).endswith(b"AGREE_UNIX_FD\r\n"):
            sys.exit("broker.py: dbus-broker takes no descriptors")
        passed = [(socket.SOL_SOCKET, socket.SCM_RIGHTS, array.array("i", [listener.fileno()]))]
        ours.sendmsg([add_listener()], passed)
        if ours.recv(65536)[1:2] != b"\2":
            sys.exit("broker.py: dbus-broker refuses the socket")
        print(broker.pid, flush=True)
        while ours.recv(65536):
            pass
    finally:
        broker.kill()


main()
