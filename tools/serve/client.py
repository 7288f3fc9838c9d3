#!/usr/bin/env python3
"""A client of a bus, for the tests of its services.

client.py ADDRESS call NAME       calls a method of the owner of a name, and prints what comes back
client.py ADDRESS call-only NAME  the same, but no service may be started for it
client.py ADDRESS start NAME      calls StartServiceByName
client.py ADDRESS ask MEMBER      calls a method of the bus that takes nothing
client.py ADDRESS burst NAME N    calls the owner of a name N times at once, and prints how often each answer came
client.py ADDRESS calls PREFIX N  calls the owners of N names at once, and prints how often each answer came
client.py ADDRESS flood N         sends N signals to a listener that does not read, and asks for the names then
client.py ADDRESS starts NAME N   calls StartServiceByName N times and reads nothing, and asks for the names once it is out
client.py ADDRESS own NAME        owns a name, and answers every call until the bus is gone
client.py ADDRESS bytes HEX       sends bytes in place of a conversation, and waits for the end
client.py ADDRESS crowd N         connects N times for a second and says nothing, and asks for the names after that
client.py ADDRESS places N K      has N clients come, and as many as leave when each K-th does, and prints how many get in
client.py ADDRESS owners NAME S   has three clients take a name from one another for S seconds, and tells whether a
                                  fourth was told of each change behind the one before
client.py ADDRESS patience -      connects and says nothing, and prints how many seconds it was let, and the names then

It says that it is nobody, or where COOKIE is USER:COOKIE, who it is. An answer is printed as the text, the texts or the
number that it has, an error as its name.
"""
import collections
import hashlib
import os
import socket
import struct
import sys
import threading
import time

BUS = "org.freedesktop.DBus"
CALL, RETURN, ERROR, SIGNAL = 1, 2, 3, 4
NO_AUTO_START = 2
ALLOW_REPLACEMENT, REPLACE_EXISTING, DO_NOT_QUEUE = 1, 2, 4
PATH, INTERFACE, MEMBER, ERROR_NAME, REPLY_SERIAL, DESTINATION, SENDER, SIGNATURE = range(1, 9)


def text(value):
    data = value.encode()
    return struct.pack("<I", len(data)) + data + b"\0"


def signature(value):
    return bytes([len(value)]) + value.encode() + b"\0"


def padded(data, to):
    return data + bytes(-len(data) % to)


def field(code, value):
    kind = {PATH: "o", REPLY_SERIAL: "u", SIGNATURE: "g"}.get(code, "s")
    data = {"u": lambda: struct.pack("<I", value), "g": lambda: signature(value)}.get(kind, lambda: text(value))()
    return bytes([code]) + signature(kind) + data


def message(kind, flags, serial, fields, body):
    array = b""
    for code, value in fields:
        array = padded(array, 8) + field(code, value)
    head = struct.pack("<cBBBIII", b"l", kind, flags, 1, len(body), serial, len(array))
    return padded(head + array, 8) + body


def texts_of(data):
    texts, at = [], 4
    while at < len(data):
        length, start = struct.unpack_from("<I", data, at)[0], at + 4
        texts.append(data[start : start + length].decode())
        at = start + length + 1
        at += -at % 4
    return texts


def shown(types, body):
    number = struct.unpack_from("<I", body)[0] if body else 0
    if types == "s":
        return body[4 : 4 + number].decode()
    return " ".join(texts_of(body)) if types == "as" else str(number)


def fields_of(data):
    fields, at = {}, 0
    while at < len(data):
        at += -at % 8
        code, kind = data[at], data[at + 2 : at + 3]
        at += 4
        if kind == b"g":
            length, start = data[at], at + 1
        elif kind == b"u":
            fields[code], at = struct.unpack_from("<I", data, at)[0], at + 4
            continue
        else:
            length, start = struct.unpack_from("<I", data, at)[0], at + 4
        fields[code], at = data[start : start + length].decode(), start + length + 1
    return fields


def connected(address):
    to = socket.socket(socket.AF_UNIX)
    to.settimeout(60)
    to.connect(address.removeprefix("unix:path=").split(",")[0])
    return to


class Client:
    def __init__(self, address):
        self.socket = connected(address)
        self.input = self.socket.makefile("rb")
        self.serial = 0
        self.socket.sendall(b"\0")
        known = os.environ.get("COOKIE")
        told = self.digested(*known.split(":")) if known else self.said("AUTH ANONYMOUS")
        if told[0] != "OK":
            sys.exit("it isn't let in")
        self.socket.sendall(b"BEGIN\r\n")
        self.name = self.answer(self.call(BUS, "Hello"))

    def said(self, line):
        """What a line is answered, in words."""
        self.socket.sendall(line.encode() + b"\r\n")
        return self.input.readline().decode().split()

    def digested(self, user, cookie):
        """What DBUS_COOKIE_SHA1 comes to for a user that knows this cookie."""
        told = self.said(f"AUTH DBUS_COOKIE_SHA1 {user.encode().hex()}")
        if told[0] != "DATA":
            return told
        challenge = bytes.fromhex(told[1]).decode().split()[2]
        digest = hashlib.sha1(f"{challenge}:5eed:{cookie}".encode()).hexdigest()
        return self.said("DATA " + f"5eed {digest}".encode().hex())

    def send(self, kind, flags, fields, body=b""):
        self.serial += 1
        self.socket.sendall(message(kind, flags, self.serial, fields, body))
        return self.serial

    def call(self, name, member, types="", body=b"", flags=0):
        interface = BUS if name == BUS else "com.example.Test"
        fields = [(PATH, "/"), (INTERFACE, interface), (MEMBER, member), (DESTINATION, name)]
        return self.send(CALL, flags, fields + [(SIGNATURE, types)] * bool(types), body)

    def next(self):
        head = self.input.read(16)
        if len(head) < 16:
            return None
        kind, body, serial, array = struct.unpack("<xBxxIII", head)
        fields = fields_of(self.input.read(array))
        self.input.read(-array % 8)
        return kind, serial, fields, self.input.read(body)

    def answers(self):
        """Each answer that comes, with the serial of the call."""
        while (came := self.next()) is not None:
            kind, _, fields, body = came
            if kind == ERROR:
                yield fields[REPLY_SERIAL], fields[ERROR_NAME]
            elif kind == RETURN:
                yield fields[REPLY_SERIAL], shown(fields.get(SIGNATURE), body)

    def answer(self, serial):
        return next((what for to, what in self.answers() if to == serial), "gone")

    def own(self, name):
        self.answer(self.call(BUS, "RequestName", "su", padded(text(name), 4) + struct.pack("<I", 0)))
        self.socket.settimeout(None)
        while (came := self.next()) is not None:
            kind, serial, fields, _ = came
            if kind == CALL:
                reply = [(REPLY_SERIAL, serial), (DESTINATION, fields[SENDER]), (SIGNATURE, "s")]
                self.send(RETURN, 0, reply, text("here"))


def start(client, name):
    return client.call(BUS, "StartServiceByName", "su", padded(text(name), 4) + bytes(4))


def takes(client, name, until):
    while time.monotonic() < until:
        body = padded(text(name), 4) + struct.pack("<I", ALLOW_REPLACEMENT | REPLACE_EXISTING | DO_NOT_QUEUE)
        for call in [client.call(BUS, "RequestName", "su", body) for _ in range(8)]:
            client.answer(call)


def follows(listener, name):
    """Whether each change of a name's owner is of the owner that the one before it gave, up to a quiet second."""
    owner, followed, wrong = "", 0, 0
    try:
        while (came := listener.next()) is not None:
            kind, _, fields, body = came
            if kind == SIGNAL and fields[MEMBER] == "NameOwnerChanged":
                changed, old, new = texts_of(bytes(4) + body)
                if changed == name:
                    wrong += old != owner
                    owner, followed = new, followed + 1
                    listener.socket.settimeout(1)
    except TimeoutError:
        return f"{wrong} of {followed} out of order" if wrong or not followed else "in order"
    return "gone"


def main(address, what, name, count="0"):
    if what == "bytes":
        to = connected(address)
        to.sendall(bytes.fromhex(name))
        return to.recv(1)
    if what == "owners":
        listener, takers = Client(address), [Client(address) for _ in range(3)]
        listener.answer(listener.call(BUS, "AddMatch", "s", text("member='NameOwnerChanged'")))
        until = time.monotonic() + float(count)
        for taker in takers:
            threading.Thread(target=takes, args=(taker, name, until)).start()
        print(follows(listener, name))
        return
    if what == "patience":
        named, silent = Client(address), connected(address)
        silent.settimeout(90)
        since = time.monotonic()
        silent.recv(1)
        waited = time.monotonic() - since
        print(round(waited), named.answer(named.call(BUS, "ListNames")))
        return
    if what == "places":
        clients = [Client(address) for _ in range(int(name))]
        leaving = clients[:: int(count)]
        for client in leaving:
            client.input.close()
            client.socket.close()
        time.sleep(0.5)
        came = [Client(address) for _ in leaving]
        print(sum(client.name.startswith(":") for client in came), "of", len(came))
        return
    if what == "crowd":
        crowd = []
        for _ in range(int(name)):
            crowd.append(connected(address))
            # One after the other, so that none waits behind those that came before.
            time.sleep(0.005)
        time.sleep(1)
        for to in crowd:
            to.close()
        # Who comes at the same moment may be told of before these are let go of.
        time.sleep(0.2)
        what, name = "ask", "ListNames"
    client = Client(address)
    if what == "own":
        client.own(name)
    elif what == "start":
        print(client.answer(start(client, name)))
    elif what == "ask":
        print(client.answer(client.call(BUS, name)))
    elif what == "flood":
        listener = Client(address)
        listener.answer(listener.call(BUS, "AddMatch", "s", text("member='Flood'")))
        fields = [(PATH, "/"), (INTERFACE, "com.example.Test"), (MEMBER, "Flood"), (SIGNATURE, "s")]
        for _ in range(int(name)):
            client.send(SIGNAL, 0, fields, text("x" * 4000))
        print(client.answer(client.call(BUS, "ListNames")))
    elif what == "starts":
        deaf = Client(address)
        # More than its socket takes, so that what comes behind waits in its outbox.
        fields = [(PATH, "/"), (INTERFACE, "com.example.Test"), (MEMBER, "Noise"), (DESTINATION, deaf.name)]
        for _ in range(20):
            client.send(SIGNAL, 0, fields + [(SIGNATURE, "s")], text("x" * 60000))
        for _ in range(int(count)):
            start(deaf, name)
        while deaf.name in (names := client.answer(client.call(BUS, "ListNames"))):
            time.sleep(0.05)
        print(names)
    elif what in ("calls", "burst"):
        calls = {client.call(f"{name}{i}" if what == "calls" else name, "Ask") for i in range(int(count))}
        told = collections.Counter()
        for to, answer in client.answers():
            calls.discard(to)
            told[answer] += 1
            if not calls:
                break
        print(*(f"{times} {answer}" for answer, times in sorted(told.items())))
    else:
        flags = NO_AUTO_START if what == "call-only" else 0
        print(client.answer(client.call(name, "Ask", flags=flags)))


if __name__ == "__main__":
    main(*sys.argv[1:])
