#!/usr/bin/env python3
"""A foreign device (ANSI/ASHRAE 135, J.5): registers at a broadcast manager, asks who is there, and reads each name.

    foreign_device.py ADDRESS PORT        of the manager
"""
import socket
import struct
import sys

manager = (sys.argv[1], int(sys.argv[2]))
wire = socket.socket(socket.AF_INET, socket.SOCK_DGRAM)
wire.bind(("127.0.0.1", 0))
wire.settimeout(2)


def say(function, rest, to):
    wire.sendto(struct.pack(">BBH", 0x81, function, 4 + len(rest)) + rest, to)


say(0x05, struct.pack(">H", 60), manager)  # Register-Foreign-Device, for 60 seconds
print("registered", wire.recv(1500).hex(" "))  # a result of 00 00
say(0x09, bytes.fromhex("01 20 FF FF 00 FF 10 08"), manager)  # a Who-Is that the manager distributes
try:
    while True:
        heard = wire.recv(1500)
        if heard[1] == 0x04 and b"\x10\x00\xc4" in heard:  # an I-Am in a Forwarded-NPDU, behind its origin
            at = heard.index(b"\x10\x00\xc4") + 3
            origin = (socket.inet_ntoa(heard[4:8]), struct.unpack(">H", heard[8:10])[0])
            print("device", struct.unpack(">I", heard[at:at + 4])[0] & 0x3FFFFF, "at", *origin)
            say(0x0A, bytes.fromhex("01 04 02 65 01 0C 0C") + heard[at:at + 4] + b"\x19\x4d", origin)  # Object_Name
        elif heard[1] == 0x0A:
            print("answer", heard.hex(" "))
except socket.timeout:
    pass
