#!/usr/bin/env python3
"""Plays one device at one root port: a far end for a host that speaks the lines of docs/output/live.md.

The device is that of examples/one_device.toml: it is plugged when the host first asks what is wanted, and the end is
wanted then. `examples/far_end/check` tries it.
"""
import sys

DESCRIPTORS = {b"\x00\x01": bytes.fromhex("120100020000004034127856000100000001"),  # by wValue (9.4.3)
               b"\x00\x02": bytes.fromhex("0902120001010080320904000000FF000000")}
POWER, CONNECTION, ENABLE, RESET = 0x0100, 0x0001, 0x0002, 0x0010  # bits of wPortStatus and wPortChange


class Port:
    """Root port 1, and the device there: endpoint 0 has an address, and the answer to the last request."""

    def __init__(self):
        self.plugged, self.status, self.change, self.told = False, 0, 0, bytes(4)
        self.reset()

    def reset(self):
        self.address, self.setup, self.left, self.toggle = 0, b"", b"", 1

    def call(self, call):
        bit = {"PORT_POWER": POWER, "PORT_ENABLE": ENABLE, "C_PORT_CONNECTION": CONNECTION, "C_PORT_ENABLE": ENABLE,
               "C_PORT_RESET": RESET}.get(call.split(" ")[1])
        if call == "set PORT_RESET":
            if self.plugged:
                self.reset()
                self.status, self.change = self.status | ENABLE, self.change | RESET
        elif call == "set PORT_POWER":
            if self.plugged and not self.status & POWER:
                self.status, self.change = self.status | CONNECTION, self.change | CONNECTION
            self.status |= bit
        elif call == "clear PORT_POWER":  # what is attached is seen with power only
            self.status = self.change = 0
        elif "C_" in call:
            self.change &= ~bit
        else:
            self.status &= ~bit
        return "ok"

    def wait(self):
        if self.plugged:
            return "end"
        self.plugged, self.status, self.change = True, self.status | CONNECTION, self.change | CONNECTION
        return "ok"

    def attempt(self, words):
        if not self.status & ENABLE or words[1] != f"{self.address}.0":
            return "none"
        if words[0] == "SETUP":
            self.setup, self.toggle, self.left = bytes.fromhex(words[4]), 1, b""
            if self.setup[:2] == b"\x80\x06":  # GET_DESCRIPTOR
                wanted = DESCRIPTORS.get(self.setup[2:4])
                self.left = wanted and wanted[:int.from_bytes(self.setup[6:8], "little")]
        if words[0] != "IN":  # an OUT is the status stage of a read
            return "ACK"
        if self.left is None:
            return "STALL"
        packet, self.left = self.left[:64], self.left[64:]
        answer = f"DATA{self.toggle} {packet.hex().upper() or '-'}"
        self.toggle ^= 1
        if self.setup[:2] == b"\x00\x05":  # the address is taken behind the status stage (9.4.6)
            self.address = self.setup[2]
        return answer

    def push(self):
        now = self.status.to_bytes(2, "little") + self.change.to_bytes(2, "little")
        if now != self.told:
            print("port 1", now.hex().upper())
            self.told = now


# the first words of what is not asked
REPORTS = ("listing", "news", "control", "send", "receive", "interrupt", "clear", "interface", "look")
port, block = Port(), False
for line in map(str.rstrip, sys.stdin):
    words = line.split(" ")
    if block or words[0] in REPORTS:
        block = line != "end" and (block or words[0] in ("listing", "news"))
        continue
    answer = ("roots 1" if words[0] == "usbplan" else port.call(line[7:]) if words[0] == "port" else
              port.wait() if line == "wait" else "ok" if words[0] == "restart" else port.attempt(words))
    port.push()
    print(answer, flush=True)
