"""The lowest layer of a USB host in Python, over the lines of docs/output/live.md.

The host asks on standard output and reads on standard input; `usbplan far PLAN` is the other side. It makes all waits.
"""
import sys


class Gone(Exception):
    """The other side has ended."""


class Lines:
    """The other side. `ports[N]` is the status of root port N as it was last reported: wPortStatus, wPortChange."""

    def __init__(self):
        self.ports = {}
        self.roots = int(self.ask("usbplan live 1").split(" ")[1])

    def ask(self, question):
        """Asks, and returns the answer; each new status of a port on the way is kept."""
        print(question, flush=True)
        for line in map(str.rstrip, sys.stdin):
            words = line.split(" ")
            if words[0] != "port":
                return line
            bytes_ = bytes.fromhex(words[2])
            self.ports[int(words[1])] = (int.from_bytes(bytes_[:2], "little"), int.from_bytes(bytes_[2:], "little"))
        raise Gone(question)

    def port_set(self, port, feature):
        """SetPortFeature of a root port, by the feature's name in table 11-17. A reset is over at the return."""
        self.ask(f"port {port} set {feature}")

    def port_clear(self, port, feature):
        self.ask(f"port {port} clear {feature}")

    def setup(self, target, bytes_, low=""):
        """One attempt; `target` is "ADDRESS.ENDPOINT", `low` is "low", or "PRE" below a hub. Returns its answer."""
        return self.send("SETUP", target, 0, bytes_, low)

    def out(self, target, toggle, bytes_, low=""):
        return self.send("OUT", target, toggle, bytes_, low)

    def send(self, token, target, toggle, bytes_, low):
        pre = " PRE" if low == "PRE" else ""
        return self.ask(f"{low} {token} {target} /{pre} DATA{toggle} {bytes_.hex().upper() or '-'}".lstrip())

    def read(self, target, most, low=""):
        """IN. Returns the toggle and the bytes, or the words of another answer."""
        words = self.ask(f"{low} IN {target} {most}".lstrip()).split(" ")
        if words[0] not in ("DATA0", "DATA1"):
            return words[0]
        return int(words[0][4]), bytes.fromhex("" if words[1] == "-" else words[1])

    def wait(self):
        """Nothing is left to do. Returns what is requested: "ok" for nothing, "show", "end", or more words."""
        return self.ask("wait")

    def report(self, *lines):
        print("\n".join(lines), flush=True)
