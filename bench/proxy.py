#!/usr/bin/env python3
"""Stands between the two ends of a transfer, and does to its connections what a bad network does.

usage: proxy.py SEED STYLE LISTEN TO LANES [PIDFILE BYTES]

Lane l is taken on port LISTEN + l of the loopback and passed on to port TO + l. What becomes of a
connection comes of the seed, the style and the lane. Where PIDFILE and BYTES are given, the process
whose number stands in that file is killed by SIGKILL as soon as so many bytes have gone down to it.

  calm  all is passed on, though some connections stall for a while, as they do by every style
  bad   up to five connections of each lane are cut behind a random byte of either way, by a reset or in
        order; or they are refused, or find that nobody listens for a while
  bar   as bad, and one lane never comes back: each further connection is cut at its first byte
  gone  as bad, and of one lane nobody listens any more, nor does anybody dial its receiver
  worn  each connection of each lane is cut, so that both ends use theirs up

It ends by SIGTERM, once the connections that it has have ended. But for gone it then uses up what
connections the receiver still waits for, which so ends without its long waits. Last it prints how many
bytes went down, and what it did: `down N`, `cuts N`, `stalls N`, `refusals N`, `connections N`.
"""
import os
import random
import select
import signal
import socket
import struct
import sys
import threading
import time

CHUNK = 65536
# No connection outlives so many bytes without a cut of its own.
ENDLESS = 1 << 60
# The most bytes before a cut or a stall; and before a cut that has to come about.
FAR = 8 << 20
NEAR = 1 << 20
# How long a write may wait for an end, in seconds.
SILENCE = 60
HOST = "127.0.0.1"


class Sums:
    """What was done, by all lanes."""

    def __init__(self, pidfile, kill_at):
        self.lock = threading.Lock()
        self.ending = threading.Event()
        self.of = dict.fromkeys(("down", "cuts", "stalls", "refusals", "connections"), 0)
        self.pidfile = pidfile
        self.kill_at = kill_at
        self.has_killed = False

    def add(self, what, count=1):
        with self.lock:
            self.of[what] += count
            is_due = self.of["down"] >= self.kill_at
            if is_due:
                self.kill_at = ENDLESS
                self.has_killed = True
        if is_due:
            with open(self.pidfile) as file:
                os.kill(int(file.read()), signal.SIGKILL)


class Fate:
    """What becomes of a connection: behind how many bytes of each way it is cut, at most so many, and
    how; where it stalls, and for how long."""

    def __init__(self, dice, most):
        self.cut = [ENDLESS, ENDLESS]
        if most:
            # A quarter of the cuts come by what comes up, and half of the others among the first frames.
            if dice.random() < 0.25:
                self.cut[1] = dice.randrange(1, 16)
            else:
                self.cut[0] = dice.randrange(1, 120 if dice.random() < 0.5 else most)
        self.resets = dice.random() < 0.5
        self.stall_at = dice.randrange(FAR) if dice.random() < 0.3 else ENDLESS
        self.stall_for = dice.uniform(0.05, 0.5)


class Lane:
    """A lane's connections, one after the other."""

    def __init__(self, dice, style, ports, sums):
        self.dice = dice
        self.style = style
        self.listen_on, self.pass_to = ports
        self.sums = sums
        # How many more connections are spoilt; how many were taken; whether the receiver was met.
        self.faults = {"calm": 0, "bad": dice.randrange(6), "worn": ENDLESS}.get(style, 1)
        self.is_barred = False
        self.was_met = False
        self.listener = None

    def listen(self):
        self.listener = socket.create_server((HOST, self.listen_on))
        self.listener.settimeout(0.1)

    def run(self):
        self.listen()
        while not self.sums.ending.is_set():
            try:
                sender, _ = self.listener.accept()
            except TimeoutError:
                continue
            self.sums.add("connections")
            self.serve(sender)
            if self.is_barred and self.style == "gone":
                break
        self.listener.close()

    def serve(self, sender):
        sender.settimeout(SILENCE)
        receiver = None if self.is_refused() else self.reach()
        if receiver is None:
            close(sender, True)
            return
        fate = Fate(self.dice, self.farthest())
        if self.is_barred:
            fate.cut = [0, 0]
        was_cut = self.carry(sender, receiver, fate)
        for end in (sender, receiver):
            close(end, fate.resets or not was_cut)
        if was_cut:
            self.sums.add("cuts")
            self.is_barred = self.style in ("bar", "gone")

    def farthest(self):
        """The most bytes before the next connection is cut, or 0 where it isn't."""
        if not self.faults or (self.style == "bad" and self.dice.random() < 0.2):
            return 0
        self.faults -= 1
        return FAR if self.style == "bad" else NEAR

    def is_refused(self):
        """Whether a connection is refused, which may also find nobody for a while."""
        if self.style == "calm" or not self.faults or self.is_barred or self.dice.random() > 0.2:
            return False
        self.faults -= 1
        self.sums.add("refusals")
        if self.dice.random() < 0.5:
            self.listener.close()
            time.sleep(self.dice.uniform(0.05, 0.5))
            self.listen()
        return True

    def reach(self):
        """A connection to the receiver. One that was never met, and wasn't killed, may be on its way."""
        for _ in range(100):
            try:
                receiver = socket.socket()
                # So that little is on its way in here where a connection is cut.
                receiver.setsockopt(socket.SOL_SOCKET, socket.SO_SNDBUF, CHUNK)
                receiver.settimeout(SILENCE)
                receiver.connect((HOST, self.pass_to))
                self.was_met = True
                return receiver
            except OSError:
                receiver.close()
            if self.was_met or self.sums.has_killed:
                break
            time.sleep(0.05)
        return None

    def carry(self, sender, receiver, fate):
        """Passes on what comes, both ways, and tells whether it ended by a cut."""
        to = {sender: receiver, receiver: sender}
        left = {sender: fate.cut[0], receiver: fate.cut[1]}
        stall_at = fate.stall_at
        talking = [sender, receiver]
        while talking:
            if 0 in left.values():
                return True
            for end in select.select(talking, [], [], 1)[0]:
                try:
                    data = end.recv(min(CHUNK, left[end]))
                    if data:
                        to[end].sendall(data)
                    else:
                        to[end].shutdown(socket.SHUT_WR)
                        talking.remove(end)
                except OSError:
                    return False
                left[end] -= len(data)
                if end is sender:
                    self.sums.add("down", len(data))
                    stall_at -= len(data)
                if left[end] == 0:
                    return True
            if stall_at < 0:
                stall_at = ENDLESS
                self.sums.add("stalls")
                time.sleep(fate.stall_for)
        return False

    def use_up(self):
        """Connects to the receiver and hangs up, until it listens no more."""
        for _ in range(40):
            try:
                for _ in range(8):
                    socket.create_connection((HOST, self.pass_to), timeout=1).close()
            except OSError:
                return
            time.sleep(0.2)


def close(end, resets):
    """Ends a connection, by a reset or in order."""
    if resets:
        end.setsockopt(socket.SOL_SOCKET, socket.SO_LINGER, struct.pack("ii", 1, 0))
    end.close()


def main():
    seed, style, listen_on, pass_to, count = sys.argv[1], sys.argv[2], *map(int, sys.argv[3:6])
    pidfile, kill_at = (sys.argv[6], int(sys.argv[7])) if len(sys.argv) > 6 else (None, ENDLESS)
    sums = Sums(pidfile, kill_at)
    signal.signal(signal.SIGTERM, lambda *_: sums.ending.set())
    barred = random.Random(seed).randrange(count)
    lanes = []
    for lane in range(count):
        kind = style if style in ("calm", "bad", "worn") or lane == barred else "bad"
        dice = random.Random(f"{seed} {lane}")
        lanes.append(Lane(dice, kind, (listen_on + lane, pass_to + lane), sums))
    threads = [threading.Thread(target=lane.run, daemon=True) for lane in lanes]
    for thread in threads:
        thread.start()
    sums.ending.wait()
    for thread in threads:
        thread.join(10)
    if style != "gone":
        for lane in lanes:
            lane.use_up()
    print("\n".join(f"{what} {count}" for what, count in sums.of.items()))


main()
