#!/usr/bin/env python3
"""Stands between depots and PostgreSQL and cuts connections.

usage: cut.py LISTEN SERVER SEED [idle]      (folders with sockets as libpq names them)

One insert in 25 is cut: before the server has it, just after it was sent, or when the server has answered, which the depot then never
learns. After one fetch in 25 the connection is ended once it is idle, as by a server that shuts down: a warning comes, and then nothing.
libpq, whose next write fails, reads the warning and calls the connection good. With "idle" that is done after every fetch and insert,
and nothing else. Ends on SIGTERM, prints how often each was done, and fails where one was done less than ten times; with "idle", four.
"""
import os
import random
import signal
import socket
import sys
import threading
import time

SOCKET = ".s.PGSQL.5432"
INSERT = b"INSERT INTO stocklog_slots"
FETCH = b"SELECT log_offset"
READY = b"Z\x00\x00\x00\x05I"
FIELDS = b"SWARNING\0VWARNING\0C57P01\0Mterminating connection due to immediate shutdown command\0\0"
WARNING = b"N" + (len(FIELDS) + 4).to_bytes(4, "big") + FIELDS
counts = {"before": 0, "during": 0, "after": 0, "idle": 0}
only_idle = len(sys.argv) > 4
IDLE = 0.05 if only_idle else 0.003  # seconds; lost.c is idle for a second, vans for up to 21 ms
lock = threading.Lock()


def choose(chance, query):
    """How a connection is cut at this query, or None. Idle ones are counted when they are cut."""
    with lock:
        if INSERT in query and not only_idle and chance.randrange(25) == 0:
            how = chance.choice(["before", "during", "after"])
            counts[how] += 1
            return how
        if only_idle:
            return "idle" if FETCH in query or INSERT in query else None
        return "idle" if FETCH in query and chance.randrange(25) == 0 else None


def drop(*sockets):
    for one in sockets:
        try:
            one.shutdown(socket.SHUT_RDWR)
        except OSError:
            pass


class Connection:
    """One depot's connection: a thread for each direction."""

    def __init__(self, client, server_folder, chance):
        self.client = client
        self.chance = chance
        self.server = socket.socket(socket.AF_UNIX)
        self.how = None
        self.queries = 0  # messages from the client so far
        try:
            self.server.connect(os.path.join(server_folder, SOCKET))
        except OSError:
            client.close()
            return
        threading.Thread(target=self.answers, daemon=True).start()
        self.requests()

    def answers(self):
        """From the server to the client; after a cut "after", up to the end of one answer and no further."""
        try:
            while data := self.server.recv(65536):
                if self.how == "after":
                    if READY in data:
                        break
                    continue
                queries = self.queries
                self.client.sendall(data)
                if self.how == "idle" and data.endswith(READY):
                    time.sleep(IDLE)
                    if self.queries == queries:
                        with lock:
                            counts["idle"] += 1
                        self.client.sendall(WARNING)
                        break
        except OSError:
            pass
        drop(self.client, self.server)
        self.server.close()

    def requests(self):
        """From the client to the server."""
        try:
            while data := self.client.recv(65536):
                self.queries += 1
                self.how = choose(self.chance, data)
                if self.how == "before":
                    break
                self.server.sendall(data)
                if self.how == "during":
                    break
        except OSError:
            pass
        if self.how != "after":
            drop(self.client, self.server)
        self.client.close()


def end(*_):
    print("connections that were cut, at inserts or idle: " + ", ".join(f"{how} {count}" for how, count in counts.items()), flush=True)
    enough = counts["idle"] >= 4 if only_idle else min(counts.values()) >= 10
    os._exit(0 if enough else 1)


def main():
    listen, server, seed = sys.argv[1:4]
    chance = random.Random(int(seed))
    signal.signal(signal.SIGTERM, end)
    door = socket.socket(socket.AF_UNIX)
    door.bind(os.path.join(listen, SOCKET))
    door.listen(64)
    while True:
        client, _ = door.accept()
        threading.Thread(target=Connection, args=(client, server, chance), daemon=True).start()


main()
