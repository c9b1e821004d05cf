#!/usr/bin/env python3
"""A line between stations and a broker: slow, cut after so many bytes, and counted.

    proxy.py PORT-FILE TO-PORT COUNT-FILE [RATE [CUT]]

Listens on a free port, which it writes to PORT-FILE, and goes on to TO-PORT. COUNT-FILE has the bytes that went down to
the station and up to the broker, kept current. RATE is bytes a second downwards; after CUT bytes each way down the
connection ends, and the next one may come. Ends with SIGTERM."""
import os
import select
import signal
import socket
import sys
import time

port_file, to_port, count_file = sys.argv[1], int(sys.argv[2]), sys.argv[3]
rate = float(sys.argv[4]) if len(sys.argv) > 4 else 0
cut = int(sys.argv[5]) if len(sys.argv) > 5 else 0
down = up = 0
signal.signal(signal.SIGTERM, lambda *_: sys.exit(0))


def write(path, text):
    with open(path + ".new", "w") as f:
        f.write(text)
    os.rename(path + ".new", path)


listener = socket.socket()
listener.bind(("127.0.0.1", 0))
listener.listen(64)
write(count_file, "0 0\n")
write(port_file, "%d\n" % listener.getsockname()[1])
pairs = {}      # socket -> (other, is it the broker's)
through = {}    # the broker's socket -> bytes down


def end(a):
    b = pairs.pop(a, (None,))[0]
    pairs.pop(b, None)
    for s in (a, b):
        through.pop(s, None)
        if s is not None:
            s.close()


while True:
    ready, _, _ = select.select([listener, *pairs], [], [])
    for s in ready:
        if s is listener:
            a, _ = listener.accept()
            try:
                b = socket.create_connection(("127.0.0.1", to_port))
            except OSError:
                a.close()
                continue
            pairs[a] = (b, False)
            pairs[b] = (a, True)
            through[b] = 0
            continue
        if s not in pairs:
            continue
        other, is_down = pairs[s]
        try:
            data = s.recv(1024 if rate and is_down else 65536)
            if not data:
                end(s)
                continue
            if rate and is_down:
                time.sleep(len(data) / rate)
            other.sendall(data)
        except OSError:
            end(s)
            continue
        if is_down:
            down += len(data)
            through[s] += len(data)
        else:
            up += len(data)
        write(count_file, "%d %d\n" % (down, up))
        if is_down and cut and through[s] >= cut:
            end(s)
