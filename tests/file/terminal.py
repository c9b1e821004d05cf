"""terminal.py COMMAND..: runs it on a terminal of its own, and prints what came there; what does not print as <HH>."""
import os
import pty
import sys

sent = []


def read(fd):
    data = os.read(fd, 4096)
    sent.append(data)
    return data


output = os.dup(1)
nowhere = os.open(os.devnull, os.O_RDWR)
os.dup2(nowhere, 1)  # where spawn copies it to
status = pty.spawn(sys.argv[1:], read, lambda fd: b"")
os.dup2(output, 1)
for byte in b"".join(sent).replace(b"\r\n", b"\n"):
    sys.stdout.write(chr(byte) if byte == 10 or 32 <= byte < 127 else "<%02X>" % byte)
sys.exit(os.waitstatus_to_exitcode(status))
