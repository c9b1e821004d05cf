"""What a service tells systemd, line by line, as it comes to a socket of this name: told.py SOCKET"""
import os
import socket
import sys

end = socket.socket(socket.AF_UNIX, socket.SOCK_DGRAM)
end.bind(sys.argv[1])
os.chmod(sys.argv[1], 0o777)
while True:
    print(end.recv(4096).decode(), flush=True)
