"""Sends one packet, and prints what the server answers; nothing where none does:

    client.py PROTOCOL SOURCE DESTINATION PORT TOKEN
"""

import socket
import sys

protocol, source, destination, port, token = sys.argv[1:]
family = socket.AF_INET6 if ":" in destination else socket.AF_INET
it = socket.socket(family, socket.SOCK_STREAM if protocol == "tcp" else socket.SOCK_DGRAM)
it.settimeout(0.7)
try:
    it.bind((source, 0))
    if protocol == "tcp":
        it.connect((destination, int(port)))
        print(it.recv(99).decode())
    else:
        it.sendto(token.encode(), (destination, int(port)))
except OSError:
    sys.exit(1)
