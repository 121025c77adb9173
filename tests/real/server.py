"""Listens on ports, by TCP and UDP and both families, and tells on which port it was reached and from which address:

    server.py NAME PORT ..
"""

import select
import socket
import sys

name, *ports = sys.argv[1:]
sockets = {}
for port in map(int, ports):
    for family, host in ((socket.AF_INET, "0.0.0.0"), (socket.AF_INET6, "::")):
        for kind in (socket.SOCK_STREAM, socket.SOCK_DGRAM):
            it = socket.socket(family, kind)
            it.setsockopt(socket.SOL_SOCKET, socket.SO_REUSEADDR, 1)
            if family == socket.AF_INET6:
                it.setsockopt(socket.IPPROTO_IPV6, socket.IPV6_V6ONLY, 1)
            it.bind((host, port))
            if kind == socket.SOCK_STREAM:
                it.listen()
            sockets[it] = port
print("listening", flush=True)
while True:
    for it in select.select([*sockets], [], [])[0]:
        if it.type == socket.SOCK_STREAM:
            connection, peer = it.accept()
            connection.sendall(f"{name} {sockets[it]} {peer[0]}".encode())
            connection.close()
        else:
            token, peer = it.recvfrom(99)
            print(name, sockets[it], peer[0], token.decode(), flush=True)
