#!/usr/bin/env python3
"""A bulk TCP flow by the kernel's senders.

    stream.py receive ADDRESS PORT
    stream.py send ADDRESS PORT SENDER WINDOWS BEGIN

`receive` prints `ready`, and then reads one connection until it ends. `send` sends without an end, with SENDER as the
kernel's congestion control (reno, cubic), from BEGIN on, which is in nanoseconds of the monotonic clock. It writes a
line to WINDOWS every 20 ms: the same clock, and the congestion window in segments. SIGTERM ends both."""
import select
import signal
import socket
import struct
import sys
import time

# the congestion window is the 19th word of 32 bits after the 8 bytes that `struct tcp_info` of linux/tcp.h begins with
WINDOW_AT = 8 + 4 * 18
TCP_INFO_BYTES = 232
SAMPLE_NS = 20_000_000
PIECE = bytes(1 << 16)


def receive(address: str, port: int) -> None:
    """Reads one connection to its end."""
    with socket.create_server((address, port)) as server:
        print("ready", flush=True)
        connection, _ = server.accept()
        with connection:
            while connection.recv(1 << 20):
                pass


def window_of(connection: socket.socket) -> int:
    """The congestion window of a connection in segments."""
    info = connection.getsockopt(socket.IPPROTO_TCP, socket.TCP_INFO, TCP_INFO_BYTES)
    return int(struct.unpack_from("=I", info, WINDOW_AT)[0])


def send(address: str, port: int, sender: str, path: str, begin: str) -> None:
    """Sends from a time on until it is ended."""
    with socket.socket() as connection, open(path, "w", encoding="ascii") as windows:
        connection.setsockopt(socket.IPPROTO_TCP, socket.TCP_CONGESTION, sender.encode())
        connection.connect((address, port))
        connection.setblocking(False)
        time.sleep(max(0, int(begin) - time.monotonic_ns()) / 1e9)
        due = 0
        while True:
            now = time.monotonic_ns()
            if now >= due:
                windows.write("%d %d\n" % (now, window_of(connection)))
                due = now + SAMPLE_NS
            _, is_writable, _ = select.select([], [connection], [], max(0, due - now) / 1e9)
            if is_writable:
                connection.send(PIECE)


def main() -> None:
    """Runs what the words say."""
    # the interpreter closes the file of windows on its way out
    signal.signal(signal.SIGTERM, lambda *_: sys.exit(0))
    what, address, port, *rest = sys.argv[1:]
    if what == "receive":
        receive(address, int(port))
    else:
        send(address, int(port), *rest)


if __name__ == "__main__":
    main()
