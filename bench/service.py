#!/usr/bin/env python3
"""Counts the requests that a server answers in a second: `bench/service.py PROGRAM [REQUESTS] [CONNECTIONS] [PATH]`.

So many connections are open at once, 16 where none are said; each makes one request, and another takes its place, until
so many were answered. What the client itself takes is in the figure: it is one thread of Python, which waits for all of
its connections at once. Beside the figure stand the server's own seconds of processor, and its memory.
"""
import os
import selectors
import socket
import subprocess
import sys
import tempfile
import time


# How long a server may take until it listens, and for a reply, in seconds.
FIRST, LONGEST = 20, 60


def free_port():
    with socket.socket() as probe:
        probe.bind(("127.0.0.1", 0))
        return probe.getsockname()[1]


def seconds_of(process):
    with open(f"/proc/{process}/stat") as file:
        fields = file.read().rpartition(")")[2].split()
    return (int(fields[11]) + int(fields[12])) / os.sysconf("SC_CLK_TCK")


def memory_of(process):
    with open(f"/proc/{process}/status") as file:
        return next(line.split()[1] for line in file if line.startswith("VmRSS"))


def begin(choice, address, request):
    s = socket.socket()
    s.setblocking(False)
    try:
        s.connect(address)
    except BlockingIOError:
        pass
    choice.register(s, selectors.EVENT_WRITE, [request, b""])


def go_on(choice, key, events):
    """Sends or receives. Answers the reply where it is whole."""
    s, state = key.fileobj, key.data
    if events & selectors.EVENT_WRITE:
        s.send(state[0])
        choice.modify(s, selectors.EVENT_READ, state)
        return None
    piece = s.recv(65536)
    state[1] += piece
    if piece:
        return None
    choice.unregister(s)
    s.close()
    return state[1]


def answered(port, requests, connections, path):
    """Seconds until so many requests were answered, each with the reply of the first."""
    address = ("127.0.0.1", port)
    request = f"GET {path} HTTP/1.1\r\nHost: 127.0.0.1\r\n\r\n".encode()
    choice = selectors.DefaultSelector()
    begun = done = 0
    first = None
    start = time.perf_counter()
    while done < requests:
        while begun < requests and begun - done < connections:
            begin(choice, address, request)
            begun += 1
        ready = choice.select(LONGEST)
        if not ready:
            sys.exit(f"for {LONGEST} s there was no reply")
        for key, events in ready:
            reply = go_on(choice, key, events)
            if reply is not None:
                first = first or reply
                if reply != first or not reply.startswith(b"HTTP/1.1 200 "):
                    sys.exit(f"another reply: {reply}")
                done += 1
    return time.perf_counter() - start


def wait_until_it_listens(server, port):
    end = time.monotonic() + FIRST
    while time.monotonic() < end:
        try:
            socket.create_connection(("127.0.0.1", port)).close()
            return
        except ConnectionRefusedError:
            if server.poll() is not None:
                sys.exit(f"the server ended with {server.returncode}")
            time.sleep(0.02)
    sys.exit(f"the server does not listen after {FIRST} s")


def main():
    program = os.path.realpath(sys.argv[1])
    requests = int(sys.argv[2]) if len(sys.argv) > 2 else 20000
    connections = int(sys.argv[3]) if len(sys.argv) > 3 else 16
    path = sys.argv[4] if len(sys.argv) > 4 else "/conformance"
    port = free_port()
    with tempfile.TemporaryDirectory() as folder:
        server = subprocess.Popen([program, "serve", str(port), "64", "64", "12", "1", "4294967295"], cwd=folder)
        try:
            wait_until_it_listens(server, port)
            answered(port, 100, connections, path)
            before, memory = seconds_of(server.pid), memory_of(server.pid)
            took = answered(port, requests, connections, path)
            own = seconds_of(server.pid) - before
            print(f"{requests / took:.0f} requests a second, {connections} connections at once, {requests} requests in {took:.2f} s")
            print(f"of the server's own: {own:.2f} s of processor, {1e6 * own / requests:.0f} microseconds a request; "
                  f"memory {memory} kB before and {memory_of(server.pid)} kB after")
        finally:
            server.kill()
            server.wait()


if __name__ == "__main__":
    main()
