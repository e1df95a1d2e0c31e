#!/usr/bin/env python3
"""Plays peers that keep a server waiting, or send it what it should not take: `peers.py PROGRAM`. It takes some minutes.

A server answers one connection at a time, so a peer may hold it up, but only for so long: 30 seconds for what is read,
and 30 for what is written and besides 16 microseconds for each byte that was taken. Behind each peer an ordinary request
is made, which should be answered within that time, by status 200 and as it is without a peer. At the end a thousand peers
ask at once while one keeps the server waiting, and none of them should go without this answer. The last line says how much
was as it should be; the exit status is 1 where something was not.
"""
import asyncio
import json
import os
import resource
import shutil
import socket
import struct
import subprocess
import sys
import tempfile
import threading
import time

from session import start

PATIENCE = 30
# What a busy machine may add, in seconds.
SLACK = 5
ORDINARY = b"GET /conformance HTTP/1.1\r\n\r\n"
HEAD = b"Authorization: Bearer basic//abc\r\n"
BROAD = (4, 330, 340)
CROWD = 1000


def connection(port, room=None):
    s = socket.socket()
    if room is not None:
        s.setsockopt(socket.SOL_SOCKET, socket.SO_RCVBUF, room)
    s.settimeout(300)
    s.connect(("127.0.0.1", port))
    return s


def received(s):
    """All bytes up to the end of the connection, or to its reset."""
    out = b""
    try:
        while piece := s.recv(65536):
            out += piece
    except ConnectionError:
        pass
    return out


def code_in(reply):
    """The status of a reply, and the code of its body."""
    status = reply[9:12].decode()
    body = reply.partition(b"\r\n\r\n")[2]
    try:
        return status, json.loads(body).get("code", "")
    except ValueError:
        return status, ""


def dripping(s):
    """A byte a second, of a request that has more bytes than there are seconds."""
    try:
        for byte in ORDINARY[:-2] + b"X: " + b"x" * 200:
            s.sendall(bytes([byte]))
            time.sleep(1)
    except OSError:
        pass
    return ""


def half_a_head(s):
    s.sendall(ORDINARY[:20])
    return received(s)


def half_a_body(s):
    s.sendall(b"POST /result HTTP/1.1\r\n" + HEAD + b"Content-Length: 100\r\n\r\n0123456789")
    return received(s)


def silent(s):
    return received(s)


def closed_behind_half(s):
    s.sendall(ORDINARY[:20])
    s.shutdown(socket.SHUT_WR)
    return code_in(received(s))


def long_body(s):
    """Two megabytes, all of them sent."""
    head = b"POST /result HTTP/1.1\r\n" + HEAD + b"Content-Length: 2097152\r\n\r\n"
    sender = threading.Thread(target=lambda: send_all(s, head + b"x" * 2097152))
    sender.start()
    reply = received(s)
    sender.join()
    return code_in(reply)


def long_body_first(s):
    """Twelve megabytes, which are sent piece by piece before a byte is read."""
    send_all(s, b"POST /result HTTP/1.1\r\n" + HEAD + b"Content-Length: 12000000\r\n\r\n")
    for _ in range(120):
        send_all(s, b"x" * 100000)
        time.sleep(0.01)
    return code_in(received(s))


def send_all(s, data):
    try:
        s.sendall(data)
    except OSError:
        pass


def long_head(s):
    send_all(s, b"GET /conformance HTTP/1.1\r\nX: " + b"x" * 100000)
    return code_in(received(s))


def reset(s):
    s.sendall(ORDINARY[:20])
    s.setsockopt(socket.SOL_SOCKET, socket.SO_LINGER, struct.pack("ii", 1, 0))
    s.close()
    return ""


def reset_at_once(s):
    s.setsockopt(socket.SOL_SOCKET, socket.SO_LINGER, struct.pack("ii", 1, 0))
    s.close()
    return ""


def pipelined(s):
    """Ten thousand bytes more, behind the body."""
    body = b'{"process_graph":{}}'
    head = b"POST /validation HTTP/1.1\r\n" + HEAD + b"Content-Length: %d\r\n\r\n" % len(body)
    send_all(s, head + body + ORDINARY * 345)
    reply = received(s)
    return reply.count(b"HTTP/1.1"), code_in(reply)[0]


def other_protocol(s):
    send_all(s, bytes(range(256)) * 100)
    return code_in(received(s))


def ask_much(s):
    """Asks for a result of nine megabytes."""
    graph = {"process_graph": {
        "load": {"process_id": "load_collection", "arguments": {"id": "BROAD", "spatial_extent": None, "temporal_extent": None}},
        "more": {"process_id": "apply", "result": True, "arguments": {"data": {"from_node": "load"}, "process": {
            "process_graph": {"sum": {"process_id": "add", "result": True, "arguments": {
                "x": {"from_parameter": "x"}, "y": 1000000000000000000}}}}}}}}
    body = json.dumps({"process": graph}).encode()
    s.sendall(b"POST /result HTTP/1.1\r\n" + HEAD + b"Content-Length: %d\r\n\r\n" % len(body) + body)


def reset_in_the_reply(s):
    """Some of the result is read, and then the connection is reset."""
    ask_much(s)
    first = s.recv(1000)
    reset_at_once(s)
    return first[9:12]


def never_reads(s):
    """Nothing of the result is read."""
    ask_much(s)
    time.sleep(1)
    return ""


# Each peer, what it should see, empty where it does not look, the longest wait of the request behind it, and how many
# bytes its socket takes.
PEERS = [
    (reset_at_once, "", SLACK, None),
    (reset, "", SLACK, None),
    (closed_behind_half, ("400", "RequestTruncated"), SLACK, None),
    (other_protocol, ("431", "HeadTooLong"), SLACK, None),
    (long_head, ("431", "HeadTooLong"), SLACK, None),
    (long_body, ("413", "BodyTooLong"), SLACK, None),
    (long_body_first, ("413", "BodyTooLong"), SLACK, None),
    (pipelined, (1, "200"), SLACK, None),
    (reset_in_the_reply, b"200", SLACK, 4096),
    (half_a_head, b"", PATIENCE + SLACK, None),
    (half_a_body, b"", PATIENCE + SLACK, None),
    (silent, b"", PATIENCE + SLACK, None),
    (dripping, "", PATIENCE + SLACK, None),
    (never_reads, "", 2 * PATIENCE + 120, 4096),
]


def pack_broad(program, folder):
    """A collection whose result, with longer numbers, is more than sockets take."""
    bands, rows, columns = BROAD
    text = {"type": "FractionCube", "dimensions": [
        {"name": "bands", "type": "bands", "labels": [f"B{n}" for n in range(bands)]},
        {"name": "y", "type": "spatial", "axis": "y", "reference_system": 4326, "labels": list(range(rows, 0, -1))},
        {"name": "x", "type": "spatial", "axis": "x", "reference_system": 4326, "labels": list(range(columns))},
    ], "data": [1] * (bands * rows * columns)}
    os.mkdir(f"{folder}/collections")
    with open(f"{folder}/BROAD.cube", "wb") as file:
        subprocess.run([program, "pack", "BROAD"], input=json.dumps(text, separators=(",", ":")).encode(), stdout=file,
                       cwd=folder, check=True)
    os.rename(f"{folder}/BROAD.cube", f"{folder}/collections/BROAD.cube")


def ordinary(port):
    """How long a request takes until it is answered."""
    begin = time.time()
    with connection(port) as s:
        s.sendall(ORDINARY)
        reply = received(s)
    return time.time() - begin, reply


async def asked(port):
    """The reply to an ordinary request."""
    reader, writer = await asyncio.open_connection("127.0.0.1", port)
    try:
        writer.write(ORDINARY)
        return await reader.read()
    finally:
        writer.close()


async def crowd(port, holding):
    """The replies to many requests that are made at once, while a connection holds the server for two seconds."""
    asyncio.get_running_loop().call_later(2, holding.sendall, ORDINARY[20:])
    return await asyncio.gather(*(asked(port) for _ in range(CROWD)), return_exceptions=True)


def unanswered(port, whole):
    """How many of a crowd were not answered, and how long the last of them waited."""
    most = resource.getrlimit(resource.RLIMIT_NOFILE)[1]
    resource.setrlimit(resource.RLIMIT_NOFILE, (most, most))
    with connection(port) as holding:
        holding.sendall(ORDINARY[:20])
        begin = time.time()
        replies = asyncio.run(crowd(port, holding))
        return sum(reply != whole for reply in replies), time.time() - begin


def main():
    program = os.path.realpath(sys.argv[1])
    folder = tempfile.mkdtemp()
    pack_broad(program, folder)
    with open(f"{folder}/tokens.txt", "w") as file:
        file.write("ada abc\n")
    server, url = start(program, folder)
    port = int(url.rpartition(":")[2])
    good = bad = 0
    try:
        whole = ordinary(port)[1]
        if not whole.startswith(b"HTTP/1.1 200 "):
            bad += 1
            print(f"examples/service/peers.py: without a peer the reply is {whole}", file=sys.stderr)
        for peer, wanted, longest, room in PEERS:
            s = connection(port, room)
            seen = []
            playing = threading.Thread(target=lambda: seen.append(peer(s)), daemon=True)
            playing.start()
            time.sleep(0.1)
            took, reply = ordinary(port)
            playing.join(0 if peer is dripping else 10)
            print(f"{peer.__name__}: the next is answered after {took:.1f} s", flush=True)
            s.close()
            if reply == whole and took <= longest and (seen == [wanted] or wanted == "" and not seen):
                good += 1
            else:
                bad += 1
                print(f"examples/service/peers.py: {peer.__name__}: saw {seen} and not {wanted}, {took:.1f} s, {reply}", file=sys.stderr)
        lost, took = unanswered(port, whole)
        print(f"of {CROWD} that ask at once {lost} are not answered; the last one is after {took:.1f} s", flush=True)
        good, bad = good + (lost == 0), bad + (lost > 0)
        if server.poll() is not None:
            bad += 1
            print(f"examples/service/peers.py: the server ended with {server.returncode}", file=sys.stderr)
    finally:
        server.kill()
        server.wait()
        shutil.rmtree(folder)
    print(f"{good} of {good + bad} as they should be")
    sys.exit(bad > 0)


if __name__ == "__main__":
    main()
