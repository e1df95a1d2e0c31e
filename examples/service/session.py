#!/usr/bin/env python3
"""Starts a server over examples/collections and plays a session with Python's standard library: `session.py PROGRAM`.

`Connection` makes the calls that a client of openEO makes, each a few lines; what they give is compared with what should
come. The last line says how much was so; the exit status is 1 where something was not.
"""
import json
import os
import shutil
import socket
import subprocess
import sys
import tempfile
import time
import urllib.error
import urllib.request

# How long a server may take until it listens, and a job until it is at its end, in seconds.
FIRST, LONGEST = 20, 60
HERE = os.path.dirname(os.path.dirname(os.path.realpath(__file__)))


class Refused(Exception):
    """What a back end answers instead: the status, and the code of its body."""

    def __init__(self, status, code):
        super().__init__(f"{status} {code}")
        self.status, self.code = status, code


class Connection:
    """An openEO back end at a URL, for a user with a token."""

    def __init__(self, url, token):
        self.url, self.token = url.rstrip("/"), token

    def ask(self, method, path, body=None):
        """The fields and the bytes of the reply."""
        sent = None if body is None else json.dumps(body).encode()
        url = path if path.startswith("http") else self.url + path
        request = urllib.request.Request(url, sent, {"Authorization": f"Bearer basic//{self.token}"}, method=method)
        try:
            with urllib.request.urlopen(request, timeout=60) as reply:
                return reply.headers, reply.read()
        except urllib.error.HTTPError as refused:
            with refused:
                raise Refused(refused.code, json.loads(refused.read())["code"]) from None

    def get(self, path):
        return json.loads(self.ask("GET", path)[1])

    def validate(self, graph):
        return json.loads(self.ask("POST", "/validation", graph)[1])["errors"]

    def execute(self, graph):
        return self.ask("POST", "/result", {"process": graph})[1]

    def create_job(self, graph, title):
        return self.ask("POST", "/jobs", {"process": graph, "title": title})[0]["OpenEO-Identifier"]

    def start_and_wait(self, job):
        """Runs a job. Answers the status that it has at its end, or when it is not waited for any longer."""
        self.ask("POST", f"/jobs/{job}/results")
        end = time.monotonic() + LONGEST
        while (status := self.get(f"/jobs/{job}")["status"]) in ("queued", "running") and time.monotonic() < end:
            time.sleep(0.05)
        return status

    def download(self, job):
        """The text of each asset of a job by its name."""
        assets = self.get(f"/jobs/{job}/results")["assets"]
        return {name: self.ask("GET", asset["href"])[1] for name, asset in assets.items()}


def free_port():
    with socket.socket() as probe:
        probe.bind(("127.0.0.1", 0))
        return probe.getsockname()[1]


def start(program, folder):
    """A server in the folder, and the URL at which it answers."""
    port = free_port()
    server = subprocess.Popen([program, "serve", str(port), "64", "64", "12", "1", "4294967295"], cwd=folder)
    end = time.monotonic() + FIRST
    while time.monotonic() < end:
        try:
            socket.create_connection(("127.0.0.1", port)).close()
            return server, f"http://127.0.0.1:{port}"
        except ConnectionRefusedError:
            if server.poll() is not None:
                sys.exit(f"the server ended with {server.returncode}")
            time.sleep(0.05)
    server.kill()
    server.wait()
    sys.exit(f"the server does not listen after {FIRST} s")


def refused(call, *arguments):
    """The status and the code of the refusal of a call."""
    try:
        call(*arguments)
    except Refused as it:
        return it.status, it.code
    return None


def session(ada, bob, graph, text):
    """What was seen, and what should be, with words for it."""
    wrong = json.loads(json.dumps(graph).replace("B08", "B09"))
    yield "versions", [it["api_version"] for it in ada.get("/.well-known/openeo")["versions"]], ["1.2.0"]
    yield "endpoints", any(it["path"] == "/jobs" for it in ada.get("/")["endpoints"]), True
    yield "formats", list(ada.get("/file_formats")["output"]), ["FJSON"]
    yield "processes", "apply_kernel" in [it["id"] for it in ada.get("/processes")["processes"]], True
    yield "collections", "SCENE" in [it["id"] for it in ada.get("/collections")["collections"]], True
    yield "bands", ada.get("/collections/SCENE")["cube:dimensions"]["bands"]["values"], ["B04", "B08"]
    yield "no such collection", refused(ada.get, "/collections/NONE"), (404, "CollectionNotFound")
    yield "a fault", [it["code"] for it in ada.validate(wrong)], ["ArrayElementNotAvailable"]
    yield "no fault", ada.validate(graph), []
    yield "a result at once", ada.execute(graph), text
    yield "no result", refused(ada.execute, wrong), (400, "ArrayElementNotAvailable")
    job = ada.create_job(graph, "Greenest")
    yield "created", (ada.get(f"/jobs/{job}")["status"], ada.get(f"/jobs/{job}")["title"]), ("created", "Greenest")
    yield "nothing to download yet", refused(ada.download, job), (400, "JobNotStarted")
    yield "finished", ada.start_and_wait(job), "finished"
    yield "logs", [it["message"] for it in ada.get(f"/jobs/{job}/logs")["logs"]], ["started", "asset save.json", "finished"]
    yield "assets", ada.download(job), {"save.json": text}
    yield "listed", [it["id"] for it in ada.get("/jobs")["jobs"]], [job]
    yield "not for others", (bob.get("/jobs")["jobs"], refused(bob.get, f"/jobs/{job}")), ([], (404, "JobNotFound"))
    ada.ask("PUT", "/process_graphs/greenest", graph)
    yield "stored", [it["id"] for it in ada.get("/process_graphs")["processes"]], ["greenest"]
    call = {"process_graph": {"c": {"process_id": "greenest", "arguments": {}, "result": True}}}
    yield "a stored process is called", ada.execute(call), text
    ada.ask("DELETE", "/process_graphs/greenest")
    yield "and gone", refused(ada.execute, call), (400, "ProcessUnsupported")
    ada.ask("DELETE", f"/jobs/{job}")
    yield "deleted", ada.get("/jobs")["jobs"], []


def main():
    program = os.path.realpath(sys.argv[1])
    with open(f"{HERE}/graphs/greenest.json") as file:
        graph = json.load(file)
    with open(f"{HERE}/graphs/greenest.result.json", "rb") as file:
        text = file.read()
    folder = tempfile.mkdtemp()
    shutil.copytree(f"{HERE}/collections", f"{folder}/collections")
    with open(f"{folder}/tokens.txt", "w") as file:
        file.write("ada abc\nbob xyz\n")
    server, url = start(program, folder)
    good = bad = 0
    try:
        for words, seen, wanted in session(Connection(url, "abc"), Connection(url, "xyz"), graph, text):
            if seen == wanted:
                good += 1
            else:
                bad += 1
                print(f"examples/service/session.py: {words}: {seen} and not {wanted}", file=sys.stderr)
    finally:
        server.kill()
        server.wait()
        shutil.rmtree(folder)
    print(f"{good} of {good + bad} as they should be")
    sys.exit(bad > 0)


if __name__ == "__main__":
    main()
