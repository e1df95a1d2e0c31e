#!/usr/bin/env python3
"""Kills a server under four clients, again and again: `kills.py PROGRAM [KILLS] [SEED]`, 200 kills where none is said.

Two users have two clients each, which make jobs, start them, download what they give and delete them. At a random moment
the server is killed and started again over the same database. Then each job whose change was answered must be there as
it was answered, a deleted one must be gone, no text of a finished job may differ from that of `run`, and at most one job
may run, whoever's it is. Until it is killed a server must not end, and each request must have a reply that can be read. The
last lines say how many changes were answered and how many kills showed nothing wrong; the exit status is 1 where one did,
and where no change was answered at all.
"""
import http.client
import json
import os
import random
import shutil
import sys
import tempfile
import threading
import time

from session import HERE, Connection, Refused, start

# What of a job was answered last: it is there, it was queued, it was seen finished, it is deleted.
CREATED, QUEUED, FINISHED, DELETED = "created", "queued", "finished", "deleted"
# Which statuses a job may then have, where nothing more was asked of it.
MAY_BE = {CREATED: ["created"], QUEUED: ["queued", "running", "finished"], FINISHED: ["finished"]}
# What was asked and not answered may have come about.
MAY_FOLLOW = {CREATED: QUEUED, FINISHED: DELETED}
# What a client may meet once the server is gone.
BROKEN = (OSError, ValueError, TypeError, http.client.HTTPException)
# How long a client may take to see that the server is gone, and a server to run what is queued, in seconds.
LONGEST = 60


class Wrong(Exception):
    pass


class Client(threading.Thread):
    """Makes jobs, one behind the other, until the server is gone: it may be from the event `killing` on."""

    def __init__(self, url, token, graph, text, pause, killing):
        super().__init__(daemon=True)
        self.back_end = Connection(url, token)
        self.graph, self.text, self.pause, self.killing = graph, text, pause, killing
        self.known, self.answered, self.wrong = {}, 0, None

    def run(self):
        try:
            while True:
                self.one_job()
        except Wrong as wrong:
            self.wrong = wrong
        except Refused as refused:
            self.wrong = f"refused: {refused}"
        except Exception as fault:
            if not isinstance(fault, BROKEN) or not self.killing.is_set():
                self.wrong = f"no reply that can be read: {fault!r}"

    def one_job(self):
        job = self.back_end.create_job(self.graph, "A job")
        if job is None:
            raise ValueError("a job without an id")
        self.known[job] = CREATED
        self.answered += 1
        self.back_end.ask("POST", f"/jobs/{job}/results")
        self.known[job] = QUEUED
        self.answered += 1
        while (status := self.back_end.get(f"/jobs/{job}")["status"]) in ("queued", "running"):
            time.sleep(self.pause)
        if status != "finished":
            raise Wrong(f"{job} is {status}")
        self.known[job] = FINISHED
        texts = list(self.back_end.download(job).values())
        if texts != [self.text]:
            raise Wrong(f"{job} has another text")
        if int(job[2:]) % 3:
            self.back_end.ask("DELETE", f"/jobs/{job}")
            self.known[job] = DELETED
            self.answered += 1


def status_of(back_end, job):
    try:
        return back_end.get(f"/jobs/{job}")["status"]
    except Refused as refused:
        if refused.code == "JobNotFound":
            return DELETED
        raise Wrong(f"{job}: {refused}") from None


def compare(back_end, job, known, text):
    """Stops where a job is not as it was answered; `known` is taken on."""
    status = status_of(back_end, job)
    allowed = MAY_BE.get(known, [DELETED])
    if known in MAY_FOLLOW:
        allowed = allowed + MAY_BE.get(MAY_FOLLOW[known], [DELETED])
    if status not in allowed:
        raise Wrong(f"{job} was {known} and is {status}")
    if status == "finished" and list(back_end.download(job).values()) != [text]:
        raise Wrong(f"{job} has another text")


def jobs_of(back_end, status):
    return {it["id"] for it in back_end.get("/jobs")["jobs"] if it["status"] in status}


def running(one, other):
    """Jobs of two users that run at once: a job of the one ran while the other was asked, if it runs before and after."""
    before = jobs_of(one, ["running"])
    between = jobs_of(other, ["running"])
    return max([before, between, before & jobs_of(one, ["running"]) | between], key=len)


def settle(back_ends, text):
    """Waits until no job of two users is to be run, looks at all, and deletes them."""
    end = time.monotonic() + LONGEST
    while any(jobs_of(back_end, ["queued", "running"]) for back_end in back_ends):
        if len(at_once := running(*back_ends)) > 1:
            raise Wrong(f"{' and '.join(sorted(at_once))} run at once")
        if time.monotonic() > end:
            raise Wrong(f"after {LONGEST} s jobs are still to be run")
        time.sleep(0.01)
    for back_end in back_ends:
        for it in back_end.get("/jobs")["jobs"]:
            if it["status"] == "finished" and list(back_end.download(it["id"]).values()) != [text]:
                raise Wrong(f"{it['id']} has another text")
            back_end.ask("DELETE", f"/jobs/{it['id']}")


def until_killed(program, folder, graph, text, chance):
    """Kills a server at a random moment. Answers its clients, of which none saw anything wrong."""
    server, url = start(program, folder)
    killing = threading.Event()
    clients = [Client(url, token, graph, text, 0.002, killing) for token in ("abc", "abc", "xyz", "xyz")]
    try:
        for client in clients:
            client.start()
        time.sleep(chance.uniform(0.005, 0.4))
    finally:
        killing.set()
        ended = server.poll()
        server.kill()
        server.wait()
    for client in clients:
        client.join(LONGEST)
    if ended is not None:
        raise Wrong(f"the server ended by itself with {ended}")
    if any(client.is_alive() for client in clients):
        raise Wrong(f"{LONGEST} s after the kill a client still waits")
    for client in clients:
        if client.wrong:
            raise Wrong(client.wrong)
    return clients


def one_kill(program, folder, graph, text, chance):
    """Kills a server, and looks at what the next one has. Answers how many changes were answered."""
    clients = until_killed(program, folder, graph, text, chance)
    server, url = start(program, folder)
    try:
        for client in clients:
            back_end = Connection(url, client.back_end.token)
            for job, known in client.known.items():
                compare(back_end, job, known, text)
        settle([Connection(url, token) for token in ("abc", "xyz")], text)
    except (*BROKEN, KeyError, Refused) as fault:
        raise Wrong(f"the server after the kill: {fault!r}") from None
    finally:
        ended = server.poll()
        server.kill()
        server.wait()
    if ended is not None:
        raise Wrong(f"the server after the kill ended by itself with {ended}")
    return sum(client.answered for client in clients)


def main():
    program = os.path.realpath(sys.argv[1])
    kills = int(sys.argv[2]) if len(sys.argv) > 2 else 200
    chance = random.Random(int(sys.argv[3]) if len(sys.argv) > 3 else 1)
    with open(f"{HERE}/graphs/greenest.json") as file:
        graph = json.load(file)
    with open(f"{HERE}/graphs/greenest.result.json", "rb") as file:
        text = file.read()
    folder = tempfile.mkdtemp()
    shutil.copytree(f"{HERE}/collections", f"{folder}/collections")
    with open(f"{folder}/tokens.txt", "w") as file:
        file.write("ada abc\nbob xyz\n")
    good = answered = 0
    try:
        for number in range(kills):
            try:
                answered += one_kill(program, folder, graph, text, chance)
                good += 1
            except Wrong as wrong:
                print(f"examples/service/kills.py: kill {number}: {wrong}", file=sys.stderr)
    finally:
        shutil.rmtree(folder)
    print(f"{answered} changes were answered, of jobs that were then there or deleted as they were answered")
    print(f"{good} of {kills} kills showed nothing wrong")
    sys.exit(good < kills or answered == 0)


if __name__ == "__main__":
    main()
