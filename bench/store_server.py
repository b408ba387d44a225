#!/usr/bin/env python3
"""What bench/store_server.sh measures."""
import functools, json, os, re, resource, shutil, socket, sys, tempfile, types

from server import PARTS, PROGRAM, PUTS, PUTS_OF_KEYS, READ, Load, Took, arrival, begun, compare, judged, mark, processor_time, quietest
from cluster import Cluster, Store, in_memory, post, put, text64

# So many puts over so many keys, with a compaction behind each so many.
ALL_PUTS, KEYS, COMPACTED = 1_000_000, 10_000, 100_000
# A connection sends so many of them before it reads their replies.
BATCH = 200


def served(cluster):
    """The server of a cluster of one: where it is, and its process."""
    port = cluster.ports[0]
    return types.SimpleNamespace(port=port, post=functools.partial(post, port), pid=cluster.processes[0].pid)


def compact(server):
    """Gives back what the history takes. etcd answers once that is done."""
    _, told = server.post("/v3/kv/range", {"key": text64("?")})
    status, told = server.post("/v3/kv/compaction", {"revision": told["header"]["revision"], "physical": True}, 60)
    assert status == 200, told


def puts(folder, etcd, store):
    def load(server):
        made = Load(folder, server.port, 64, [server.pid], "/v3/kv/put", PUTS_OF_KEYS, False)
        compact(server)
        return made

    compare("puts, 64 connections", "etcd", lambda: load(etcd), lambda: load(store), False, 1.5)


def ranges(folder, etcd, store):
    for server in (etcd, store):
        put(server, "bench/key", "v" * 32)
    compare("ranges of one key, 16 connections", "etcd", *(
        lambda server=server: Load(folder, server.port, 16, [server.pid], "/v3/kv/range", READ, False) for server in (etcd, store)), False, 3)


class Watched:
    """A server with a thousand equal watches: how long puts took to the last one's socket, and the processor time of a message."""

    def __init__(self, server):
        self.server, self.watches, self.used, self.puts = server, begun(server, 1000), 0, 0

    def put(self):
        before = processor_time([self.server.pid])
        came = arrival(self.watches, self.server)
        self.used, self.puts = self.used + processor_time([self.server.pid]) - before, self.puts + 1
        return came

    def told(self, took):
        return f"{took.told()}, {self.used / self.puts / len(self.watches) * 1e6:.0f} us of processor a message"

    def end(self):
        for watch in self.watches:
            watch.socket.close()


def watches(folder, etcd, store):
    """A put of each in turn, to the sockets of a thousand watches of each."""
    theirs, ours = Watched(etcd), Watched(store)
    came, host = quietest(PUTS, lambda: (theirs.put(), ours.put()), lambda pair: max(one[2] for one in pair))
    their_last, our_last = (Took(pair[number][1] for pair in came) for number in (0, 1))
    print(f"1000 equal watches, from a put to the last client's socket\n  ours   {ours.told(our_last)}\n  etcd   {theirs.told(their_last)}\n  {host}", flush=True)
    mark("last delivery of 1000, beside etcd", our_last.half() / their_last.half(), "", most=1)
    for one in (theirs, ours):
        one.end()


def put_all(client, numbers):
    """Puts these keys over a connection, as many at a time as are read in one piece."""
    bodies = [b'{"key":"%s","value":"%s"}' % (text64(f"bench/{number:05}").encode(), text64("v" * 32).encode()) for number in numbers]
    sent = [b"POST /v3/kv/put HTTP/1.1\r\nHost: h\r\nContent-Length: %d\r\n\r\n%s" % (len(body), body) for body in bodies]
    for first in range(0, len(sent), BATCH):
        batch, told = sent[first:first + BATCH], b""
        client.sendall(b"".join(batch))
        # Each reply ends with that of its header.
        while told.count(b"}}") < len(batch):
            piece = client.recv(1 << 20)
            assert piece, told
            told += piece
        assert told.count(b"HTTP/1.1 200 ") == len(batch), told


def memory(store):
    """Puts and compactions, and the most memory that it had."""
    with socket.create_connection(("127.0.0.1", store.port)) as client:
        for first in range(0, ALL_PUTS, COMPACTED):
            put_all(client, [number % KEYS for number in range(first, first + COMPACTED)])
            compact(store)
    with open(f"/proc/{store.pid}/status") as status:
        most = int(re.search(r"VmHWM:\s+(\d+)", status.read())[1]) * 1024 / 1e6
    print(f"{ALL_PUTS} puts over {KEYS} keys, a compaction behind each {COMPACTED}")
    mark("resident at most", most, " MB", most=300)


def main():
    most = resource.getrlimit(resource.RLIMIT_NOFILE)[1]
    resource.setrlimit(resource.RLIMIT_NOFILE, (most, most))
    folder = tempfile.mkdtemp(prefix="store-server-", dir=in_memory())
    clusters = []

    def started(name, of, *words):
        os.mkdir(f"{folder}/{name}")
        clusters.append(of(f"{folder}/{name}", *words))
        return served(clusters[-1])

    try:
        etcd, store = started("etcd", Cluster, 1), started("store", Store, PROGRAM)
        parts = {"puts": lambda: puts(folder, etcd, store), "ranges": lambda: ranges(folder, etcd, store), "watches": lambda: watches(folder, etcd, store),
                 "memory": lambda: memory(started("other", Store, PROGRAM))}
        for name in PARTS or parts:
            parts[name]()
    finally:
        for one in clusters:
            one.stop()
        shutil.rmtree(folder, ignore_errors=True)
    return judged()


if __name__ == "__main__":
    sys.exit(main())
