#!/usr/bin/env python3
"""Tries the small store as a server, and two proxies with one leasing prefix before it, over loopback: tests/small_store.py PROGRAM

Proxy 1 reads a key until a read was answered from memory, proxy 2 puts it, and proxy 1 then reads the new value. A lease's key is gone once
the lease has ended, also where nobody asks: an idle watch is told of it. A watch is told of a put that came to another connection, and
watches keep no processor busy at rest."""
import http.client
import json
import os
import signal
import socket
import subprocess
import sys
import time

FOO, BAR, BAZ = "Zm9v", "YmFy", "YmF6"
MOST_READS = 10_000


def free_port():
    with socket.socket() as taken:
        taken.bind(("127.0.0.1", 0))
        return taken.getsockname()[1]


def ask(port, path, body):
    """The status and the JSON of a reply."""
    connection = http.client.HTTPConnection("127.0.0.1", port, timeout=10)
    connection.request("POST", path, json.dumps(body))
    reply = connection.getresponse()
    text = reply.read()
    connection.close()
    return reply.status, json.loads(text)


def counted(port):
    """How many reads a proxy answered from memory."""
    connection = http.client.HTTPConnection("127.0.0.1", port, timeout=10)
    connection.request("GET", "/metrics")
    lines = connection.getresponse().read().decode().splitlines()
    connection.close()
    return int(next(line for line in lines if line.startswith("etcd_proxy_cached_reads_total ")).split()[1])


class Watch:
    """A watch of one key, and the messages that came."""

    def __init__(self, port, key):
        self.connection = http.client.HTTPConnection("127.0.0.1", port, timeout=30)
        self.connection.request("POST", "/v3/watch", json.dumps({"create_request": {"key": key}}))
        self.reply = self.connection.getresponse()

    def next(self):
        return json.loads(self.reply.readline())["result"]


class Servers:
    """Programs that serve, each once it listens."""

    def __init__(self, program):
        self.program = program
        self.running = []

    def start(self, *words):
        """Its process."""
        server = subprocess.Popen([self.program, *words], stdin=subprocess.DEVNULL, stdout=subprocess.DEVNULL, stderr=subprocess.PIPE)
        self.running.append(server)
        for line in server.stderr:
            if line.startswith(b"serving "):
                return server
        raise SystemExit(f"small_store: {' '.join(words)} ended with {server.wait()}")

    def end(self):
        for server in reversed(self.running):
            server.send_signal(signal.SIGKILL)
            server.wait()


def expect(holds, what):
    if not holds:
        raise SystemExit(f"small_store: {what}")


def value(reply):
    return reply[1]["kvs"][0]["value"] if reply[0] == 200 and "kvs" in reply[1] else None


def try_store(store):
    expect(ask(store, "/v3/kv/put", {"key": FOO, "value": BAR})[1]["header"]["revision"] == "2", "a first put isn't revision 2")
    expect(value(ask(store, "/v3/kv/range", {"key": FOO})) == BAR, "a read after a put has another value")
    expect(value(ask(store, "/v3/kv/range", {"key": FOO, "serializable": True})) == BAR, "a serializable read isn't of the newest revision")
    watch = Watch(store, FOO)
    expect(watch.next().get("created"), "a watch isn't created")
    ask(store, "/v3/kv/put", {"key": FOO, "value": BAZ})
    expect(watch.next()["events"][0]["kv"]["value"] == BAZ, "a watch isn't told of a put")
    expect(ask(store, "/v3/lease/grant", {"ID": "7", "TTL": "1"})[1] == {"ID": "7", "TTL": "1", "header": {"cluster_id": "1", "member_id": "1", "raft_term": "1", "revision": "3"}}, "a grant has another reply")
    ask(store, "/v3/kv/put", {"key": FOO, "value": BAR, "lease": "7"})
    expect(watch.next()["events"][0]["kv"]["lease"] == "7", "a watch isn't told of a put under a lease")
    began = time.monotonic()
    expect(watch.next()["events"][0]["type"] == "DELETE", "an idle watch isn't told that a lease has ended")
    expect(0.5 < time.monotonic() - began < 13, "a lease ends at another time")
    expect("kvs" not in ask(store, "/v3/kv/range", {"key": FOO})[1], "the key of a lease that ended is read")


def processor_time(process):
    with open(f"/proc/{process.pid}/stat") as stat:
        fields = stat.read().rsplit(")", 1)[1].split()
    return (int(fields[11]) + int(fields[12])) / os.sysconf("SC_CLK_TCK")


def try_rest(store, process):
    """Watches of which there is nothing to tell."""
    some = [Watch(store, key) for key in [FOO] * 20 + [BAR] * 20]
    expect(all(watch.next().get("created") for watch in some), "a watch isn't created")
    before = processor_time(process)
    time.sleep(3)
    taken = processor_time(process) - before
    expect(taken < 0.1, f"{len(some)} watches at rest take {taken:.2f} s of processor in three seconds")


def try_proxies(first, second, metrics):
    ask(second, "/v3/kv/put", {"key": FOO, "value": BAR})
    for _ in range(MOST_READS):
        expect(value(ask(first, "/v3/kv/range", {"key": FOO})) == BAR, "a proxy reads another value than was put")
        if counted(metrics) > 0:
            break
        time.sleep(0.01)
    else:
        expect(False, "no read was answered from memory")
    expect(ask(second, "/v3/kv/put", {"key": FOO, "value": BAZ})[0] == 200, "a put of a key that another proxy owns isn't answered")
    expect(value(ask(first, "/v3/kv/range", {"key": FOO})) == BAZ, "a proxy reads what is older than an acknowledged put")


def main():
    servers = Servers(os.path.abspath(sys.argv[1]))
    store, first, second, metrics = (free_port() for _ in range(4))
    start = ["grpc-proxy", "start", f"--endpoints=127.0.0.1:{store}", "--leasing-prefix=lease/", "--session-ttl=10"]
    try:
        process = servers.start("store", f"127.0.0.1:{store}")
        try_store(store)
        try_rest(store, process)
        servers.start(*start, f"--listen-addr=127.0.0.1:{first}", f"--metrics-addr=127.0.0.1:{metrics}")
        servers.start(*start, f"--listen-addr=127.0.0.1:{second}")
        try_proxies(first, second, metrics)
    finally:
        servers.end()


main()
