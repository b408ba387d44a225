#!/usr/bin/env python3
"""Compares what connections to the small store are answered with the mapping's replies, byte for byte: tests/store_replies.py PROGRAM

Each row is a fresh store and what one connection after another sends it, seven bytes at a time, to the end of its input."""
import os
import signal
import socket
import subprocess
import sys

PIECE = 7  # bytes
HEADER = '"header":{"cluster_id":"1","member_id":"1","raft_term":"1","revision":"%d"}'


def post(path, body):
    return f"POST {path} HTTP/1.1\r\nHost: h\r\nContent-Length: {len(body)}\r\n\r\n{body}"


def reply(body, status="200 OK"):
    return f"HTTP/1.1 {status}\r\nContent-Type: application/json\r\nContent-Length: {len(body)}\r\n\r\n{body}"


def refusal(status, code, message):
    return reply(f'{{"code":{code},"message":"{message}"}}', status)


def stream(*messages):
    """A reply of messages, each in a chunk of its own with a line feed, which ends."""
    lines = [f'{{"result":{message}}}\n' for message in messages]
    chunks = "".join(f"{len(line):x}\r\n{line}\r\n" for line in lines)
    return f"HTTP/1.1 200 OK\r\nContent-Type: application/json\r\nTransfer-Encoding: chunked\r\n\r\n{chunks}0\r\n\r\n"


def at(revision, more=""):
    """An object with the header of this revision, and what follows it."""
    return "{" + HEADER % revision + more + "}"


PUT = post("/v3/kv/put", '{"key":"YQ==","value":"eA=="}')
RANGE = post("/v3/kv/range", '{"key":"YQ=="}')
KEY_A = '{"create_revision":"2","key":"YQ==","mod_revision":"2","value":"eA==","version":"1"}'
GET = "GET /v3/kv/range HTTP/1.1\r\nHost: h\r\n\r\n"
NOT_ALLOWED = refusal("405 Method Not Allowed", 12, "proxy: method not allowed")
OLD_WATCH = post("/v3/watch", '{"create_request":{"key":"YQ==","start_revision":"1"}}')
NESTED = '{"success":[{"request_txn":{"success":[{"request_put":{"key":"YQ==","value":"eA=="}}]}}]}'
NESTED_DONE = ',"responses":[{"response_txn":{"responses":[{"response_put":{}}],"succeeded":true}}],"succeeded":true'

# what each connection sends, and what it is answered
ROWS = {
    "a put is read again": [
        (PUT + RANGE + GET, reply(at(2)) + reply('{"count":"1",' + HEADER % 2 + ',"kvs":[' + KEY_A + "]}") + NOT_ALLOWED),
        ("X", refusal("400 Bad Request", 3, "proxy: bad request")),
    ],
    "a watch behind a compaction is cancelled": [
        (PUT + PUT + post("/v3/kv/compaction", '{"revision":"3"}'), reply(at(2)) + reply(at(3)) + reply(at(3))),
        (OLD_WATCH + GET, stream('{"created":true,' + HEADER % 3 + "}", '{"canceled":true,"compact_revision":"3",' + HEADER % 3 + "}") + NOT_ALLOWED),
    ],
    "a lease is granted and kept alive": [
        (post("/v3/lease/grant", '{"TTL":"30","ID":"7"}'), reply('{"ID":"7","TTL":"30",' + HEADER % 1 + "}")),
        (post("/v3/lease/keepalive", '{"ID":"7"}'), reply('{"result":{"ID":"7","TTL":"30",' + HEADER % 1 + "}}\n")),
    ],
    "what is refused": [
        (RANGE, reply(at(1))),
        (post("/v3/kv/put", '{"key":"YQ==","ignore_lease":true}'), refusal("400 Bad Request", 3, "etcdserver: key not found")),
        (post("/v3/kv/put", '{"key":"YQ==","ignore_value":true}'), refusal("501 Not Implemented", 12, "proxy: unsupported: ignore_value")),
        (post("/v2/keys", "{}"), refusal("404 Not Found", 5, "proxy: no such path")),
    ],
    "a transaction within a transaction": [(post("/v3/kv/txn", NESTED), reply(at(2, NESTED_DONE)))],
}


def free_port():
    with socket.socket() as taken:
        taken.bind(("127.0.0.1", 0))
        return taken.getsockname()[1]


def start_store(program, port):
    store = subprocess.Popen([program, "store", f"127.0.0.1:{port}"], stdin=subprocess.DEVNULL, stdout=subprocess.DEVNULL, stderr=subprocess.PIPE)
    for line in store.stderr:
        if line.startswith(b"serving "):
            return store
    raise SystemExit(f"store_replies: the store ended with {store.wait()}")


def exchange(port, sent):
    """What a connection is answered that sends this and then ends its side."""
    with socket.create_connection(("127.0.0.1", port), timeout=10) as connection:
        connection.setsockopt(socket.IPPROTO_TCP, socket.TCP_NODELAY, 1)
        data = sent.encode()
        for place in range(0, len(data), PIECE):
            connection.sendall(data[place : place + PIECE])
        connection.shutdown(socket.SHUT_WR)
        return b"".join(iter(lambda: connection.recv(65536), b"")).decode()


def main():
    program = os.path.abspath(sys.argv[1])
    for name, connections in ROWS.items():
        port = free_port()
        store = start_store(program, port)
        try:
            for sent, wanted in connections:
                answered = exchange(port, sent)
                if answered != wanted:
                    raise SystemExit(f"store_replies: {name}:\n  sent     {sent!r}\n  wanted   {wanted!r}\n  answered {answered!r}")
        finally:
            store.send_signal(signal.SIGKILL)
            store.wait()


main()
