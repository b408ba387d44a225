#!/usr/bin/env python3
"""Tries the proxy before a cluster of three real etcd members on loopback.

usage: cluster.py PROGRAM [--short] [--store] [PART ..]

PROGRAM is the built etcd_proxy. The parts, all of them where none is named, in this order:

answers    each path of the API, watches and refusals too, by curl through the cluster's own JSON gateway, and through a proxy, one
           with a namespace and one that leases: all answer the same, field by field
truth      clients at random on a few keys through two proxies, while proxies are killed, restarted and stopped for longer
           than their session lives, and members are killed, stopped, compacted and defragmented: all answers have one order, in which
           none stands before one that was given when its call began, and in which each shows what the store held there by the cluster's
           own history; each watch is told that history, whole and in order
links      the same, while the links between proxies and members are cut, in one direction, in both or wholly, held half open, and slow
watches    a thousand equal watches through one proxy: the cluster counts one watcher more, each client gets each event
           once and in order, over a killed member
rest       watches and owned keys at rest for two minutes, while the cluster is compacted each ten seconds: none is
           cancelled, none is given up (on a machine so busy that members don't answer within their limits of time, a stream is cut,
           and its watches are rightly cancelled behind a compaction)
clients    a thousand connections with a hundred requests each; a client that stops at every byte of a request; bytes that are
           no request, and what they are answered
halves     clients that close their sending half behind a request have its reply
leavers    clients that went away leave no thread, no descriptor and no watcher, also where the members say nothing
canceled   watches that the members cancel, of an empty range and behind a compaction, pile up no threads
room       memory and threads at rest are what they were
uploads    large requests that come slowly hold no other one up
limit      as many connections as are asked for are served, 4,096 where nothing is said, a further one is refused, and one that ended
           makes room
deep       transactions within transactions and bodies that nest deep have their reply, on the small stack of a connection's thread
descriptors
           so are as many as a process with few descriptors has room for, and those at rest make room
quiet      a proxy that makes no call while the member that its watches are on is killed or hangs: each of its watches, one or a hundred
           distinct ones, with leasing and without, goes on at another member, within 5 s and 25 s
quiet_links
           so it does where the link to that member fails: in one direction, in both, or wholly, or where it is slow
quorum     so it does where that member is cut off from the others, and so does the owner of a key
quiet_owner
           a proxy that answers cached reads alone gives a key up that another one wants to write, within the same
restart    a proxy that was killed and starts again with its state file ends the session that it left: the first put of a key that it owned is
           200 within 1 s; a second proxy with the same file ends with status 7
full       a proxy whose state file has no room serves, without a session
stop       the end of the standard input, and SIGTERM and SIGINT to `tools/serve.sh`, are a planned stop: what is asked has its reply, no further
           client is served, the session ends at once, and the status is 0 within 6 s
restored   another store behind the members' addresses ends the proxy with status 7 within 10 s, and members that restart in turn don't
auth       once the cluster wants to know of users, cached reads end with the session, and one line for each member says so
pauses     neither streams for which there is no thread nor members that are all down keep a processor busy
scans      a range of several keys that takes seconds is waited for, and its member keeps the other calls
workers    that all workers are inside calls is told, and 64 of them are enough where 8 aren't
vanished   watches whose clients vanish, without a word, end within two minutes
lines      messages of members that are longer than 8 MiB: events of keys that are deleted at once, a watch from a revision long ago,
           and the end of a session with many ownership keys; and what is longer than the limit is asked for ever less often
probes     what a server answers of itself, its version and whether some member answers, and other paths of the same requests
metrics    what a server counts is what was done: replies by path and status, reads from memory, keys, watches, connections, calls and
           members; its page and its health; and nothing listens there unless it is asked for
real_clients
           curl, and what Debian has of fronts and clients, unchanged: nginx, haproxy and stunnel as docs/OPERATIONS.md has them, the tests
           of python3-etcd3gw, and patroni's classes; `tests/real_clients.py` says what each does
down       with all members down cached reads go on to the session's end, and all else is refused; all is well once they are back

--short is what the gate runs: the first four and `clients`, and beside them `quiet`, `quiet_links` and `quiet_owner`, with smaller numbers and with patience
for a busy machine.

--store has the program's own small store (`etcd_proxy store ADDRESS`) in the members' place. Then the parts are `answers`, of the store through proxies and
by itself, beside an etcd; `truth`, `watches` and `canceled`, where no member fails; and, without --short,

store_clients
           curl, and the tests of Debian's python3-etcd3gw, at the store itself
"""
import base64, bisect, contextlib, heapq, http.client, http.server, itertools, json, os, random, re, resource
import select, selectors, shutil, signal, socket, subprocess, sys, tempfile, threading, time, types

LEASING = "L/"

# What is waited for may take so many times as long, where it is asked for what is right and not for how soon, or beside other work.
PATIENCE = float(os.environ.get("PATIENCE", 1))


def text64(text):
    return base64.b64encode(text.encode()).decode()


def free_port():
    with socket.socket() as taken:
        taken.bind(("127.0.0.1", 0))
        return taken.getsockname()[1]


class Failure(Exception):
    pass


def check(holds, what):
    if not holds:
        raise Failure(what)


def until(holds, seconds, what):
    """Waits until it holds."""
    end = time.monotonic() + seconds * PATIENCE
    while time.monotonic() < end:
        if holds():
            return
        time.sleep(0.05)
    raise Failure(f"{what}: not within {seconds} s")


def post(port, path, body, timeout=10):
    """The status and the JSON of one call, or None where the connection failed."""
    connection = http.client.HTTPConnection("127.0.0.1", port, timeout=timeout)
    try:
        connection.request("POST", path, body if isinstance(body, str) else json.dumps(body))
        answer = connection.getresponse()
        return answer.status, json.loads(answer.read() or b"{}")
    except (OSError, http.client.HTTPException, ValueError):
        return None
    finally:
        connection.close()


class Cluster:
    """Members of etcd, numbered from 0."""

    # They may be killed and stopped, others go on, and etcd's own tools know them.
    is_etcd = True

    def __init__(self, folder, count=3):
        self.folder = folder
        self.ports = [free_port() for _ in range(count)]
        self.peers = [free_port() for _ in range(count)]
        self.processes = [None] * count
        for number in range(count):
            self.start(number)
        try:
            until(lambda: all(self.answers(n) for n in range(count)), 30, "the cluster answers")
        except Failure:
            self.stop()
            raise

    def at(self, number):
        """The address at which the others find a member."""
        return "127.0.0.1"

    def words(self, number):
        """What a member's command begins with, and where its clients find it."""
        return [], f"http://127.0.0.1:{self.ports[number]}"

    def start(self, number):
        first, url = self.words(number)
        peer = f"http://{self.at(number)}:{self.peers[number]}"
        others = ",".join(f"m{n}=http://{self.at(n)}:{p}" for n, p in enumerate(self.peers))
        with open(f"{self.folder}/m{number}.log", "ab") as log:
            self.processes[number] = subprocess.Popen(
                [*first, "etcd", "--name", f"m{number}", "--data-dir", f"{self.folder}/m{number}", "--listen-client-urls", url,
                 "--advertise-client-urls", url, "--listen-peer-urls", peer, "--initial-advertise-peer-urls", peer,
                 "--initial-cluster", others, "--initial-cluster-state", "new"],
                stdout=log, stderr=log)

    def restore(self, number, backup):
        """Makes the data of a member anew from a backup, which keeps the cluster's number."""
        others = ",".join(f"m{n}=http://127.0.0.1:{p}" for n, p in enumerate(self.peers))
        subprocess.run(["etcdctl", "snapshot", "restore", backup, "--name", f"m{number}", "--data-dir", f"{self.folder}/m{number}",
                        "--initial-cluster", others, "--initial-advertise-peer-urls", f"http://127.0.0.1:{self.peers[number]}"],
                       capture_output=True, check=True, env={**os.environ, "ETCDCTL_API": "3"})

    def signal(self, number, what):
        self.processes[number].send_signal(what)

    def kill(self, number):
        self.processes[number].kill()
        self.processes[number].wait()

    def answers(self, number):
        told = post(self.ports[number], "/v3/kv/range", {"key": text64("?")}, 2)
        return told is not None and told[0] == 200

    def ask(self, path, body):
        """A call to any member that answers."""
        for port in self.ports * 3:
            told = post(port, path, body)
            if told is not None and told[0] == 200:
                return told[1]
            time.sleep(0.1)
        raise Failure(f"no member answers {path}")

    def watchers(self):
        """How many watchers the members count, all together."""
        total = 0
        for port in self.ports:
            connection = http.client.HTTPConnection("127.0.0.1", port, timeout=5)
            connection.request("GET", "/metrics")
            text = connection.getresponse().read().decode()
            connection.close()
            total += int(float(re.search(r"^etcd_debugging_mvcc_watcher_total (\S+)", text, re.M)[1]))
        return total

    def unwatched(self):
        """Waits until the watchers of earlier proxies are gone."""
        until(lambda: self.watchers() == 0, 30, "the watchers of earlier proxies are gone")

    def compact(self, most=None):
        """Compacts the history up to now, or up to a revision."""
        revision = most or int(self.ask("/v3/kv/range", {"key": text64("?")})["header"]["revision"])
        post(self.ports[0], "/v3/kv/compaction", {"revision": str(revision)})

    def stop(self):
        for process in self.processes:
            if process.poll() is None:
                process.kill()
                process.wait()


class Store(Cluster):
    """The program's own small store in the members' place."""

    is_etcd = False

    def __init__(self, folder, program):
        self.program = program
        super().__init__(folder, 1)

    def start(self, number):
        with open(f"{self.folder}/store.told", "ab") as told:
            self.processes[number] = subprocess.Popen([self.program, "store", f"127.0.0.1:{self.ports[number]}"],
                                                      stdin=subprocess.DEVNULL, stdout=told, stderr=told)

    def watchers(self):
        """It doesn't count its watchers."""

    def unwatched(self):
        pass


# how a line of the program begins, but those on what it serves and on why it ended
LINE = re.compile(r"serving |listener fault$|\d{4}-\d\d-\d\dT\d\d:\d\d:\d\d\.\d{3}Z (INFO|WARN|ERROR) etcd_proxy: ")


class Proxy:
    def __init__(self, program, cluster, folder, name, *options, listen="127.0.0.1", served=False, files=None):
        self.program, self.cluster, self.options, self.listen, self.served = program, cluster, options, listen, served
        self.most_files = files
        self.port = free_port()
        self.told = f"{folder}/{name}.told"
        self.start()

    def start(self):
        endpoints = ",".join(f"127.0.0.1:{port}" for port in self.cluster.ports)
        with open(self.told, "ab") as told:
            words = [self.program, "grpc-proxy", "start", f"--endpoints={endpoints}", f"--listen-addr={self.listen}:{self.port}", *self.options]
            if self.served:
                words.insert(0, os.path.join(os.path.dirname(os.path.abspath(__file__)), "../tools/serve.sh"))
            stops = "--stop-at-end" in self.options
            self.process = subprocess.Popen(words, stdin=subprocess.PIPE if stops else None, stderr=told, start_new_session=self.served,
                                            preexec_fn=self.limit if self.most_files else None)
        until(self.answers, 15, "the proxy answers")

    def limit(self):
        resource.setrlimit(resource.RLIMIT_NOFILE, (self.most_files, self.most_files))

    def answers(self):
        check(self.process.poll() is None, f"the proxy ended with status {self.process.poll()}")
        told = post(self.port, "/v3/kv/range", {"key": text64("?")}, 6)
        return told is not None and told[0] == 200

    def post(self, path, body, timeout=10):
        return post(self.port, path, body, timeout)

    def kill(self):
        self.process.kill()
        self.process.wait()

    def counts(self):
        """Its threads, and its memory in KB."""
        with open(f"/proc/{self.process.pid}/status") as status:
            text = status.read()
        return int(re.search(r"Threads:\s+(\d+)", text)[1]), int(re.search(r"VmRSS:\s+(\d+)", text)[1])

    def files(self):
        """Its descriptors."""
        return len(os.listdir(f"/proc/{self.process.pid}/fd"))

    def busy(self, seconds):
        """How many processors it takes from now on for so long."""
        def taken():
            with open(f"/proc/{self.process.pid}/stat") as stat:
                fields = stat.read().rsplit(")", 1)[1].split()
            return (int(fields[11]) + int(fields[12])) / os.sysconf("SC_CLK_TCK")
        before, start = taken(), time.monotonic()
        time.sleep(seconds)
        return (taken() - before) / (time.monotonic() - start)

    def lines(self, what=""):
        """What it wrote on its standard error with this text in it."""
        with open(self.told) as told:
            lines = told.read().splitlines()
        for line in lines:
            check(LINE.match(line), f"a line is: {line}")
        return [line for line in lines if what in line]

    def stop(self):
        if self.process.poll() is None:
            self.process.send_signal(signal.SIGCONT)
            self.kill()


# ---- the same answers

BODY = re.compile(rb"(.*)\n(\d{3})$", re.S)


# For so many seconds watches are looked at, or for so many behind the last of what they are to tell.
WATCHED, BEHIND = 3, 0.5

KINDS = ("created", "events", "canceled")


def told_by(text):
    """What the lines of a watch tell: the created messages, all events in order, and the cancellations."""
    items = [json.loads(line)["result"] for line in text.split(b"\n")[:-1] if line]
    return {"created": [i for i in items if i.get("created")],
            "events": [e for i in items for e in i.get("events", [])],
            "canceled": [i for i in items if i.get("canceled")]}


def looked_at(port, bodies, wanted=None):
    """What watches that are begun at once tell in a while, or until they have told as much as is wanted of each, and a while more."""
    begun = [subprocess.Popen(["curl", "-s", "-N", "-d", json.dumps({"create_request": body}), f"http://127.0.0.1:{port}/v3/watch"],
                              stdout=subprocess.PIPE) for body in bodies]
    texts, ready, end = [b""] * len(bodies), selectors.DefaultSelector(), time.monotonic() + (4 * WATCHED * PATIENCE if wanted else WATCHED)
    for number, one in enumerate(begun):
        ready.register(one.stdout, selectors.EVENT_READ, number)
    is_told = False
    while time.monotonic() < end:
        for key, _ in ready.select(0.1):
            piece = os.read(key.fd, 65536)
            texts[key.data] += piece
            if not piece:
                ready.unregister(key.fileobj)
        if wanted and not is_told and all(len(told[kind]) >= len(theirs[kind]) for told, theirs in zip(map(told_by, texts), wanted) for kind in KINDS):
            is_told, end = True, time.monotonic() + BEHIND
    ready.close()
    for one in begun:
        one.kill()
        one.communicate()
    return [told_by(text) for text in texts]


def curl(port, path, body):
    """The status and the JSON that curl gets."""
    told = subprocess.run(["curl", "-s", "-m", "10", "-w", "\\n%{http_code}", "-d", body, f"http://127.0.0.1:{port}{path}"],
                          capture_output=True, check=True).stdout
    text, status = BODY.match(told).groups()
    return int(status), json.loads(text or b"{}")


def requests(key, lease, base):
    """Calls one after the other, on keys under this prefix, on this lease, and from this revision on: the path and the body of each."""
    a, b, c = (text64(key + name) for name in "abc")
    end = text64(key + "~")
    kv, le = "/v3/kv/", "/v3/lease/"
    put = lambda k, v, **more: {"key": k, "value": text64(v), **more}
    compare = lambda k, target, **more: {"key": k, "target": target, **more}
    return [
        (kv + "range", {"key": a}),
        (kv + "put", put(a, "1")), (kv + "put", put(a, "2", prev_kv=True)), (kv + "put", put(b, "")),
        (le + "grant", {"TTL": 100, "ID": lease}), (le + "grant", {"TTL": 100, "ID": lease}),
        (kv + "put", put(c, "x" * 3000, lease=lease)), (kv + "put", put(c, "y", lease=lease + 7)),
        (kv + "range", {"key": a}), (kv + "range", {"key": a, "serializable": True}),
        (kv + "range", {"key": a, "range_end": end}), (kv + "range", {"key": a, "rangeEnd": end, "limit": 2}),
        (kv + "range", {"key": a, "range_end": end, "keys_only": True}),
        (kv + "range", {"key": a, "range_end": end, "count_only": True}),
        (kv + "range", {"key": a, "range_end": end, "sort_order": "DESCEND", "sort_target": "VERSION"}),
        (kv + "range", {"key": a, "range_end": end, "min_mod_revision": "1", "max_create_revision": "9999999"}),
        (kv + "range", {"key": a, "revision": "999999"}), (kv + "range", {"key": a, "revision": str(base)}),
        (kv + "range", {"key": ""}), (kv + "range", {}), (kv + "put", {"value": a}),
        (le + "timetolive", {"ID": lease, "keys": True}), (le + "timetolive", {"ID": lease + 7}),
        (le + "keepalive", {"ID": lease}), (le + "keepalive", {"ID": lease + 7}), (le + "leases", {}),
        (kv + "txn", {"compare": [compare(a, "VERSION", result="EQUAL", version="2")],
                      "success": [{"request_put": put(a, "3")}, {"request_range": {"key": a, "range_end": end}}],
                      "failure": [{"request_delete_range": {"key": a}}]}),
        (kv + "txn", {"compare": [compare(a, "VALUE", result="LESS", value=text64("3")), compare(b, "MOD", result="GREATER", mod_revision="1")],
                      "failure": [{"request_delete_range": {"key": b, "prev_kv": True}}, {"request_put": put(a, "4", prev_kv=True)}]}),
        (kv + "txn", {"compare": [compare(c, "LEASE", lease=lease), compare(a, "CREATE", result="NOT_EQUAL", create_revision="0")],
                      "success": [{"request_range": {"key": b}}]}),
        (kv + "txn", {"success": [{"request_put": put(a, "5")}, {"request_put": put(a, "6")}]}),
        (kv + "txn", {}),
        (kv + "deleterange", {"key": b}), (kv + "deleterange", {"key": a, "range_end": end, "prev_kv": True}),
        (kv + "deleterange", {"key": ""}),
        (kv + "put", put(c, "z")), (le + "revoke", {"ID": lease}), (le + "revoke", {"ID": lease}),
        ("/v3/watch", [{"key": a, "range_end": end, "start_revision": str(base + 1), **more}
                       for more in ({}, {"prev_kv": True}, {"filters": ["NOPUT"]}, {"filters": ["NODELETE"], "prev_kv": True})]
         + [{"key": b}]),
        (kv + "compaction", {"revision": str(base + 1)}), (kv + "compaction", {"revision": str(base + 1)}), (kv + "compaction", {"revision": "99999999"}),
        ("/v3/watch", [{"key": a, "start_revision": str(base)}, {"key": a, "start_revision": str(base + 1)}]),
        (kv + "range", {"key": a, "revision": str(base)}),
    ]


# what stands for a revision, and for a number of its own
REVISIONS = {"revision", "create_revision", "mod_revision", "compact_revision"}
LOOSE = {"member_id", "raft_term", "error", "details"}
SESSION = 1 << 62


class Told:
    """What a port answered, with its keys counted from a prefix, its leases from a number and its revisions from where the store stood. Watches are looked at
    until they told what they did past the proxies, where that is known."""

    def __init__(self, member, port, key, lease, past=None):
        self.key, self.lease = key, lease
        # A member's own word: a proxy that leases may tell the revision at which it took the key.
        self.base = int(post(member, "/v3/kv/range", {"key": text64("?")})[1]["header"]["revision"])
        self.rows = []
        for number, (path, body) in enumerate(requests(key, lease, self.base)):
            status, answer = ((200, looked_at(port, body, past and past.rows[number][3])) if path == "/v3/watch" else
                              curl(port, path, json.dumps(body)))
            self.rows.append((path, body, status, self.plain(answer)))

    def plain(self, value, name=""):
        if isinstance(value, dict):
            # the proxy leaves out the headers within a transaction
            return {n: self.plain(v, n) for n, v in value.items()
                    if n not in LOOSE and not (n == "header" and name.startswith("response_"))}
        if isinstance(value, list):
            # a proxy that leases has a session, and calls that were made again may have left a lease
            return [self.plain(v, name) for v in value if name != "leases" or self.lease <= int(v["ID"]) < SESSION]
        if name in REVISIONS:
            return int(value) - self.base
        if name in ("key", "keys"):
            return base64.b64decode(value).decode().removeprefix(self.key)
        if name in ("ID", "lease") and int(value) >= self.lease:
            return int(value) - self.lease
        if name == "TTL" and int(value) > 0:
            return "some" if int(value) <= 100 else value
        return value


def unnumbered(value):
    """A value without its revisions, which a proxy that leases moves on by its own writes."""
    if isinstance(value, dict):
        return {n: unnumbered(v) for n, v in value.items() if n not in REVISIONS}
    return [unnumbered(v) for v in value] if isinstance(value, list) else value


def likened(value):
    """A value without what the small store tells otherwise than etcd: its cluster's number, and the header of a cancellation, in which etcd has no revision."""
    if isinstance(value, dict):
        return {n: likened(v) for n, v in value.items() if n != "cluster_id" and not (n == "header" and "canceled" in value)}
    return [likened(v) for v in value] if isinstance(value, list) else value


# The small store sorts by rising keys alone, and doesn't filter by revisions.
UNSORTED = (501, {"code": 12, "message": "store: unsupported"})


def told_whole(member, port, number, past):
    """What a proxy told where no call of its was lost: a member may take longer than a call may, which its clients are told by code 14."""
    for attempt in range(3):
        told = Told(member, port, f"P{number}.{attempt}/", 2_000_000 + 1_000 * (3 * number + attempt), past)
        if all(status != 503 for _, _, status, _ in told.rows):
            return told
        print("answers: a call was lost, so all are made again")
    return told


def alike(name, told, past, seen):
    """What was told is what was told past it. How many of the calls the small store refused that etcd doesn't."""
    refused = 0
    for (path, body, status, answer), (_, _, wanted, theirs) in zip(told.rows, past.rows):
        if (status, answer) == UNSORTED:
            refused += 1
            continue
        # The status of a code is the proxy's own; those of code 9 differ between releases of the cluster.
        check(seen(answer) == seen(theirs) and (status == wanted or theirs.get("code") == 9),
              f"{path} {json.dumps(body)}:\n  through {name} {status} {json.dumps(seen(answer))}\n  past it {wanted} {json.dumps(seen(theirs))}")
    return refused


def answers(world):
    """Each path answers the same through a proxy and past it, where etcd answers."""
    is_etcd, member = world.cluster.is_etcd, world.cluster.ports[0]
    whole = (lambda value: value) if is_etcd else likened
    # who leases comes last, since it writes when it likes
    proxies = [("the proxy", [], whole), ("the proxy with a namespace", ["--namespace=n/"], whole),
               ("the proxy that leases", [f"--leasing-prefix={LEASING}"], lambda value: unnumbered(whole(value)))]
    with world.etcd() as other:
        past = Told(other, other, "G/", 1_000_000)
    refused = set() if is_etcd else {alike("nothing", told_whole(member, member, len(proxies), past), past, whole)}
    for number, (name, options, seen) in enumerate(proxies):
        proxy = world.proxy(f"answers{number}", *options, ttl=60)
        refused.add(alike(name, told_whole(member, proxy.port, number, past), past, seen))
        proxy.stop()
    check(refused == {0 if is_etcd else 2}, f"so many ranges that are sorted or filtered were refused: {refused}")
    also = "" if is_etcd else ", and by the store itself, but for two that it refuses"
    print(f"answers: {len(past.rows)} calls answer the same past the proxies and through each of {len(proxies)}{also}")


# ---- one order of all that clients were told, by the cluster's own history

class Watch:
    """A client that watches, over a connection of its own."""

    def __init__(self, port, create):
        self.socket = socket.create_connection(("127.0.0.1", port), 10)
        body = json.dumps({"create_request": create}).encode()
        self.socket.sendall(b"POST /v3/watch HTTP/1.1\r\nHost: h\r\nContent-Length: %d\r\n\r\n" % len(body) + body)
        self.socket.setblocking(False)
        self.bytes, self.text, self.head, self.events, self.created, self.ended = b"", b"", None, [], 0, False

    def read(self):
        """Takes what is there."""
        try:
            piece = self.socket.recv(65536)
        except BlockingIOError:
            return
        except OSError:
            piece = b""
        if not piece:
            self.ended = True
        self.bytes += piece
        if self.head is None and b"\r\n\r\n" in self.bytes:
            self.head, self.bytes = self.bytes.split(b"\r\n\r\n", 1)
        while self.head is not None and b"\r\n" in self.bytes:
            size, rest = self.bytes.split(b"\r\n", 1)
            length = int(size, 16)
            if len(rest) < length + 2:
                return
            self.bytes = rest[length + 2:]
            self.ended |= length == 0
            # a member may send a line in pieces
            *lines, self.text = (self.text + rest[:length]).split(b"\n")
            for line in lines:
                if line:
                    self.take(json.loads(line)["result"])

    def take(self, item):
        self.created += bool(item.get("created"))
        self.ended |= bool(item.get("canceled"))
        self.events += [(int(e["kv"]["mod_revision"]), base64.b64decode(e["kv"].get("value", "")).decode())
                        for e in item.get("events", [])]


class Story(Watch):
    """A watch that keeps each change of a key, by its revision and its value, or None where the key was deleted. `first` is the revision from which on it
    was told all."""

    def __init__(self, port, prefix, first=0):
        self.first, self.changes, self.compacted, self.heard = first, [], False, time.monotonic()
        super().__init__(port, {"key": text64(prefix), "range_end": text64(prefix + "~~"), "start_revision": str(first)})

    def take(self, item):
        if item.get("created") and self.first == 0:
            self.first = int(item["header"]["revision"]) + 1
        self.ended |= bool(item.get("canceled"))
        self.compacted |= "compact_revision" in item
        self.heard = time.monotonic()
        for event in item.get("events", []):
            kv = event["kv"]
            value = None if event.get("type") == "DELETE" else base64.b64decode(kv.get("value", "")).decode()
            self.changes.append((int(kv["mod_revision"]), base64.b64decode(kv["key"]).decode(), value))

    def last(self):
        return self.changes[-1][0] if self.changes else 0

    def wait(self, seconds, is_enough):
        """Reads until it is enough, or has ended, or nothing came for so long."""
        while not (is_enough() or self.ended) and time.monotonic() < self.heard + seconds:
            select.select([self.socket], [], [], 0.1)
            self.read()
        self.socket.close()


class History(threading.Thread):
    """What happened to the keys under a prefix, in the members' own words: a watch past the proxies, which goes on at another member."""

    def __init__(self, cluster, prefix):
        super().__init__(daemon=True)
        self.cluster, self.prefix, self.marked = cluster, prefix, None
        told = cluster.ask("/v3/kv/range", {"key": text64(prefix), "range_end": text64(prefix + "~~")})
        check("kvs" not in told, f"there are keys under {prefix}")
        self.first = self.next = int(told["header"]["revision"]) + 1
        self.changes = []
        self.start()

    def run(self):
        for port in itertools.cycle(self.cluster.ports):
            try:
                story = Story(port, self.prefix, self.next)
            except OSError:
                time.sleep(0.1)
                continue
            story.wait(2, lambda: self.take(story))
            if self.is_whole():
                return

    def take(self, story):
        """Takes what the watch was told, and whether that is all."""
        self.next = max(self.next, story.last() + 1)
        self.changes += story.changes
        story.changes.clear()
        return self.is_whole()

    def is_whole(self):
        return self.marked is not None and self.next > self.marked

    def end(self):
        """Waits until all is known that was written before."""
        self.marked = int(self.cluster.ask("/v3/kv/put", {"key": text64(self.prefix + "~"), "value": ""})["header"]["revision"])
        self.join(60 * PATIENCE)
        check(not self.is_alive(), "the members don't tell their history")
        self.by_key = {}
        for revision, key, value in self.changes:
            self.by_key.setdefault(key, []).append((revision, value))

    def at(self, key, revision):
        """What a key had at a revision, with the revision of that change, or None; and the revision of its next change, or None."""
        changes = self.by_key.get(key, [])
        after = bisect.bisect(changes, revision, key=lambda change: change[0])
        record = changes[after - 1] if after and changes[after - 1][1] is not None else None
        return record, changes[after][0] if after < len(changes) else None

    def least(self, reads, revision):
        """The least revision from this one on at which the keys had what was read of them, or None."""
        while True:
            held = {key: self.at(key, revision) for key in reads}
            wrong = [key for key in reads if held[key][0] != reads[key]]
            if not wrong:
                return revision
            later = [held[key][1] for key in wrong]
            if None in later:
                return None
            revision = max(later)


class Book:
    """What clients were told, each call with what it read and what it wrote: whether there is one order of all of it, in which no call
    stands before one that had ended when it began, and each shows what the store held there, by the cluster's history."""

    def __init__(self, history):
        self.history, self.lock = history, threading.Lock()
        self.calls, self.unknown, self.faults = [], 0, []

    def told(self, begun, where, header, reads, written=None):
        """A call was answered: what it read, the revision of its answer, and which value it wrote to which key with that revision."""
        with self.lock:
            self.calls.append((begun, time.monotonic(), where, header, reads, written))

    def wrong(self, call, why):
        self.faults.append(f"{call[2]}: at {call[3]} read {call[4]} and wrote {call[5]}: {why}")

    def judge(self):
        """Notes each answer that has no place in the order, and each value that the store took twice."""
        history, ended, floor = self.history, [], (self.history.first - 1, None)
        for call in sorted(self.calls, key=lambda call: call[0]):
            begun, end, where, header, reads, written = call
            while ended and ended[0][0] < begun:
                floor = max(floor, heapq.heappop(ended)[1:], key=lambda one: one[0])
            if written is None:
                place = history.least(reads, floor[0])
                if place is None:
                    self.wrong(call, f"it is older than {floor}, which had ended when it began")
                elif history.least(reads, header) != header:
                    self.wrong(call, "the store held something else at its revision")
            else:
                key, value = written
                place = header
                if header <= floor[0]:
                    self.wrong(call, f"it stands before {floor}, which had ended when it began")
                elif (header, value) not in history.by_key.get(key, []):
                    self.wrong(call, "the store has no such change")
                elif reads and history.least(reads, header - 1) != header - 1:
                    self.wrong(call, "the store held something else before it")
            heapq.heappush(ended, (end, place or floor[0], where))
        values = [value for _, _, value in history.changes if value]
        if len(set(values)) != len(values):
            self.faults.append(f"the store took a value twice: {[v for v in set(values) if values.count(v) > 1]}")

    def check(self, reads, writes):
        self.judge()
        self.reads, self.writes = (sum((call[5] is None) == is_read for call in self.calls) for is_read in (True, False))
        check(not self.faults, "\n  ".join([f"{len(self.faults)} answers aren't the store's:"] + self.faults[:10]))
        check(self.reads > reads and self.writes > writes, f"only {self.reads} reads and {self.writes} writes came through")


class Writer(threading.Thread):
    """Reads and writes at random, through one port after the other. Writes never go past the proxies."""

    def __init__(self, book, ports, members, keys, seed, ended):
        super().__init__(daemon=True)
        self.book, self.ports, self.members, self.keys = book, ports, members, keys
        self.random, self.ended, self.name, self.count = random.Random(seed), ended, f"client {seed}", 0

    def run(self):
        kinds = {self.get: 10, self.past: 2, self.put: 4, self.delete: 1, self.swap: 2, self.several: 2, self.all: 1}
        while not self.ended.is_set():
            kind = self.random.choices([*kinds], kinds.values())[0]
            port = self.random.choice(self.members if kind == self.past else self.ports)
            try:
                kind(port, self.random.choice(self.keys))
            except (KeyError, TypeError, ValueError) as error:
                self.book.faults.append(f"{self.name}: {kind.__name__}: {error!r}")
            time.sleep(self.random.random() * 0.004)

    def asked(self, port, path, body):
        """When a call began, and its answer, or None where there is none."""
        begun, told = time.monotonic(), post(port, path, body, 8)
        return begun, told[1] if told is not None and told[0] == 200 else None

    def read_of(self, keys, *answers):
        """What answers show of keys."""
        reads = dict.fromkeys(keys)
        for kv in (kv for answer in answers for kv in answer.get("kvs", [])):
            reads[base64.b64decode(kv["key"]).decode()] = (int(kv["mod_revision"]), base64.b64decode(kv.get("value", "")).decode())
        return reads

    def noted(self, kind, port, begun, told, reads, written=None):
        self.book.told(begun, f"{self.name}, {kind} at port {port}", int(told["header"]["revision"]), reads, written)

    def get(self, port, key):
        begun, told = self.asked(port, "/v3/kv/range", {"key": text64(key)})
        if told is not None:
            self.noted("get", port, begun, told, self.read_of([key], told))

    def past(self, port, key):
        self.get(port, key)

    def all(self, port, _):
        """Reads all keys at once."""
        prefix = self.book.history.prefix
        begun, told = self.asked(port, "/v3/kv/range", {"key": text64(prefix), "range_end": text64(prefix + "~")})
        if told is not None:
            self.noted("range", port, begun, told, self.read_of(self.keys, told))

    def several(self, port, _):
        """A transaction that only reads."""
        keys = self.random.sample(self.keys, 3)
        begun, told = self.asked(port, "/v3/kv/txn", {"success": [{"request_range": {"key": text64(key)}} for key in keys]})
        if told is not None:
            self.noted("reads", port, begun, told, self.read_of(keys, *(one.get("response_range", {}) for one in told["responses"])))

    def value(self):
        self.count += 1
        return f"{self.name} {self.count}"

    def put(self, port, key):
        value = self.value()
        begun, told = self.asked(port, "/v3/kv/put", {"key": text64(key), "value": text64(value)})
        if told is None:
            self.book.unknown += 1
        else:
            self.noted("put", port, begun, told, {}, (key, value))

    def delete(self, port, key):
        begun, told = self.asked(port, "/v3/kv/deleterange", {"key": text64(key)})
        if told is None:
            self.book.unknown += 1
        elif "deleted" in told:
            self.noted("delete", port, begun, told, {}, (key, None))
        else:
            self.noted("delete of none", port, begun, told, {key: None})

    def swap(self, port, key):
        """A transaction that reads the key and puts it."""
        value = self.value()
        begun, told = self.asked(port, "/v3/kv/txn", {"success": [{"request_range": {"key": text64(key)}},
                                                                  {"request_put": {"key": text64(key), "value": text64(value)}}]})
        if told is None:
            self.book.unknown += 1
        else:
            self.noted("swap", port, begun, told, self.read_of([key], told["responses"][0].get("response_range", {})), (key, value))


class Watcher(threading.Thread):
    """Watches keys through one proxy after the other, each time from where it stopped, and keeps what each watch was told."""

    def __init__(self, history, ports, seed):
        super().__init__(daemon=True)
        self.history, self.ports, self.random, self.stories = history, ports, random.Random(seed), []
        self.start()

    def is_done(self):
        marked = self.history.marked
        return marked is not None and any(story.last() >= marked for story in self.stories[-1:])

    def run(self):
        first = 0
        while not self.is_done():
            try:
                story = Story(self.random.choice(self.ports), self.history.prefix, first)
            except OSError:
                time.sleep(0.1)
                continue
            self.stories.append(story)
            story.wait(3, self.is_done)
            # behind a compaction it goes on from what is there then
            first = 0 if story.compacted or story.first == 0 else max(story.first, story.last() + 1)

    def check(self):
        """Each watch was told the history from where it began, whole and in order, and the last one all of it."""
        self.join(60 * PATIENCE)
        check(not self.is_alive(), "a watch isn't told the last change")
        for story in self.stories:
            at = bisect.bisect_left(self.history.changes, story.first, key=lambda change: change[0])
            wanted = self.history.changes[at:at + len(story.changes)]
            check(story.changes == wanted, f"a watch from {story.first} was told {story.changes[:50]}, and the store has {wanted[:50]}")
        return sum(len(story.changes) for story in self.stories)


class Trial:
    """Clients and watches at random on the keys under a prefix, through proxies, until so many seconds are over."""

    def __init__(self, world, prefix, proxies, seconds):
        self.ended, self.proxies = threading.Event(), proxies
        self.history = History(world.cluster, prefix)
        self.book = Book(self.history)
        ports = [proxy.port for proxy in proxies]
        self.watchers = [Watcher(self.history, ports, world.seed + n) for n in range(3)]
        self.clients = [Writer(self.book, ports, world.cluster.ports, [f"{prefix}{n}" for n in range(20)], world.seed + n, self.ended) for n in range(8)]
        for client in self.clients:
            client.start()
        threading.Timer(seconds, self.ended.set).start()

    def end(self, reads, writes):
        """Judges it, and says what there was."""
        for client in self.clients:
            client.join(30)
        for proxy in self.proxies:
            until(proxy.answers, 15, "the proxy answers once all is well")
        self.history.end()
        told = sum(watcher.check() for watcher in self.watchers)
        self.book.check(reads, writes)
        for proxy in self.proxies:
            proxy.stop()
        return (f"{self.book.reads} reads, {self.book.writes} acknowledged writes, {self.book.unknown} without an answer, "
                f"and {told} events of {sum(len(watcher.stories) for watcher in self.watchers)} watches are those of the cluster's history, in one order")


def troubles(world, trial, chance):
    """What happens meanwhile, one thing after the other."""
    cluster, ended = world.cluster, trial.ended

    def proxy_dies(proxy):
        proxy.kill()
        time.sleep(0.5)
        proxy.start()

    def proxy_rests(proxy):
        proxy.process.send_signal(signal.SIGSTOP)
        ended.wait(world.ttl + 2)
        proxy.process.send_signal(signal.SIGCONT)

    def member_dies(number):
        cluster.kill(number)
        ended.wait(1)
        cluster.start(number)

    def member_rests(number):
        cluster.signal(number, signal.SIGSTOP)
        ended.wait(10 if not world.short else 2)
        cluster.signal(number, signal.SIGCONT)

    def compacted(number):
        cluster.compact(trial.history.next - 1)
        if cluster.is_etcd:
            subprocess.run(["etcdctl", f"--endpoints=127.0.0.1:{cluster.ports[number]}", "defrag"], capture_output=True,
                           env={**os.environ, "ETCDCTL_API": "3"})

    happened, kinds = [], []
    all_kinds = [proxy_dies, proxy_rests, compacted, *([member_dies, member_rests] if cluster.is_etcd else [])]
    while not ended.wait(1):
        # each kind once before any comes again
        kinds = kinds or chance.sample(all_kinds, len(all_kinds))
        what = kinds.pop()
        what(chance.choice(trial.proxies) if what in (proxy_dies, proxy_rests) else chance.randrange(len(cluster.ports)))
        happened.append(what.__name__)
    return happened


def truth(world):
    """All that clients are told has one order, which is the store's."""
    proxies = [world.proxy(f"truth{n}", f"--leasing-prefix={LEASING}") for n in range(2)]
    trial = Trial(world, "t/", proxies, 12 if world.short else 60)
    happened = troubles(world, trial, random.Random(world.seed))
    print(f"truth: {trial.end(100, 30)}; meanwhile {', '.join(happened)}")


# ---- links that fail

@contextlib.contextmanager
def far_away(count=1):
    """A network of its own, by its name, which is reached over links, each by the names of its ends here and there, and their addresses; or nothing
    where there can be none."""
    name = f"far{os.getpid()}"
    # one of its own for each run on this machine
    net = os.getpid() % 100 * 2
    links = [(f"fo{os.getpid()}.{n}", f"ft{os.getpid()}.{n}", f"10.213.{net + n}.1", f"10.213.{net + n}.2") for n in range(count)]
    ip = lambda *words: subprocess.run(["ip", *words], capture_output=True, check=True)
    try:
        ip("netns", "add", name)
    except (OSError, subprocess.CalledProcessError):
        yield None
        return
    try:
        ip("-n", name, "link", "set", "lo", "up")
        for ours, theirs, here, there in links:
            ip("link", "add", ours, "type", "veth", "peer", "name", theirs, "netns", name)
            ip("addr", "add", f"{here}/30", "dev", ours)
            ip("link", "set", ours, "up")
            ip("-n", name, "addr", "add", f"{there}/30", "dev", theirs)
            ip("-n", name, "link", "set", theirs, "up")
        yield name, links
    finally:
        ip("netns", "del", name)


class Relay(threading.Thread):
    """What lies between proxies and one member: it may hold what goes to the member, what comes from it, or both, lose the member's end of each
    connection, refuse connections, and be slow. An end that is left open without its other one is closed with the next change, as the system would do
    when it has asked for that one in vain, which here would take too long."""

    def __init__(self, target):
        super().__init__(daemon=True)
        self.target, self.listener, self.state, self.ended = target, None, "well", False
        self.lock, self.pairs, self.halves = threading.Lock(), [], []
        self.port = free_port()
        self.listen()
        self.start()

    def listen(self):
        self.listener = socket.create_server(("127.0.0.1", self.port), backlog=256)
        self.listener.settimeout(0.1)

    def run(self):
        while not self.ended:
            try:
                client, _ = self.listener.accept()
                member = socket.create_connection(self.target, 5)
            except OSError:
                time.sleep(0.01)
                continue
            with self.lock:
                self.pairs.append((client, member))
            for end in (client, member):
                end.settimeout(0.2)
            for source, sink, way in ((client, member, "to"), (member, client, "from")):
                threading.Thread(target=self.carry, args=(source, sink, way), daemon=True).start()

    def carry(self, source, sink, way):
        """Carries what comes one way, and its end."""
        piece = b""
        while not self.ended:
            try:
                piece = piece or source.recv(65536)
                if self.state in (way, "both"):
                    time.sleep(0.02)
                    continue
                if self.state == "slow":
                    time.sleep(0.05)
                if not piece:
                    break
                sink.sendall(piece)
                piece = b""
            except TimeoutError:
                continue
            except OSError:
                break
        for end in (source, sink) if self.state != "half" else ():
            end.close()

    def become(self, state):
        """How it carries from now on: well, to, from, both, slow, half or cut."""
        if self.state == "cut":
            self.listen()
        self.state = state
        with self.lock:
            ends, self.halves = self.halves, []
            if state in ("half", "cut"):
                ends += [member for _, member in self.pairs]
                self.halves = [client for client, _ in self.pairs]
                self.pairs = []
            if state == "cut":
                ends, self.halves = ends + self.halves, []
                self.listener.close()
        for end in ends:
            with contextlib.suppress(OSError):
                end.shutdown(socket.SHUT_RDWR)

    def stop(self):
        self.become("cut")
        self.ended = True


class FarCluster(Cluster):
    """Three members of which the first is in a network of its own, reached by clients over its first link, through a relay, and by the others over the
    second one."""

    def __init__(self, folder, name, links):
        self.name, (*_, self.there), (*_, self.home, self.far) = name, *links
        self.relay, self.inner = None, free_port()
        super().__init__(folder)

    def at(self, number):
        return self.far if number == 0 else self.home

    def start(self, number):
        if self.relay is None:
            self.relay = Relay((self.there, self.inner))
            self.ports[0] = self.relay.port
        super().start(number)

    def words(self, number):
        """How a member is started, and where its clients find it."""
        return (["ip", "netns", "exec", self.name], f"http://{self.there}:{self.inner}") if number == 0 else super().words(number)

    def stop(self):
        super().stop()
        self.relay.stop()


class Relays:
    """A relay before each member, as a cluster that proxies may be started before."""

    def __init__(self, cluster):
        self.all = [Relay(("127.0.0.1", port)) for port in cluster.ports]
        self.ports = [relay.port for relay in self.all]

    def stop(self):
        for relay in self.all:
            relay.stop()


def links(world):
    """The same, whatever the links do."""
    chance, relays = random.Random(world.seed), Relays(world.cluster)
    proxies = [world.proxy(f"links{n}", f"--leasing-prefix={LEASING}", before=relays) for n in range(2)]
    trial, happened, states = Trial(world, "k/", proxies, 18 if world.short else 90), [], []
    while not trial.ended.wait(1):
        states = states or chance.sample(["to", "from", "both", "slow", "half", "cut"], 6)
        # one link, or all: then nothing but cached reads is answered
        some, state = chance.choice([relays.all, *([relay] for relay in relays.all)]), states.pop()
        for relay in some:
            relay.become(state)
        trial.ended.wait(chance.choice([1, 2, world.ttl + 3]) if not world.short else 2)
        for relay in some:
            relay.become("well")
        happened.append(f"{state} {len(some)}")
    told = trial.end(50, 10)
    relays.stop()
    print(f"links: {told}; meanwhile {', '.join(happened)}")


# ---- equal watches

def watched(watches, holds, seconds, what):
    """Reads from all watches until it holds."""
    ready = selectors.DefaultSelector()
    for watch in watches:
        ready.register(watch.socket, selectors.EVENT_READ, watch)
    end = time.monotonic() + seconds * PATIENCE
    while not holds():
        check(time.monotonic() < end, f"{what}: not within {seconds} s")
        for key, _ in ready.select(0.1):
            key.data.read()
            if key.data.ended:
                ready.unregister(key.fileobj)
    ready.close()


def put(proxy, key, value):
    """Puts until it is acknowledged. Its revision."""
    for _ in range(20):
        told = proxy.post("/v3/kv/put", {"key": text64(key), "value": text64(value)})
        if told is not None and told[0] == 200:
            return int(told[1]["header"]["revision"])
        time.sleep(0.2)
    raise Failure(f"put of {key}: {told}")


def watches(world):
    """Equal watches share one watcher of the cluster, and each gets each event once and in order."""
    count = 200 if world.short else 1000
    proxy = world.proxy("watches")
    put(proxy, "w/0", "before")
    world.cluster.unwatched()
    all_watches = [Watch(proxy.port, {"key": text64("w/"), "range_end": text64("w0")}) for _ in range(count)]
    watched(all_watches, lambda: all(w.created for w in all_watches), 30, "all watches are created")
    check(world.cluster.watchers() in (1, None), f"{count} equal watches: {world.cluster.watchers()} watchers")
    written = []
    for number in range(20):
        value = f"value {number}"
        written.append((put(proxy, f"w/{number % 3}", value), value))
        if number == 7 and world.cluster.is_etcd:
            world.cluster.kill(1)
        if number == 14 and world.cluster.is_etcd:
            world.cluster.start(1)
    last = written[-1]
    watched(all_watches, lambda: all(w.events and w.events[-1][0] >= last[0] for w in all_watches), 60, "all events come")
    for watch in all_watches:
        # A put that was tried again may have been done twice. What a watch receives rises, and has what was acknowledged.
        revisions = [revision for revision, _ in watch.events]
        check(revisions == sorted(set(revisions)), f"a watch received {watch.events}")
        check(set(written) <= set(watch.events), f"a watch received {watch.events}, and {written} was written")
        check(watch.events == all_watches[0].events and watch.created == 1 and not watch.ended, "two equal watches received other events")
    until(lambda: all(map(world.cluster.answers, range(len(world.cluster.ports)))), 30, "the members answer")
    for watch in all_watches:
        watch.socket.close()
    proxy.stop()
    shared = "were one watcher" if world.cluster.is_etcd else "were begun"
    print(f"watches: {count} equal watches {shared}; each received {len(all_watches[0].events)} events once and in order")


# ---- at rest

def rest(world):
    """Watches and owned keys outlast compactions at rest."""
    proxy = world.proxy("rest", f"--leasing-prefix={LEASING}")
    keys = [f"r/{n}" for n in range(50)]
    for key in keys:
        put(proxy, key, "v")
        proxy.post("/v3/kv/range", {"key": text64(key)})
    owned = lambda: world.cluster.ask("/v3/kv/range", {"key": text64(LEASING + "r/"), "range_end": text64(LEASING + "r0")})["kvs"]
    before = {kv["key"]: kv["create_revision"] for kv in owned()}
    check(len(before) == len(keys), f"{len(before)} of {len(keys)} keys are owned")
    all_watches = [Watch(proxy.port, {"key": text64(f"r/{n}")}) for n in range(20)]
    watched(all_watches, lambda: all(w.created for w in all_watches), 30, "all watches are created")
    end = time.monotonic() + (20 if world.short else 120)
    while time.monotonic() < end:
        world.cluster.ask("/v3/kv/put", {"key": text64("elsewhere"), "value": ""})
        world.cluster.compact()
        watched(all_watches, lambda when=time.monotonic(): time.monotonic() > when + 10, 15, "ten seconds pass")
    told = [(w.ended, w.events) for w in all_watches if w.ended or w.events]
    check(not told, f"{len(told)} watches at rest were told something, the first (ended, events) {told[:1]}")
    check({kv["key"]: kv["create_revision"] for kv in owned()} == before, "an owned key was given up at rest")
    proxy.stop()
    print(f"rest: {len(all_watches)} watches and {len(keys)} owned keys outlasted the compactions")


def exchanged(port, sent, ends=True):
    """What is answered to these bytes, behind which the client sends nothing more."""
    with socket.create_connection(("127.0.0.1", port), 10) as client:
        client.sendall(sent)
        if ends:
            client.shutdown(socket.SHUT_WR)
        return b"".join(iter(lambda: client.recv(65536), b""))


def head(*fields, method=b"POST", path=b"/v3/kv/range", version=b"1.1"):
    return b"%s %s HTTP/%s\r\n" % (method, path, version) + b"".join(field + b"\r\n" for field in (b"Host: h",) + fields) + b"\r\n"


BAD = b'{"code":3,"message":"proxy: bad request"}'

# bytes that a client sends, and the status and the body that they are answered with (RFC 9112, and the limits in docs/FORMATS.md)
WRONG = [
    (head(b"Content-Length: 2", b"Transfer-Encoding: chunked") + b"{}", 400, BAD),
    (head(version=b"1.0"), 400, BAD),
    (head(b"Content-Length: 4194305"), 400, BAD),
    (head(b"Transfer-Encoding: chunked") + b"zz\r\n", 400, BAD),
    (head(b"Content-Length: 2", b"Content-Encoding: gzip", b"Connection: close") + b"{}", 501,
     b'{"code":12,"message":"proxy: unsupported: Content-Encoding"}'),
    (head(b"Connection: close", method=b"GET"), 405, b'{"code":12,"message":"proxy: method not allowed"}'),
    (head(b"Connection: close", method=b"HEAD"), 405, b""),
    (head(b"Connection: close", path=b"/v3/kv/rang"), 404, b'{"code":5,"message":"proxy: no such path"}'),
    (head(b"Connection: close", b"Content-Length: 1") + b"{", 400, b'{"code":3,"message":"proxy: not JSON"}'),
    (head(b"Connection: close", b"Content-Length: 8") + b'{"zz":1}', 400, b'{"code":3,"message":"proxy: unknown field: zz"}'),
]


def next_reply(client):
    """The status and the body of the next reply on a connection."""
    told = b""
    while True:
        text, end, body = told.partition(b"\r\n\r\n")
        length = re.search(rb"Content-Length: (\d+)", text)
        if end and len(body) >= int(length[1]):
            return int(text[9:12]), body
        try:
            piece = client.recv(65536)
        except TimeoutError:
            piece = b""
        check(piece, f"a connection ended or said nothing behind {told}")
        told += piece


def clients(world):
    """Many connections, clients that stop, and bytes that are no request."""
    proxy = world.proxy("clients", f"--leasing-prefix={LEASING}", ttl=60)
    put(proxy, "c/0", "v")
    body = json.dumps({"key": text64("c/0")}).encode()
    whole = head(b"Content-Length: %d" % len(body)) + body
    last = head(b"Connection: close", b"Content-Length: %d" % len(body)) + body
    kvs = json.loads(exchanged(proxy.port, last, False).split(b"\r\n\r\n", 1)[1])["kvs"]
    for stop in range(len(whole)):
        told = exchanged(proxy.port, whole[:stop])
        check(told == b"" if stop == 0 else told.startswith(b"HTTP/1.1 400 ") and told.endswith(BAD), f"stopped at byte {stop}: {told}")
        socket.create_connection(("127.0.0.1", proxy.port)).sendall(whole[:stop])
    for sent, status, said in WRONG:
        told = exchanged(proxy.port, sent, False)
        check(told.startswith(b"HTTP/1.1 %d " % status) and told.split(b"\r\n\r\n", 1)[1] == said, f"{sent}: {told}")
    chunked = head(b"Connection: close", b"Transfer-Encoding: chunked", b"Expect: 100-continue") + b"%x;x=1\r\n%s\r\n0\r\nA: b\r\n\r\n" % (len(body), body)
    told = exchanged(proxy.port, chunked, False)
    check(told.startswith(b"HTTP/1.1 100 Continue\r\n\r\nHTTP/1.1 200 OK\r\n") and json.loads(told.rsplit(b"\r\n", 1)[1])["kvs"] == kvs, f"chunked: {told}")
    count, times = (100, 20) if world.short else (1000, 100)
    open_ones, refused = [socket.create_connection(("127.0.0.1", proxy.port), 30 * PATIENCE) for _ in range(count)], 0
    for _ in range(times):
        for one in open_ones:
            one.sendall(whole)
        for one in open_ones:
            status, told = next_reply(one)
            refused += status != 200
            check(status in (503, 504) or json.loads(told)["kvs"] == kvs, f"a reply was {status} {told}")
    check(refused <= count * times // 100, f"{refused} of {count * times} requests were refused")
    for one in open_ones:
        one.close()
    proxy.stop()
    print(f"clients: {count} connections had {times} replies each, {refused} of them refusals; stops at {len(whole)} bytes and {len(WRONG)} wrong requests were told")


def halves(world):
    """A client that closed its sending half has its reply."""
    proxy, count = world.proxy("halves", "--workers=64"), 600
    put(proxy, "h/0", "v")
    told = []

    def ask(path, body):
        body = json.dumps(body).encode()
        for _ in range(count // 12):
            told.append(exchanged(proxy.port, head(b"Content-Length: %d" % len(body), path=path) + body)[:12])

    asked = [(b"/v3/kv/put", {"key": text64(f"h/{n}"), "value": text64("w")}) for n in range(6)] + [
        (b"/v3/kv/range", {"key": text64(f"h/{n}")}) for n in range(6)]
    threads = [threading.Thread(target=ask, args=one) for one in asked]
    for one in threads:
        one.start()
    for one in threads:
        one.join()
    check(told == [b"HTTP/1.1 200"] * count, f"{told.count(b'HTTP/1.1 200')} of {count} clients that closed their sending half had a reply")
    time.sleep(2)
    threads, watch = proxy.counts()[0], Watch(proxy.port, {"key": text64("h/")})
    watched([watch], lambda: watch.created, 10, "a watch is created")
    watch.socket.shutdown(socket.SHUT_WR)
    watched([watch], lambda: watch.ended, 25, "a watch whose client closed its sending half ends")
    until(lambda: proxy.counts()[0] <= threads, 10, "its threads end")
    proxy.stop()
    print(f"halves: {count} clients that closed their sending half behind a request had their replies")


def leavers(world):
    """Clients that went away leave nothing."""
    proxy = world.proxy("leavers")
    put(proxy, "w/0", "v")
    world.cluster.unwatched()
    threads, _ = proxy.counts()
    # as many as one a second for an hour
    for _ in range(9):
        some = [Watch(proxy.port, {"key": text64("w/"), "range_end": text64("w0")}) for _ in range(200)]
        idle = [socket.create_connection(("127.0.0.1", proxy.port)) for _ in range(200)]
        watched(some, lambda: all(w.created for w in some), 30, "all watches are created")
        for one in some:
            one.socket.close()
        for one in idle:
            one.close()
    # A watch that rests looks for its client each ten seconds, and a stream that nobody watches ends at its next message.
    until(lambda: proxy.counts()[0] <= threads + 1, 30, "threads of clients that went away are gone")
    put(proxy, "w/0", "w")
    until(lambda: proxy.counts()[0] <= threads and world.cluster.watchers() == 0, 30, "nothing of clients that went away is left")
    files = proxy.files()
    some = [Watch(proxy.port, {"key": text64(f"idle/{n}")}) for n in range(300)]
    watched(some, lambda: all(w.created for w in some), 30, "all watches are created")
    check(world.cluster.watchers() >= 300, "watches of distinct ranges have a watcher each")
    for one in some:
        one.socket.close()
    until(lambda: proxy.counts()[0] <= threads and proxy.files() <= files and world.cluster.watchers() == 0, 25,
          "nothing is left of clients that watched what nobody wrote")
    count, most, begun = 10_000, 0, time.monotonic()
    for number in range(count):
        one = Watch(proxy.port, {"key": text64(f"one/{number}")})
        watched([one], lambda: one.created, 10, "a watch is created")
        one.socket.close()
        if number % 20 == 0:
            most = max(most, proxy.counts()[0])
            check(most <= 400, f"{number} clients one after the other, in {time.monotonic() - begun:.0f} s, had {most} threads")
    took = time.monotonic() - begun
    until(lambda: proxy.counts()[0] <= threads and proxy.files() <= files and world.cluster.watchers() == 0, 25,
          "nothing is left of clients that came one after the other")
    proxy.stop()
    print(f"leavers: 1,800 watches, 1,800 idle connections and 300 watches of distinct idle ranges that went away left no thread, descriptor or watcher; "
          f"{count} clients one after the other, in {took:.0f} s, had {most} threads at most")


def canceled(world):
    """Watches that the members cancel pile up nothing."""
    proxy = world.proxy("canceled")
    for number in range(5):
        put(proxy, "x/0", str(number))
    world.cluster.compact()
    time.sleep(2)
    threads = proxy.counts()[0]
    empty = Watch(proxy.port, {"key": text64("x/"), "range_end": text64("x/")})
    time.sleep(6)
    check(proxy.counts()[0] <= threads + 6, f"a watch of an empty range: {threads} threads became {proxy.counts()[0]}")
    empty.socket.close()
    old = [Watch(proxy.port, {"key": text64(f"x/{n}"), "start_revision": "2"}) for n in range(100)]
    watched(old, lambda: all(w.ended for w in old), 30, "watches behind a compaction are canceled")
    for one in old:
        one.socket.close()
    until(lambda: proxy.counts()[0] <= threads + 2, 30, "the threads of canceled watches end")
    proxy.stop()
    print("canceled: a watch of an empty range and 100 watches behind a compaction left no threads")


def room(world):
    """Memory and threads at rest are what they were."""
    proxy = world.proxy("room", f"--leasing-prefix={LEASING}")
    lots = lambda: [proxy.post("/v3/kv/range", {"key": text64(f"m/{n % 500}")}) for n in range(2000)]
    lots()
    threads, memory = proxy.counts()
    for _ in range(5):
        lots()
    until(lambda: proxy.counts()[0] <= threads, 30, "threads end")
    after = proxy.counts()[1]
    check(after < memory * 1.2 + 1024, f"{memory} KB became {after} KB")
    proxy.stop()
    print(f"room: {threads} threads at rest, {memory} KB became {after} KB over 10,000 reads")


def check_refused(client):
    """A client for which there is no room is told so, and its connection is closed."""
    status, told = next_reply(client)
    check((status, told) == (503, b'{"code":14,"message":"proxy: too many connections"}') and client.recv(1) == b"", f"a connection too many: {status} {told}")


def descriptors(world):
    """A process with few descriptors serves those whom it lets in."""
    proxy = Proxy(world.program, world.cluster, world.folder, "descriptors", files=256)
    world.proxies.append(proxy)
    put(proxy, "f/0", "v")
    check(proxy.lines("at most 192 connections"), f"the proxy told: {proxy.lines()}")
    # the connections so far linger for a second
    time.sleep(2)
    some = [socket.create_connection(("127.0.0.1", proxy.port), 5 * PATIENCE) for _ in range(250)]
    for one in some[192:]:
        check_refused(one)
    body = json.dumps({"key": text64("f/0"), "value": text64("w")}).encode()
    for one in (some[0], some[191]):
        one.sendall(head(b"Content-Length: %d" % len(body), path=b"/v3/kv/put") + body)
        check(next_reply(one)[0] == 200, "a put on a connection that was let in is done")
    until(lambda: (proxy.post("/v3/kv/put", json.loads(body)) or (0,))[0] == 200, 65, "connections at rest make room")
    for one in some:
        one.close()
    proxy.stop()
    print("descriptors: of 250 connections with 256 descriptors 192 were let in and served, and made room when they rested")


def uploads(world):
    """Large requests that come slowly hold nobody up."""
    proxy, count = world.proxy("uploads", "--workers=64"), 64
    put(proxy, "u/0", "v")
    stopped = [socket.create_connection(("127.0.0.1", proxy.port), 30) for _ in range(count)]
    for one in stopped:
        one.sendall(head(b"Content-Length: 4194304", path=b"/v3/kv/put") + bytes(70_000))
    time.sleep(1)
    begun = time.monotonic()
    told = proxy.post("/v3/kv/put", {"key": text64("u/0"), "value": "v" * 80_000})
    took = time.monotonic() - begun
    check(told is not None and told[0] == 200 and took < PATIENCE, f"a put beside {count} uploads took {took:.1f} s: {told}")
    for one in stopped:
        one.close()
    # more than there is room for: the slowest make it
    _, memory = proxy.counts()
    size, large = 4_000_000, [socket.create_connection(("127.0.0.1", proxy.port), 20) for _ in range(80)]

    def send(one):
        with contextlib.suppress(OSError):
            one.sendall(head(b"Content-Length: 4194304", path=b"/v3/kv/put") + bytes(size))

    for one in large:
        threading.Thread(target=send, args=(one,), daemon=True).start()
    time.sleep(3)
    # a fresh one, which comes at once, isn't the slowest: the others make room for it
    begun = time.monotonic()
    fresh = proxy.post("/v3/kv/put", {"key": text64("u/0"), "value": "v" * 80_000})
    waited = time.monotonic() - begun
    check(fresh is not None and fresh[0] == 200, f"a put behind uploads that fill the room, after {waited:.1f} s: {fresh}")
    time.sleep(7)
    grown = (proxy.counts()[1] - memory) / 1024
    check(grown < 512, f"uploads took {grown:.0f} MB")
    # (the system says so to a client whose socket is read)
    ended = sum(select.select([one], [], [], 0)[0] != [] for one in large)
    check(ended * size > len(large) * size - (256 << 20), f"of {len(large)} uploads {ended} were ended")
    for one in large:
        with contextlib.suppress(OSError):
            one.shutdown(socket.SHUT_RDWR)
        one.close()
    until(lambda: (proxy.post("/v3/kv/put", {"key": text64("u/0"), "value": "v" * 80_000}) or (0,))[0] == 200, 10, "a put behind them is done")
    proxy.stop()
    print(f"uploads: a put of 80,000 bytes took {took:.2f} s beside {count} uploads that stopped, and {waited:.2f} s where they filled the room; of {len(large) * size >> 20} MB of uploads, which took "
          f"{grown:.0f} MB, {ended} of {len(large)} were ended")


def limit(world):
    """So many connections are open at most, as are asked for."""
    files = resource.getrlimit(resource.RLIMIT_NOFILE)
    for most, options in ((20, ("--max-connections=20",)), (4096, ())):
        try:
            resource.setrlimit(resource.RLIMIT_NOFILE, (3 * 4096, max(files[1], 3 * 4096)))
        except (ValueError, OSError):
            print("limit: not tried, since so many files can't be open here")
            return
        limit_of(world, most, options)
        resource.setrlimit(resource.RLIMIT_NOFILE, files)


def limit_of(world, most, options):
    proxy = world.proxy("limit", *options)
    put(proxy, "l/0", "v")
    # the connections so far linger for a second
    time.sleep(2)
    threads = proxy.counts()[0]
    body = json.dumps({"key": text64("l/0")}).encode()
    ask = lambda client: client.sendall(head(b"Content-Length: %d" % len(body)) + body)
    kept = [socket.create_connection(("127.0.0.1", proxy.port), 30) for _ in range(most)]
    until(lambda: proxy.counts()[0] >= threads + most, 60, f"{most} connections have their threads beside {threads}")
    with socket.create_connection(("127.0.0.1", proxy.port), 30) as further:
        check_refused(further)
    for one in (kept[0], kept[-1]):
        ask(one)
        check(next_reply(one)[0] == 200, "a connection among as many as may be is served")
    kept.pop().close()
    until(lambda: proxy.counts()[0] < threads + most, 30, "a connection that ended has no thread")
    check(proxy.post("/v3/kv/range", {"key": text64("l/0")})[0] == 200, "a connection is served where one ended")
    for one in kept:
        one.close()
    until(lambda: proxy.counts()[0] <= threads, 60, "all threads end")
    proxy.stop()
    print(f"limit: {most} connections were served at once, a further one was refused, and all threads ended")


def deep(world):
    """Bodies that nest as deep as JSON may here, and deeper, on the small stack of a connection's thread."""
    proxy = world.proxy("deep")

    def nested(levels, branch):
        operations = [{"request_put": {"key": text64(f"d/{branch}"), "value": text64("v")}}, {"request_range": {"key": text64("d/0")}}]
        for _ in range(levels):
            operations = [{"request_txn": {branch: operations}}]
        compare = [{"key": text64("d/none"), "target": "VERSION", "version": "0" if branch == "success" else "1"}]
        return {"compare": compare, branch: operations}

    wide = {"compare": [{"key": text64("d/none"), "target": "VERSION", "version": "0"}] * 128,
            "success": [{"request_put": {"key": text64(f"d/{i}"), "value": text64("v" * 1000)}} for i in range(128)],
            "failure": [{"request_range": {"key": text64("d/"), "range_end": text64("d0")}}] * 128}
    statuses = {}
    # transactions within transactions aren't supported, which is said of those that JSON may nest so deep
    for name, body, wanted in [("1 level", nested(1, "success"), [501]), ("20 levels", nested(20, "failure"), [501]), ("40 levels", nested(40, "success"), [501]),
                               ("41 levels", nested(41, "failure"), [400, 501]), ("60 levels", nested(60, "success"), [400]),
                               ("300 levels", nested(300, "success"), [400]), ("three lists of 128", wide, [200])]:
        told = proxy.post("/v3/kv/txn", body, 20)
        check(told is not None, f"a transaction of {name} has a reply")
        check(told[0] in wanted, f"a transaction of {name} has one of the statuses {wanted}, not {told}")
        statuses[name] = told[0]
    for depth in (100, 126, 127, 128, 129, 10_000, 1_000_000):
        told = proxy.post("/v3/kv/range", '{"key":' + "[" * depth + "]" * depth + "}", 20)
        check(told is not None and told[0] == 400, f"a body of depth {depth} is refused, not {told}")
    check(proxy.post("/v3/kv/range", {"key": text64("d/success")})[0] == 200, "the proxy serves on")
    proxy.stop()
    print("deep: " + ", ".join(f"{name} {status}" for name, status in statuses.items()) + "; bodies of a depth to 1,000,000 were refused")


# ---- members that fail before a proxy that makes no call

def side_by_side(*runs):
    """Does these at the same time, and fails where one does."""
    failures = []

    def tried(run):
        try:
            run()
        except Exception as error:
            failures.append(error)

    threads = [threading.Thread(target=tried, args=(run,)) for run in runs]
    for thread in threads:
        thread.start()
    for thread in threads:
        thread.join()
    if failures:
        raise failures[0]


# how a member fails, and for how many seconds at most a proxy that makes no call may be without it
FAILS = {"killed": (signal.SIGKILL, 5), "hung": (signal.SIGSTOP, 25)}

# a session that lives so long isn't renewed meanwhile
LONG = 3600


def other_put(cluster, keys, value):
    """Puts keys in one transaction, past the proxies and the first member, once that can be done. Its revision."""
    body = {"success": [{"request_put": {"key": text64(key), "value": text64(value)}} for key in keys]}
    end = time.monotonic() + 60 * PATIENCE
    for port in itertools.cycle(cluster.ports[1:]):
        told = post(port, "/v3/kv/txn", body, 5)
        if told is not None and told[0] == 200:
            return int(told[1]["header"]["revision"])
        check(time.monotonic() < end, "no member takes a write beside one that fails")


def failing_member(world, how, test):
    """Does the test over a cluster of its own, whose first member it lets fail."""
    with world.beside(how) as beside:
        what, seconds = FAILS[how]
        test(beside, how, lambda: beside.cluster.signal(0, what), seconds)


def quiet(world):
    """Watches leave a member that fails, where no call does."""
    ways = [(count, options) for count in ((100,) if world.short else (1, 100)) for options in ((), (f"--leasing-prefix={LEASING}",))]

    took = []

    def test(beside, how, fail, seconds):
        keys = [f"q/{n}" for n in range(100)]
        proxies = [(beside.proxy(f"quiet{n}", *options, ttl=LONG), count) for n, (count, options) in enumerate(ways)]
        watches = [Watch(proxy.port, {"key": text64(key)}) for proxy, count in proxies for key in keys[:count]]
        watched(watches, lambda: all(w.created for w in watches), 30, "all watches are created")
        # until a stream was silent for a while
        time.sleep(7)
        fail()
        revision = other_put(beside.cluster, keys, "v")
        begun = time.monotonic()
        watched(watches, lambda: all(w.ended or w.events and w.events[-1][0] >= revision for w in watches), seconds, "all events come")
        took.append(f"{how} {time.monotonic() - begun:.1f} s")
        # a put whose answer was lost may have been done, and is done again
        other = [(w.ended, w.events) for w in watches if w.ended or w.events != watches[0].events or w.events[-1] != (revision, "v")]
        check(not other, f"beside the event of {revision}, {len(other)} watches (ended, events): {other[:3]}")

    side_by_side(*(lambda how=how: failing_member(world, how, test) for how in FAILS))
    print(f"quiet: the watches of {len(ways)} proxies that made no call left a member that failed ({', '.join(took)})")


# how the link to a member fails, and for how many seconds at most a proxy that makes no call may be without that member
LINKS_FAIL = {"to": 25, "from": 25, "both": 25, "slow": 25, "cut": 5}


def quiet_links(world):
    """Watches leave a member whose link fails, where no call does, and are told nothing twice once it is well."""
    count, took = 20, {}
    with world.beside("quiet_links") as beside:
        keys = [f"q/{n}" for n in range(count)]
        rows = []
        for how, seconds in LINKS_FAIL.items():
            relays = Relays(beside.cluster)
            proxy = beside.proxy(f"quiet_{how}", f"--leasing-prefix={LEASING}", ttl=LONG, before=relays)
            rows.append((how, seconds, relays, [Watch(proxy.port, {"key": text64(key)}) for key in keys]))
        watched([w for *_, watches in rows for w in watches], lambda: all(w.created for *_, watches in rows for w in watches), 30,
                "all watches are created")
        time.sleep(7)

        def told(how, seconds, watches, revision):
            begun = time.monotonic()
            watched(watches, lambda: all(w.ended or w.events and w.events[-1][0] >= revision for w in watches), seconds, f"all events come ({how})")
            took.setdefault(how, time.monotonic() - begun)
            other = [(w.ended, w.events) for w in watches if w.ended or w.events != watches[0].events or w.events[-1][0] != revision]
            check(not other, f"link {how}: beside the event of {revision}, {len(other)} watches (ended, events): {other[:3]}")

        for how, _, relays, _ in rows:
            relays.all[0].become(how)
        revision = other_put(beside.cluster, keys, "v")
        side_by_side(*(lambda row=row: told(row[0], row[1], row[3], revision) for row in rows))
        for *_, relays, _ in rows:
            relays.all[0].become("well")
        time.sleep(3)
        revision = other_put(beside.cluster, keys, "w")
        side_by_side(*(lambda row=row: told(row[0], 25, row[3], revision) for row in rows))
        for *_, relays, _ in rows:
            relays.stop()
    print(f"quiet_links: {count} watches of each of {len(rows)} proxies that made no call left a member whose link failed "
          f"({', '.join(f'{how} {seconds:.1f} s' for how, seconds in took.items())})")


def quorum(world):
    """Watches and an owner leave a member that is cut off from the others, where no call does."""
    with far_away(2) as far:
        if far is None:
            print("quorum: not tried, since no network can be made here")
            return
        name, links = far
        folder = tempfile.mkdtemp(prefix="quorum-", dir=world.folder)
        beside = World(world.program, world.short, folder, cluster=FarCluster(folder, name, links))
        try:
            count = 20
            keys = [f"q/{n}" for n in range(count)]
            owner, other = (beside.proxy(f"quorum{n}", f"--leasing-prefix={LEASING}", ttl=LONG) for n in range(2))
            read = lambda: owner.post("/v3/kv/range", {"key": text64("o/0")})
            own_key(owner, "o/0")
            watches = [Watch(owner.port, {"key": text64(key)}) for key in keys]
            watched(watches, lambda: all(w.created for w in watches), 30, "all watches are created")
            time.sleep(7)
            cut = lambda state: subprocess.run(["ip", "-n", name, "link", "set", links[1][1], state], check=True)
            cut("down")
            check(read()[0] == 200, "a cached read is answered")
            revision = other_put(beside.cluster, keys, "v")
            begun = time.monotonic()
            watched(watches, lambda: all(w.ended or w.events and w.events[-1][0] >= revision for w in watches), 25, "all events come")
            took = time.monotonic() - begun
            told = [(w.ended, w.events) for w in watches if w.ended or w.events != watches[0].events or w.events[-1] != (revision, "v")]
            check(not told, f"beside the event of {revision}, {len(told)} watches (ended, events): {told[:3]}")
            until(lambda: (other.post("/v3/kv/put", {"key": text64("o/0"), "value": text64("w")}) or (0,))[0] == 200, max(1, 25 - took / PATIENCE),
                  "the other proxy's put is answered")
            owned = time.monotonic() - begun
            kvs = (read() or (0, {}))[1].get("kvs", [])
            check(kvs == [] or base64.b64decode(kvs[0]["value"]) == b"w", f"a read behind that put showed {kvs}")
            # back, and behind the others
            cut("up")
            until(lambda: beside.cluster.answers(0), 30, "the member answers again")
        finally:
            beside.stop()
    print(f"quorum: {count} watches left a member that was cut off from the others within {took:.1f} s, and a key's owner within {owned:.1f} s")


def quiet_owner(world):
    """An owner hears of another proxy's write where the member that it hears of it from fails."""

    took = []

    def test(beside, how, fail, seconds):
        owner, other = (beside.proxy(f"owner{n}", f"--leasing-prefix={LEASING}", ttl=LONG) for n in range(2))
        read = lambda: owner.post("/v3/kv/range", {"key": text64("o/0")})
        put(owner, "o/0", "v")
        check(read()[0] == 200 and read()[0] == 200, "a read is answered")
        check("kvs" in beside.cluster.ask("/v3/kv/range", {"key": text64(LEASING + "o/0")}), "the key has an owner")
        time.sleep(7)
        fail()
        check(read()[0] == 200, "a cached read is answered")
        # a write that was on its way to a leader that fails is lost, which takes the cluster seconds to tell
        other_put(beside.cluster, ["o/1"], "v")
        begun = time.monotonic()
        told = lambda: other.post("/v3/kv/put", {"key": text64("o/0"), "value": text64("w")})
        until(lambda: (told() or (0,))[0] == 200, seconds, "the other proxy's put is answered")
        took.append(f"{how} {time.monotonic() - begun:.1f} s")
        kvs = (read() or (0, {}))[1].get("kvs", [])
        check(kvs == [] or base64.b64decode(kvs[0]["value"]) == b"w", f"a read behind that put showed {kvs}")

    side_by_side(*(lambda how=how: failing_member(world, how, test) for how in FAILS))
    print(f"quiet_owner: another proxy wrote a key of one that answered cached reads alone, behind a member that failed ({', '.join(took)})")


# ---- ends of proxies, planned and not

def own_key(proxy, key):
    """Has a proxy own a key."""
    put(proxy, key, "v")
    read = lambda: proxy.post("/v3/kv/range", {"key": text64(key)})
    until(lambda: read() and "kvs" in proxy.cluster.ask("/v3/kv/range", {"key": text64(LEASING + key)}), 5, "the key has an owner")


def timed_put(proxy, key, seconds, what):
    """One put, which is to be 200 within so many seconds. How many it took."""
    begun = time.monotonic()
    told = proxy.post("/v3/kv/put", {"key": text64(key), "value": text64("w")})
    took = time.monotonic() - begun
    check(told is not None and told[0] == 200 and took < seconds * PATIENCE, f"{what}: {told} after {took:.1f} s")
    return took


def restart(world):
    """A proxy that was killed ends its session when it starts again."""
    took = []
    with world.beside("restart") as beside:
        state = f"{beside.folder}/sessions"
        owner = beside.proxy("owner", f"--leasing-prefix={LEASING}", f"--state-file={state}", ttl=LONG)
        other = beside.proxy("other", f"--leasing-prefix={LEASING}", ttl=LONG)
        for number in range(3):
            for key in ("s/0", "s/1"):
                own_key(owner, key)
            second = subprocess.run([*owner.process.args[:-1], f"--state-file={state}"], stderr=subprocess.PIPE, timeout=10 * PATIENCE)
            check(second.returncode == 7 and b"another process has it" in second.stderr, f"a second process: {second}")
            owner.kill()
            if number == 2:
                # a member that is gone doesn't keep the others from it
                beside.cluster.kill(0)
            owner.start()
            took.append(timed_put(owner, "s/0", 1 if number < 2 else 5, "a put of a key that the killed proxy owned, through itself"))
            took.append(timed_put(other, "s/1", 2, "such a put through another proxy"))
        with open(state) as file:
            # those of the sessions that were left are gone
            check(len(file.read().split()) <= 3, "the file has more numbers than those that the process drew")
        with open(f"{beside.folder}/text", "w") as file:
            file.write("text\n")
        second = subprocess.run([*other.process.args, f"--state-file={beside.folder}/text"], stderr=subprocess.PIPE, timeout=10 * PATIENCE)
        check(second.returncode == 7 and b"isn't a file of sessions" in second.stderr, f"with a file of other text: {second}")
        # a session that nobody ends lives on, and no longer
        left, ttl = beside.proxy("left", f"--leasing-prefix={LEASING}", ttl=12), 12
        own_key(left, "s/2")
        left.kill()
        killed = time.monotonic()
        told = other.post("/v3/kv/put", {"key": text64("s/2"), "value": text64("w")})
        check(told is not None and told[1].get("code") == 4 and time.monotonic() < killed + 8 * PATIENCE, f"a put of a key whose owner is gone: {told}")
        until(lambda: (other.post("/v3/kv/put", {"key": text64("s/2"), "value": text64("w")}) or (0,))[0] == 200, ttl + 5, "a session that was left ends")
    print(f"restart: puts of keys that a killed proxy owned took {', '.join(f'{t:.2f}' for t in took)} s behind its start")


@contextlib.contextmanager
def small_disk(folder):
    """A disk with room for a few pages, as a folder, or nothing where there can be none."""
    os.mkdir(folder)
    mounted = subprocess.run(["mount", "-t", "tmpfs", "-o", "size=16k", "small", folder], capture_output=True)
    try:
        yield folder if mounted.returncode == 0 else None
    finally:
        subprocess.run(["umount", "-l", folder], capture_output=True)


def full(world):
    """A proxy whose state file can't be written has no session, and serves."""
    with world.beside("full") as beside, small_disk(f"{beside.folder}/disk") as disk:
        if disk is None:
            print("full: not tried, since no disk can be made here")
            return
        with open(f"{disk}/filler", "wb", 0) as filler, contextlib.suppress(OSError):
            while True:
                filler.write(bytes(4096))
        proxy = beside.proxy("full", f"--leasing-prefix={LEASING}", f"--state-file={disk}/sessions")
        put(proxy, "s/0", "v")
        read = lambda: (proxy.post("/v3/kv/range", {"key": text64("s/0")}) or (0,))[0] == 200
        owned = lambda: "kvs" in beside.cluster.ask("/v3/kv/range", {"key": text64(LEASING + "s/0")})
        for _ in range(10):
            check(read() and not owned(), "without a session a key is read, and not owned")
            time.sleep(0.3)
        check(proxy.busy(5) < 0.05 * PATIENCE, "without room for a session the proxy is busy")
        os.unlink(f"{disk}/filler")
        until(lambda: read() and owned(), 10, "there is a session once there is room")
        proxy.stop()
    print("full: a proxy whose state file had no room served, with no session, and had one once there was room")


def stopped(proxy, how, seconds):
    """Stops a proxy, which is to end with status 0 within so many seconds. How many it took."""
    begun = time.monotonic()
    how(proxy)
    until(lambda: proxy.process.poll() is not None, seconds, "a proxy that is stopped ends")
    check(proxy.process.poll() == 0, f"a proxy that was stopped ended with status {proxy.process.poll()}: {proxy.lines()}")
    return time.monotonic() - begun


# how a proxy is stopped, and whether it then runs under `tools/serve.sh`
STOPS = [("at its input's end", False, lambda proxy: proxy.process.stdin.close()), ("by SIGTERM", True, lambda proxy: proxy.process.terminate()),
         ("by SIGINT to its group", True, lambda proxy: os.killpg(proxy.process.pid, signal.SIGINT))]


def stop(world):
    """A planned stop leaves no session, and cuts no request off."""
    took = []
    with world.beside("stop") as beside:
        other = beside.proxy("other", f"--leasing-prefix={LEASING}", ttl=LONG)
        options = lambda served: () if served else ("--stop-at-end",)
        for name, served, how in STOPS:
            owner = beside.proxy("owner", f"--leasing-prefix={LEASING}", *options(served), ttl=LONG, served=served)
            own_key(owner, "s/0")
            watch = Watch(owner.port, {"key": text64("s/1")})
            watched([watch], lambda: watch.created, 10, "a watch is created")
            took.append(stopped(owner, how, 6))
            timed_put(other, "s/0", 2, f"a put of a key that a proxy owned which was stopped {name}")
        slow = Slow(beside.cluster.ports[0], 1)
        owner = beside.proxy("slow", "--stop-at-end", before=slow)
        told = []
        asking = threading.Thread(target=lambda: told.append(owner.post("/v3/kv/put", {"key": text64("s/2"), "value": ""})))
        asking.start()
        time.sleep(0.3)
        took.append(stopped(owner, STOPS[0][2], 6))
        asking.join()
        check(told[0] is not None and told[0][0] == 200, f"a put that was asked before a stop: {told}")
        check(post(owner.port, "/v3/kv/range", {"key": text64("?")}, 1) is None, "a proxy that was stopped answers")
        slow.stop()
        owner = beside.proxy("down", f"--leasing-prefix={LEASING}", "--stop-at-end")
        own_key(owner, "s/3")
        for number in range(3):
            beside.cluster.kill(number)
        took.append(stopped(owner, STOPS[0][2], 6))
    print(f"stop: proxies that were stopped ended with status 0 within {', '.join(f'{t:.1f}' for t in took)} s, and left no session")


def etcdctl(cluster, number, *words):
    told = subprocess.run(["etcdctl", f"--endpoints=127.0.0.1:{cluster.ports[number]}", *words], capture_output=True,
                          env={**os.environ, "ETCDCTL_API": "3"})
    check(told.returncode == 0, f"etcdctl {words}: {told.stderr.decode()}")


def restored(world):
    """Another history behind the members' addresses ends a proxy."""
    with world.beside("restored") as beside:
        cluster, proxy = beside.cluster, beside.proxy("restored", f"--leasing-prefix={LEASING}", ttl=60)
        put(proxy, "s/0", "v")
        etcdctl(cluster, 0, "snapshot", "save", f"{beside.folder}/backup")
        for number in range(50):
            put(proxy, "s/0", str(number))
        for number in range(3):
            cluster.kill(number)
            time.sleep(2)
            cluster.start(number)
            until(lambda: all(cluster.answers(n) for n in range(3)), 30, "the members answer")
            time.sleep(6)
            check(proxy.process.poll() is None, "a proxy ended while members restarted in turn")
        for number in range(3):
            cluster.kill(number)
        for number in range(3):
            shutil.rmtree(f"{beside.folder}/m{number}")
            cluster.restore(number, f"{beside.folder}/backup")
        for number in range(3):
            cluster.start(number)
        until(lambda: all(cluster.answers(n) for n in range(3)), 30, "the restored members answer")
        until(lambda: proxy.process.poll() is not None, 10, "a proxy of another history ends")
        check(proxy.process.poll() == 7, f"it ended with status {proxy.process.poll()}")
        check(proxy.lines("another history"), f"the proxy told: {proxy.lines()}")
    print("restored: a proxy outlived members that restarted in turn, and ended with status 7 behind a store that was restored")


def auth(world):
    """A cluster that wants to know of users serves this proxy no more."""
    with world.beside("auth") as beside:
        proxy = beside.proxy("auth", f"--leasing-prefix={LEASING}")
        read = lambda: proxy.post("/v3/kv/range", {"key": text64("a/0")})
        put(proxy, "a/0", "v")
        check(read()[0] == 200 and read()[0] == 200, "a read is answered")
        etcdctl(beside.cluster, 0, "user", "add", "root:root")
        etcdctl(beside.cluster, 0, "auth", "enable")
        # each member is asked within 5 s, and what is kept alive then lives on
        until(lambda: (read() or (200,))[0] != 200, beside.ttl + 8, "a cached read is answered no more")
        time.sleep(2)
        check((read() or (200,))[0] != 200, "a read is refused")
        proxy.stop()
        check(len(proxy.lines("asks for a user")) == 3, f"the proxy told: {proxy.lines()}")
    print("auth: cached reads ended with the session once the cluster wanted to know of users")


def pauses(world):
    """Nothing turns without a pause."""
    proxy = world.proxy("pauses", f"--leasing-prefix={LEASING}", "--workers=64", ttl=60)
    put(proxy, "p/0", "v")
    until(lambda: proxy.post("/v3/kv/range", {"key": text64("p/0")})[0] == 200, 10, "a key is read")
    # each has its thread before there are no more
    some = [socket.create_connection(("127.0.0.1", proxy.port), 30) for _ in range(30)]
    time.sleep(2)
    # room for all but the stack of a further thread
    with open(f"/proc/{proxy.process.pid}/status") as status:
        room = int(re.search(r"VmSize:\s+(\d+)", status.read())[1]) * 1024 + (6 << 20)
    limits = resource.prlimit(proxy.process.pid, resource.RLIMIT_AS)
    resource.prlimit(proxy.process.pid, resource.RLIMIT_AS, (room, limits[1]))
    for number, one in enumerate(some):
        body = json.dumps({"create_request": {"key": text64(f"p/{number}")}}).encode()
        one.sendall(head(b"Content-Length: %d" % len(body), path=b"/v3/watch") + body)
    time.sleep(1)
    unthreaded = proxy.busy(10)
    told = proxy.lines("can't start a thread")
    check(1 <= len(told) <= 12, f"for want of a thread there were {len(told)} lines")
    check(unthreaded < 0.05 * PATIENCE, f"with no thread for 30 streams the proxy took {unthreaded:.3f} processors")
    resource.prlimit(proxy.process.pid, resource.RLIMIT_AS, limits)
    for one in some:
        check(one.recv(12) == b"HTTP/1.1 200", "a watch is created once there are threads")
        one.close()
    for number in range(3):
        world.cluster.kill(number)
    lost = [threading.Thread(target=proxy.post, args=("/v3/kv/put", {"key": text64(f"p/{n}"), "value": ""})) for n in range(2)]
    for one in lost:
        one.start()
    time.sleep(2)
    down = proxy.busy(10)
    check(down < 0.05 * PATIENCE, f"with all members down the proxy took {down:.3f} processors")
    for number in range(3):
        world.cluster.start(number)
    until(lambda: all(world.cluster.answers(n) for n in range(3)), 30, "the members answer")
    until(lambda: proxy.post("/v3/kv/put", {"key": text64("p/0"), "value": text64("w")})[0] == 200, 2, "a put is done once the members are back")
    for one in lost:
        one.join()
    proxy.stop()
    print(f"pauses: {unthreaded:.3f} processors with no thread for 30 streams, {down:.3f} with all members down")


class Slow:
    """A member that answers calls after so many seconds, or those of several keys alone, by what another one answers."""

    def __init__(self, member, seconds, several=False):
        class Handler(http.server.BaseHTTPRequestHandler):
            protocol_version = "HTTP/1.1"

            def do_POST(self):
                body = self.rfile.read(int(self.headers["Content-Length"]))
                time.sleep(seconds if not several or b"range_end" in body else 0)
                told = post(member, self.path, body.decode())
                text = json.dumps(told[1] if told else {}).encode()
                self.send_response(told[0] if told else 503)
                self.send_header("Content-Length", str(len(text)))
                self.end_headers()
                self.wfile.write(text)

            def log_message(self, *_):
                pass

        class Server(http.server.ThreadingHTTPServer):
            request_queue_size = 512

        self.server = Server(("127.0.0.1", 0), Handler)
        self.ports = [self.server.server_address[1]]
        threading.Thread(target=self.server.serve_forever, daemon=True).start()

    def stop(self):
        self.server.shutdown()
        self.server.server_close()


def workers(world):
    """That all workers are inside calls is told."""
    slow, count = Slow(world.cluster.ports[0], 0.2), 60
    for number, is_busy in ((8, True), (64, False)):
        proxy = Proxy(world.program, slow, world.folder, f"workers{number}", f"--workers={number}")
        world.proxies.append(proxy)
        told, ended = [], threading.Event()

        def asks():
            while not ended.is_set():
                answer = proxy.post("/v3/kv/range", {"key": text64("?")})
                told.append(answer and answer[0])

        asking = [threading.Thread(target=asks) for _ in range(count)]
        for one in asking:
            one.start()
        time.sleep(5)
        ended.set()
        for one in asking:
            one.join()
        lines = proxy.lines(f"all {number} workers")
        check(len(lines) == is_busy, f"with {number} workers it was told {len(lines)} times that all were inside calls")
        check(is_busy or told.count(200) == len(told), f"with {number} workers {told.count(200)} of {len(told)} reads had an answer")
        proxy.stop()
    slow.stop()
    print(f"workers: {count} clients at a member that takes 0.2 s: told once with 8 workers, never with 64")


def scans(world):
    """A range of several keys that takes seconds is waited for, and its member keeps what else is asked of it."""
    slow = Slow(world.cluster.ports[0], 3, several=True)
    proxy = world.proxy("scans", ttl=60, before=types.SimpleNamespace(ports=[slow.ports[0], *world.cluster.ports[1:]]))
    put(proxy, "scans/0", "v")
    member = lambda body: proxy.post("/v3/kv/range", body)[1]["header"]["member_id"]
    stood, begun = member({"key": text64("scans/0")}), time.monotonic()
    told = proxy.post("/v3/kv/range", {"key": text64("scans/"), "range_end": text64("scans0")})
    took = time.monotonic() - begun
    check(told is not None and told[0] == 200 and len(told[1]["kvs"]) == 1 and took >= 3, f"a range that takes 3 s: {told} after {took:.1f} s")
    check(told[1]["header"]["member_id"] == stood == member({"key": text64("scans/0")}), "a slow range moved the calls to another member")
    check(not proxy.lines("doesn't answer"), f"the proxy told: {proxy.lines()}")
    proxy.stop()
    slow.stop()
    print(f"scans: a range of several keys whose member takes 3 s was answered after {took:.1f} s, and the calls stayed with that member")


def vanished(world):
    """Clients that vanish are noticed."""
    with far_away() as far:
        if far is None:
            print("vanished: not tried, since no network can be made here")
            return
        name, [(link, _, here, _)] = far
        proxy, count = Proxy(world.program, world.cluster, world.folder, "vanished", listen="0.0.0.0"), 20
        world.proxies.append(proxy)
        put(proxy, "v/0", "v")
        time.sleep(2)
        threads = proxy.counts()[0]
        bodies = [json.dumps({"create_request": {"key": text64(f"v/{n}")}}) for n in range(count)]
        gone = [subprocess.Popen(["ip", "netns", "exec", name, "curl", "-s", "-N", "-d", body, f"http://{here}:{proxy.port}/v3/watch"],
                                 stdout=subprocess.DEVNULL) for body in bodies]
        until(lambda: proxy.counts()[0] >= threads + 2 * count, 20, "watches from far away are followed")
        subprocess.run(["ip", "link", "set", link, "down"], check=True)
        begun = time.monotonic()
        until(lambda: proxy.counts()[0] <= threads, 120, "the threads of clients that vanished end")
        took = time.monotonic() - begun
        for one in gone:
            one.kill()
            one.wait()
        proxy.stop()
    print(f"vanished: nothing was left of {count} watches {took:.0f} s after the link to their clients was cut")


def sent_by(cluster):
    """How many bytes the members have sent to clients, all together."""
    total = 0
    for port in cluster.ports:
        connection = http.client.HTTPConnection("127.0.0.1", port, timeout=5)
        connection.request("GET", "/metrics")
        text = connection.getresponse().read().decode()
        connection.close()
        total += int(float(re.search(r"^etcd_network_client_grpc_sent_bytes_total (\S+)", text, re.M)[1]))
    return total


def fill(cluster, keys, value, lease=0):
    """Puts keys past the proxies, a hundred at a time. The last revision."""
    revision = 0
    for at in range(0, len(keys), 100):
        body = {"success": [{"request_put": {"key": text64(key), "value": text64(value), "lease": str(lease)}} for key in keys[at:at + 100]]}
        revision = int(cluster.ask("/v3/kv/txn", body)["header"]["revision"])
    return revision


class Rests:
    """That the members send next to nothing, and how much more memory a proxy has at its peak than before."""

    def __init__(self, cluster, proxy):
        self.cluster, self.proxy = cluster, proxy
        self.before = proxy.counts()[1]

    def grown(self):
        """By how many MB its memory has grown at most."""
        with open(f"/proc/{self.proxy.process.pid}/status") as status:
            return (int(re.search(r"VmHWM:\s+(\d+)", status.read())[1]) - self.before) / 1024

    def silent(self, seconds=5):
        before = sent_by(self.cluster)
        time.sleep(seconds)
        rate = (sent_by(self.cluster) - before) / seconds
        check(rate < 10_000, f"at rest the members send {rate:.0f} bytes a second")


def goes_on(proxy, watch, key):
    """A put is told within two seconds."""
    revision = put(proxy, key, "behind")
    watched([watch], lambda: watch.ended or watch.events and watch.events[-1][0] >= revision, 2, f"the event of a put of {key}")
    check(not watch.ended and watch.events[-1] == (revision, "behind"), f"a watch ended or received {watch.events[-1:]}")


def lines_of_deletions(world, took):
    """A range of 1,001 keys of 8 KB is deleted at once while it is watched."""
    proxy = world.proxy("lines")
    watch = Watch(proxy.port, {"key": text64("d/"), "range_end": text64("d0")})
    watched([watch], lambda: watch.created, 30, "the watch is created")
    keys = [f"d/{n:04}" for n in range(1001)]
    fill(world.cluster, keys, "x" * 8192)
    watched([watch], lambda: len(watch.events) >= len(keys), 30, "all puts are told")
    rests = Rests(world.cluster, proxy)
    revision = int(world.cluster.ask("/v3/kv/deleterange", {"key": text64("d/"), "range_end": text64("d0")})["header"]["revision"])
    watched([watch], lambda: watch.ended or len(watch.events) >= 2 * len(keys), 30, "all deletions are told")
    check(watch.events[len(keys):] == [(revision, "")] * len(keys), "a watch received other events than the deletions")
    goes_on(proxy, watch, "d/0000")
    rests.silent()
    took.append(f"{len(keys)} deletions ({rests.grown():.0f} MB)")
    watch.socket.close()
    proxy.stop()


def lines_of_a_resumed_watch(world, took):
    """A watch begins a thousand revisions of 12 KB ago."""
    count = 1000
    proxy = world.proxy("resumed")
    first = None
    for number in range(count):
        body = {"key": text64("e/0"), "value": text64(f"{number:04}" * 3072)}
        revision = int(world.cluster.ask("/v3/kv/put", body)["header"]["revision"])
        first = first or revision
    rests = Rests(world.cluster, proxy)
    watch = Watch(proxy.port, {"key": text64("e/"), "range_end": text64("e0"), "start_revision": str(first)})
    watched([watch], lambda: watch.ended or len(watch.events) >= count, 60, "all events come")
    check([revision for revision, _ in watch.events] == list(range(first, first + count)), "a resumed watch received other events")
    check(all(value == f"{n:04}" * 3072 for n, (_, value) in enumerate(watch.events)), "a resumed watch received other values")
    goes_on(proxy, watch, "e/0")
    rests.silent()
    took.append(f"{count} revisions ({rests.grown():.0f} MB)")
    watch.socket.close()
    proxy.stop()


def lines_of_owners(world, took):
    """A session with 75,600 ownership keys ends, and then another proxy gives a key up."""
    one, other = (world.proxy(f"owners{n}", f"--leasing-prefix={LEASING}", ttl=LONG) for n in range(2))
    put(one, "f/first", "v")
    lease = int(world.cluster.ask("/v3/lease/grant", {"TTL": str(LONG)})["ID"])
    count = 2_000 if world.short else 75_600
    fill(world.cluster, [f"{LEASING}f/a/key/that/is/owned/{n:06}" for n in range(count)], "1", lease)
    rests = Rests(world.cluster, one)
    world.cluster.ask("/v3/lease/revoke", {"ID": str(lease)})
    put(other, "f/0", "v")
    owned = lambda: "kvs" in world.cluster.ask("/v3/kv/range", {"key": text64(LEASING + "f/0")})
    until(lambda: other.post("/v3/kv/range", {"key": text64("f/0")})[0] == 200 and owned(), 20, "the key is owned")
    told = lambda: one.post("/v3/kv/put", {"key": text64("f/0"), "value": text64("w")})
    until(lambda: (told() or (0,))[0] == 200, 10, "a put of a key that another proxy owns")
    rests.silent()
    took.append(f"the end of {count} ownership keys ({rests.grown():.0f} MB)")
    one.stop()
    other.stop()


def lines_beyond(world, took):
    """A message that is longer than the limit is asked for ever less often, and one line tells it."""
    proxy = world.proxy("beyond", "--message-limit=8")
    watch = Watch(proxy.port, {"key": text64("g/"), "range_end": text64("g0")})
    watched([watch], lambda: watch.created, 30, "the watch is created")
    keys = [f"g/{n:04}" for n in range(1001)]
    fill(world.cluster, keys, "x" * 8192)
    watched([watch], lambda: len(watch.events) >= len(keys), 30, "all puts are told")
    before = sent_by(world.cluster)
    world.cluster.ask("/v3/kv/deleterange", {"key": text64("g/"), "range_end": text64("g0")})
    until(lambda: proxy.lines("--message-limit"), 30, "a line tells that a message is too long")
    time.sleep(30)
    # 1, 2, 4, 8, .. seconds lie between two of them
    times = (sent_by(world.cluster) - before) / (len(keys) * 8192)
    check(times < 8, f"in 30 seconds the message was sent {times:.1f} times")
    lines = proxy.lines("--message-limit")
    check(len(lines) == 1 and text64("g/") in lines[0], f"it is told so: {lines}")
    put(proxy, "elsewhere", "v")
    took.append(f"one above the limit was asked for {times:.0f} times in 30 s")
    watch.socket.close()
    proxy.stop()


def lines(world):
    """Messages of members that are long, and one that is too long."""
    took = []
    with world.beside("lines") as beside:
        for part in (lines_of_deletions, lines_of_a_resumed_watch, lines_of_owners, lines_beyond):
            part(beside, took)
    print(f"lines: {', '.join(took)}")
def probes(world):
    """What a server answers of itself, with members up and with all down, and aliases."""
    proxy, cluster = world.proxy("probes", ttl=60), world.cluster
    version, healthy, unhealthy = b'{"etcdserver":"3.4.0","etcdcluster":"3.4.0"}', b'{"health":"true"}', b'{"health":"false"}'

    def asked(path, status, body, method=b"GET"):
        told = exchanged(proxy.port, head(b"Connection: close", method=method, path=path), False)
        top, said = told.split(b"\r\n\r\n", 1)
        check(top.startswith(b"HTTP/1.1 %d " % status) and b"Content-Length: %d" % len(body) in top, f"{method} {path}: {told}")
        check(said == (b"" if method == b"HEAD" else body), f"{method} {path}: {told}")

    refused = b'{"code":12,"message":"proxy: method not allowed"}'
    for method in (b"GET", b"HEAD"):
        asked(b"/version", 200, version, method)
        asked(b"/health", 200, healthy, method)
        asked(b"/healthy", 405, refused, method)
    asked(b"/health", 405, refused, b"PUT")
    put(proxy, "p/0", "v")
    grant = proxy.post("/v3beta/lease/grant", {"TTL": 100})[1]["ID"]
    for path in ("/v3/lease/", "/v3/kv/lease/", "/v3beta/lease/", "/v3beta/kv/lease/"):
        told = proxy.post(path + "timetolive", {"ID": grant})
        check(told[0] == 200 and told[1]["grantedTTL"] == "100", f"{path}timetolive: {told}")
        told = proxy.post(path + "leases", {})
        check(told[0] == 200 and {"ID": grant} in told[1]["leases"], f"{path}leases: {told}")
    check(proxy.post("/v3beta/kv/range", {"key": text64("p/0")})[1]["kvs"][0]["value"] == text64("v"), "a range by its alias")
    check(proxy.post("/v3/kv/lease/revoke", {"ID": grant})[0] == 200, "a revoke by its alias")
    check(proxy.post("/v3/kv/lease/grant", {"TTL": 100})[0] == 404, "a path that is no alias")
    for number in (0, 1):
        cluster.kill(number)
    time.sleep(8)
    # what is asked of a member needs the agreement of the cluster
    asked(b"/health", 503, unhealthy)
    for number in (0, 1):
        cluster.start(number)
    until(lambda: exchanged(proxy.port, head(b"Connection: close", method=b"GET", path=b"/health"), False).endswith(healthy), 30, "the server is healthy again")
    until(lambda: all(cluster.answers(n) for n in range(3)), 30, "the members answer")
    proxy.stop()
    print("probes: the version, the health with members up and down, and four paths of each call on a lease were answered")


def alone(proxy, url):
    """The proxy is told as the one member of its cluster, with this address, also below /v3beta."""
    for path in ("/v3/cluster/member/list", "/v3beta/cluster/member/list"):
        status, told = proxy.post(path, {})
        check(status == 200 and len(told["members"]) == 1, f"{path}: {told}")
        check(told["members"][0] == {"name": socket.gethostname(), "peerURLs": [url], "clientURLs": [url]}, f"{path}: {told}")
        check(told["header"]["cluster_id"] == str(proxy.cluster.ask("/v3/kv/range", {"key": text64("?")})["header"]["cluster_id"]), f"{path}: {told}")


def own(world):
    """What a server answers of its cluster: itself as the one member, and how a member is, with members up and with all down."""
    proxy, cluster = world.proxy("own", ttl=60), world.cluster
    other = world.proxy("other", "--advertise-client-url=https://front.example:443", "--etcd-errors", ttl=60)
    put(proxy, "o/0", "v")
    time.sleep(1)
    alone(proxy, f"http://127.0.0.1:{proxy.port}")
    alone(other, "https://front.example:443")
    for path in ("/v3/maintenance/status", "/v3beta/maintenance/status"):
        told, real = proxy.post(path, {}), post(cluster.ports[0], "/v3/maintenance/status", {})
        check(told[0] == 200 and told[1]["version"] == real[1]["version"] and set(told[1]) == set(real[1]), f"{path}: {told}")
    # what isn't passed on, or isn't of this method
    before = cluster.ask("/v3/kv/range", {"key": text64("o/0")})["header"]["revision"]
    for path in ("/v3/maintenance/defragment", "/v3/maintenance/alarm", "/v3/maintenance/statuses", "/v3/cluster/member/add", "/v3/auth/authenticate"):
        check(proxy.post(path, {})[0] == 404, f"{path} isn't passed on")
    check(exchanged(proxy.port, head(b"Connection: close", method=b"GET", path=b"/v3/maintenance/status"), False).startswith(b"HTTP/1.1 405 "), "a status by GET")
    check(cluster.ask("/v3/kv/range", {"key": text64("o/0")})["header"]["revision"] == before, "nothing was written")
    # the field `error`, of the store's refusals, of the proxy's own, and of those of bytes
    for path, body in (("/v3/lease/revoke", {"ID": "77"}), ("/v3/nothing", {}), ("/v3/kv/range", {"limit": "x"})):
        plain, told = proxy.post(path, body), other.post(path, body)
        check(set(plain[1]) == {"code", "message"} and plain[0] == told[0], f"{path}: {plain}")
        check(told[1] == {"error": plain[1]["message"], **plain[1]}, f"{path}: {told}")
    check(other.post("/v3/lease/revoke", {"ID": "77"})[1] == post(cluster.ports[0], "/v3/lease/revoke", {"ID": "77"})[1], "a refusal is the member's")
    check(exchanged(other.port, b"GET / HTTP/1.0\r\n\r\n").endswith(b'{"error":"proxy: bad request","message":"proxy: bad request","code":3}'), "bytes that are no request")
    for number in range(3):
        cluster.kill(number)
    time.sleep(8)
    begun = time.monotonic()
    check(proxy.post("/v3/maintenance/status", {}) == (503, {"code": 14, "message": "proxy: no member answers"}), "no member answers")
    check(time.monotonic() - begun < 2, "that is told soon")
    alone_told = proxy.post("/v3/cluster/member/list", {})
    check(alone_told[0] == 200 and alone_told[1]["header"]["cluster_id"], f"with all members down: {alone_told}")
    for number in range(3):
        cluster.start(number)
    until(lambda: all(cluster.answers(n) for n in range(3)), 30, "the members answer")
    # lines, of each kind one an hour
    for _ in range(3):
        exchanged(proxy.port, b"GET / HTTP/1.0\r\n\r\n")
        exchanged(proxy.port, head(b"Connection: close", b"Authorization: token", b"Content-Length: 0"), False)
    proxy.stop(), other.stop()
    check(len(proxy.lines("isn't HTTP/1.1")) == 1 and len(proxy.lines("Authorization")) == 1, f"the proxy told: {proxy.lines()}")
    print("own: a server told itself as the one member, passed the calls for a status on and no others, and wrote refusals in both forms")


def addresses(world):
    """Forms of addresses that are taken beside host:port, and an address that is in use."""
    def tried(listen, endpoints, connect=None):
        folder = tempfile.mkdtemp(prefix="addresses-")
        try:
            with open(f"{folder}/told", "w+") as told:
                process = subprocess.Popen([world.program, "grpc-proxy", "start", f"--endpoints={endpoints}", f"--listen-addr={listen}"], stderr=told)
                try:
                    if connect:
                        until(lambda: f"serving {listen} for" in open(told.name).read(), 10, f"{listen} is served")
                        host, port = connect
                        # it was told behind the start of listening
                        socket.create_connection((host, port), timeout=5).close()
                        connection = http.client.HTTPConnection(host, port, timeout=10)
                        connection.request("POST", "/v3/kv/range", json.dumps({"key": text64("?")}))
                        check(connection.getresponse().status == 200, f"{listen} for {endpoints}: a range")
                    else:
                        process.wait(10)
                finally:
                    process.kill(), process.wait()
                return open(told.name).read()
        finally:
            shutil.rmtree(folder)
    member = world.cluster.ports[0]
    for listen, host in ((":{}", "127.0.0.1"), (":{}", "::1"), ("[::1]:{}", "::1"), ("localhost:{}", "localhost")):
        port = free_port()
        tried(listen.format(port), f"http://localhost:{member}/", (host, port))
    taken = tried(f"127.0.0.1:{member}", f"127.0.0.1:{member}")
    check("serving" not in taken and f"can't listen on 127.0.0.1:{member}: " in taken and "in use" in taken, f"an address in use: {taken}")
    print("addresses: four forms of addresses were served, and one in use was told as such")


def listening(process):
    """How many sockets of a process listen."""
    links = set()
    for name in os.listdir(f"/proc/{process.pid}/fd"):
        with contextlib.suppress(OSError):
            links.add(os.readlink(f"/proc/{process.pid}/fd/{name}"))
    with open("/proc/net/tcp") as table:
        rows = [line.split() for line in table.readlines()[1:]]
    return sum(row[3] == "0A" and f"socket:[{row[9]}]" in links for row in rows)


def fetched(port, path, method="GET"):
    """The status, the type and the body that the second listener answers with."""
    connection = http.client.HTTPConnection("127.0.0.1", port, timeout=10)
    try:
        connection.request(method, path)
        answer = connection.getresponse()
        return answer.status, answer.getheader("Content-Type"), answer.read().decode()
    finally:
        connection.close()


def figures(port):
    """What is told at `/metrics`, by the names with their labels. Each sample stands behind the help and the type of its family."""
    status, kind, text = fetched(port, "/metrics")
    check(status == 200 and kind == "text/plain; version=0.0.4; charset=utf-8", f"/metrics: {status} {kind}")
    told, family = {}, None
    for line in text.splitlines():
        if line.startswith("# HELP "):
            family = [line.split()[2]]
        elif line.startswith("# TYPE "):
            _, _, name, type_of = line.split()
            check(family == [name] and (type_of == "counter") == name.endswith("_total") and type_of in ("counter", "gauge"), line)
            family.append(type_of)
        else:
            sample = re.fullmatch(r'([a-z_]+)(\{[a-z]+="[^"]*"(?:,[a-z]+="[^"]*")*\})? ([0-9]+(?:\.[0-9]+)?)', line)
            check(sample and len(family) == 2 and sample[1] == family[0] and sample[1] + (sample[2] or "") not in told, line)
            told[sample[1] + (sample[2] or "")] = float(sample[3])
    return {name.removeprefix("etcd_proxy_"): value for name, value in told.items()}


def metrics(world):
    """What a server counts is what was done, and nothing listens for it unless it is asked for."""
    with world.beside("metrics") as beside:
        figures_of(beside)
    print("metrics: replies, reads from memory, keys, watches, connections, calls and members were counted, and shown on the page")


def figures_of(world):
    port, cluster = free_port(), world.cluster
    proxy = world.proxy("metrics", f"--leasing-prefix={LEASING}", f"--metrics-addr=127.0.0.1:{port}", "--workers=5", ttl=60)
    read = lambda key: proxy.post("/v3/kv/range", {"key": text64(key)})
    now = lambda: figures(port)
    replied = lambda told, path, code: told.get(f'requests_total{{path="{path}",code="{code}"}}', 0)
    until(lambda: now()["connections"] == 0, 10, "no connection is open")

    # reads from memory, and statuses by path
    put(proxy, "m/0", "v")
    revision, owned = put(proxy, "m/0", "w"), now()["owned_keys"]
    check(read("m/0")[0] == 200, "a read")
    until(lambda: now()["owned_keys"] == owned + 1, 10, "a key is owned")
    before = now()
    for _ in range(25):
        check(read("m/0")[0] == 200, "a read")
    check(proxy.post("/v3/kv/range", {"key": text64("m/"), "range_end": text64("m0")})[0] == 200, "a range")
    check(proxy.post("/v3/kv/put", "{")[0] == 400 and proxy.post("/v3/kv/nothing", {})[0] == 404, "refusals")
    check(proxy.post("/v3/kv/deleterange", {"key": text64("n/0")})[0] == 200, "a deletion")
    for _ in range(3):
        revision = put(proxy, "n/1", "v")
    after = now()
    gained = lambda path, code: replied(after, path, code) - replied(before, path, code)
    check(after["cached_reads_total"] - before["cached_reads_total"] == 25, f"reads from memory: {before} {after}")
    for path, code, count in (("/v3/kv/range", 200, 26), ("/v3/kv/put", 200, 3), ("/v3/kv/deleterange", 200, 1), ("other", 400, 1), ("other", 404, 1)):
        check(gained(path, code) == count, f"{path} {code}: {gained(path, code)} for {count}")
    check(after["connections_opened_total"] - before["connections_opened_total"] == 32, f"connections that were opened: {before} {after}")
    calls = lambda told: sum(told[f'member_calls_total{{member="{n}"}}'] for n in (1, 2, 3))
    # a range of two keys, a deletion and three puts are passed on; keepalives may come beside them
    check(5 <= calls(after) - calls(before) <= 7, f"calls: {before} {after}")
    seconds = sum(after[f'member_call_seconds_total{{member="{n}"}}'] for n in (1, 2, 3))
    check(0 < seconds < 60 and after["calls_untaken_total"] == 0, f"seconds of calls: {seconds}")
    check(after["revision"] == revision and 30 <= after["session_remaining_seconds"] <= 60, f"revision and session: {after}")
    check(after["workers"] == 5 and after["requests_waiting"] == 0, f"workers: {after}")
    check(any(name.startswith("build_info") and value == 1 for name, value in after.items()), f"build: {after}")

    # over one connection, and connections that rest
    kept = http.client.HTTPConnection("127.0.0.1", proxy.port, timeout=10)
    for _ in range(10):
        kept.request("POST", "/v3/kv/range", json.dumps({"key": text64("m/0")}))
        check(kept.getresponse().read() != b"", "a read")
    check(now()["cached_reads_total"] - after["cached_reads_total"] == 10, "reads from memory over one connection")
    resting = [socket.create_connection(("127.0.0.1", proxy.port)) for _ in range(4)]
    until(lambda: now()["connections"] == 5, 10, "five connections are open")

    # watches
    watching = [Watch(proxy.port, {"key": text64("w/0")}) for _ in range(3)]
    watched(watching, lambda: all(w.created for w in watching), 10, "three watches are created")
    told = now()
    check(told["watches"] == 3 and told["member_streams"] == 2 and told["connections"] == 8, f"three watches share a stream beside that of ownership: {told}")
    put(proxy, "w/0", "v")
    watched(watching, lambda: all(w.events for w in watching), 10, "three watches are told of a put")
    check(now()["watch_messages_total"] - told["watch_messages_total"] == 3, "three messages")
    check(now()["watch_events_total"] - told["watch_events_total"] == 3, "an event in each")
    busiest = fetched(port, "/")[2].split("<h2>Busiest ranges</h2>")[1]
    check('<tr><td>w/0</td><td class="t"></td>' in busiest, f"the stream of the watches is shown: {busiest}")
    for one in [*watching, *resting]:
        (one.socket if isinstance(one, Watch) else one).close()
    kept.close()
    until(lambda: (now()["connections"], now()["watches"]) == (0, 0), 15, "no connection and no watch is left")

    # a put that waits for members that hang
    for number in range(3):
        cluster.signal(number, signal.SIGSTOP)
    waiting = threading.Thread(target=put, args=(proxy, "n/1", "x"))
    waiting.start()
    until(lambda: (now()["requests_waiting"], now()["workers_busy"]) >= (1, 1), 4, "a put waits")
    for number in range(3):
        cluster.signal(number, signal.SIGCONT)
    waiting.join()
    until(lambda: now()["requests_waiting"] == 0, 10, "nothing waits")

    # members
    ups = lambda: [now()[f'member_up{{member="{n + 1}",endpoint="127.0.0.1:{cluster.ports[n]}"}}'] for n in range(3)]
    until(lambda: ups() == [1, 1, 1], 20, "all members answer")
    cluster.kill(1)
    until(lambda: ups() == [1, 0, 1], 20, "one member doesn't answer")
    page = fetched(port, "/")
    check(page[0] == 200 and page[1] == "text/html; charset=utf-8", f"the page: {page}")
    check('<meta http-equiv="refresh" content="2">' in page[2] and "<script" not in page[2] and "src=" not in page[2], "the page stands alone")
    check(f"<b>{int(owned) + 1}</b>owned keys" in page[2] and '<td class="t down">down</td>' in page[2] and "<td>/v3/kv/range</td>" in page[2], f"the page: {page[2]}")
    check(fetched(port, "/health") == (200, "application/json", '{"health":"true"}'), "the health")
    cluster.kill(0)
    until(lambda: fetched(port, "/health") == (503, "application/json", '{"health":"false"}'), 30, "no health without a quorum")
    for number in (0, 1):
        cluster.start(number)
    until(lambda: fetched(port, "/health")[0] == 200, 30, "the server is healthy again")

    # nothing else is answered there, and steps are made by nobody who looks
    for path, method, status in (("/metric", "GET", 404), ("/v3/kv/range", "GET", 404), ("/v3/kv/range", "POST", 405), ("/metrics", "POST", 405)):
        check(fetched(port, path, method)[0] == status, f"{method} {path}")
    check(fetched(port, "/metrics", "HEAD")[2] == "" and fetched(port, "/metrics?x=1")[0] == 200, "a HEAD, and a query")
    check(listening(proxy.process) == 2, "two sockets listen")
    proxy.stop()
    other = world.proxy("unmeasured", ttl=60)
    check(listening(other.process) == 1, "one socket listens without the option")
    taken = subprocess.run([world.program, "grpc-proxy", "start", f"--endpoints=127.0.0.1:{cluster.ports[2]}", f"--listen-addr=127.0.0.1:{free_port()}",
                            f"--metrics-addr=127.0.0.1:{other.port}"], capture_output=True, timeout=20)
    check(taken.returncode == 8 and b"can't listen on 127.0.0.1:%d" % other.port in taken.stderr, f"an address in use: {taken}")
    other.stop()


def real_clients(world):
    """Clients and fronts that others wrote, unchanged, before a cluster of its own."""
    with world.beside("real") as beside:
        options = [f"--leasing-prefix={LEASING}", "--workers=16", "--etcd-errors"]
        proxies = [beside.proxy(name, *options, ttl=60) for name in ("first", "second")]
        words = [os.path.join(os.path.dirname(os.path.abspath(__file__)), "real_clients.py"), world.program]
        told = subprocess.run([sys.executable, *words, *(str(p.port) for p in proxies), *(str(p.process.pid) for p in proxies)],
                              env={**os.environ, "PATIENCE": str(PATIENCE)})
        check(told.returncode == 0, "a client or a front wasn't served")
    print("real_clients: all that is here was served")


def store_clients(world):
    """curl, and clients that others wrote, at the small store itself."""
    words = [os.path.join(os.path.dirname(os.path.abspath(__file__)), "real_clients.py"), "store", str(world.cluster.ports[0])]
    told = subprocess.run([sys.executable, *words], env={**os.environ, "PATIENCE": str(PATIENCE)})
    check(told.returncode == 0, "a client wasn't served")
    print("store_clients: all that is here was served")


def down(world):
    """With all members down a cached read is answered up to the session's end, and nothing else is."""
    proxy, cluster = world.proxy("down", f"--leasing-prefix={LEASING}"), world.cluster
    read = lambda key: proxy.post("/v3/kv/range", {"key": text64(key)})
    refused = lambda told: told is not None and told[1].get("code") in (4, 14)
    put(proxy, "d/0", "v")
    check(read("d/0")[0] == 200, "a read is answered")
    for number in range(3):
        cluster.kill(number)
    fell = time.monotonic()
    check(read("d/0")[0] == 200, "a cached read is answered with all members down")
    for told in (read("d/1"), proxy.post("/v3/kv/put", {"key": text64("d/0"), "value": ""}), proxy.post("/v3/lease/grant", {"TTL": 9})):
        check(refused(told), f"with all members down {told}")
    until(lambda: refused(read("d/0")), max(1, world.ttl + 6 - (time.monotonic() - fell)), "a read is answered no more once the session ended")
    for number in range(3):
        cluster.start(number)
    until(lambda: all(cluster.answers(n) for n in range(3)), 30, "the members answer")
    put(proxy, "d/0", "w")
    until(lambda: read("d/0")[0] == 200, 10, "a read is answered again")
    proxy.stop()
    check(proxy.lines("doesn't answer"), f"the proxy told: {proxy.lines()}")
    print("down: cached reads went on to the session's end, all else was refused with code 14 or 4, and all is answered again")


def in_memory():
    """A folder in memory with room for all members, or None: on a disk that is busy a member's write waits for seconds, and its call is lost."""
    folder = "/dev/shm"
    try:
        room = os.statvfs(folder)
    except OSError:
        return None
    return folder if room.f_bavail * room.f_frsize > 4 << 30 and os.access(folder, os.W_OK) else None


class World:
    """What the parts stand on."""

    def __init__(self, program, short, folder=None, cluster=None, is_store=False):
        self.program, self.short, self.ttl = program, short, 5
        self.seed = int(os.environ.get("SEED", time.time()))
        self.folder = folder or tempfile.mkdtemp(prefix="etcd-proxy-", dir=in_memory())
        self.proxies = []
        self.cluster = cluster or (Store(self.folder, program) if is_store else Cluster(self.folder))

    @contextlib.contextmanager
    def etcd(self):
        """The port of a member of etcd: of one of its own where the cluster is none."""
        if self.cluster.is_etcd:
            yield self.cluster.ports[0]
            return
        folder = tempfile.mkdtemp(prefix="etcd-", dir=self.folder)
        cluster = Cluster(folder, 1)
        try:
            yield cluster.ports[0]
        finally:
            cluster.stop()

    @contextlib.contextmanager
    def beside(self, name):
        """A world with a cluster of its own."""
        folder = tempfile.mkdtemp(prefix=f"{name}-", dir=self.folder)
        world = World(self.program, self.short, folder)
        try:
            yield world
        finally:
            world.stop()

    def proxy(self, name, *options, ttl=None, before=None, served=False):
        ttl = f"--session-ttl={ttl or self.ttl}"
        self.proxies.append(Proxy(self.program, before or self.cluster, self.folder, name, ttl, *options, served=served))
        return self.proxies[-1]

    def stop(self):
        for proxy in self.proxies:
            proxy.stop()
        self.cluster.stop()
        shutil.rmtree(self.folder, ignore_errors=True)


PARTS = [answers, truth, links, watches, rest, clients, halves, leavers, canceled, room, uploads, limit, deep, descriptors, quiet, quiet_links, quorum,
         quiet_owner, restart, full, stop, restored, auth, pauses, workers, scans, vanished, lines, probes, own, addresses, metrics, real_clients, down]

# what the gate runs; those that stand on clusters of their own beside the others
SHORT = [[answers, truth, links, watches, clients], [quiet, quiet_links, quiet_owner]]

# what is tried with the small store in the members' place, and what of it the gate runs
STORE = [answers, truth, watches, canceled, store_clients]
SHORT_STORE = [answers, truth, watches, canceled]


def main(words):
    global PATIENCE
    sys.stdout.reconfigure(line_buffering=True)
    # a shell that starts this in the background has SIGINT ignored, which what is started here would inherit
    signal.signal(signal.SIGINT, signal.default_int_handler)
    short, is_store = "--short" in words, "--store" in words
    PATIENCE *= 4 if short else 1
    program, *names = [word for word in words if word not in ("--short", "--store")]
    parts, short_rows = (STORE, [SHORT_STORE]) if is_store else (PARTS, SHORT)
    rows = [[part for part in parts if part.__name__ in names]] if names else short_rows if short else [parts]
    world = World(os.path.abspath(program), short, is_store=is_store)

    def tried(row):
        for part in row:
            part(world)
            # what they wrote has its form
            for proxy in [*world.proxies]:
                proxy.lines()

    try:
        side_by_side(*(lambda row=row: tried(row) for row in rows))
    except Failure as failure:
        print(f"cluster: {str(failure)[:5000]}\n(seed {world.seed})", file=sys.stderr)
        return 1
    finally:
        world.stop()
    return 0


if __name__ == "__main__":
    sys.exit(main(sys.argv[1:]))
