#!/usr/bin/env python3
"""What bench/server.sh measures, and how: bench/store_server.py measures by it too."""
import json, os, re, resource, select, shutil, socket, struct, subprocess, sys, tempfile, time

sys.path.insert(0, os.path.join(os.path.dirname(os.path.abspath(__file__)), "..", "tests"))
from cluster import Cluster, Proxy, Watch, free_port, in_memory, post, put, text64, until, watched

PROGRAM, SECONDS, PARTS = os.path.abspath(sys.argv[1]), sys.argv[2], sys.argv[3:]
CONNECTIONS = (1, 16, 64)
# Each comparison is of so many rounds, one load beside the other in turn: what else a machine does moves one by a tenth and more.
ROUNDS = 9
# So many puts are followed to the watches.
PUTS = 20
# A load or put in which the host of a virtual machine kept the processors for a larger share of the time is made again, up to three times as many in all.
STOLEN, TIMES = 0.02, 3
TICKS = os.sysconf("SC_CLK_TCK")
KEY = text64("bench/key")
READ = json.dumps({"key": KEY}, separators=(",", ":"))
PUT = json.dumps({"key": KEY, "value": text64("v" * 32)}, separators=(",", ":"))
# Of one key one put is sent at a time, where it may be owned.
PUTS_OF_KEYS = [json.dumps({"key": text64(f"bench/{number:03}"), "value": text64("v" * 32)}, separators=(",", ":")) for number in range(256)]


def processor_time(pids):
    total = 0
    for pid in pids:
        with open(f"/proc/{pid}/stat") as stat:
            fields = stat.read().rsplit(")", 1)[1].split()
        total += int(fields[11]) + int(fields[12])
    return total / TICKS


class Host:
    """How much the host of a virtual machine keeps the processors, from now on: its share of the time in which they had something to do (proc(5), `steal`)."""

    def __init__(self):
        self.wanted, self.kept = self.ticks()

    @staticmethod
    def ticks():
        with open("/proc/stat") as stat:
            user, nice, system, _, _, irq, softirq, steal = (int(word) for word in stat.readline().split()[1:9])
        return user + nice + system + irq + softirq + steal, steal

    def share(self):
        wanted, kept = self.ticks()
        return (kept - self.kept) / max(wanted - self.wanted, 1)


def quietest(wanted, make, stolen):
    """Makes loads or puts until the host left alone as many as are wanted, or TIMES as many are made. Gives those that it disturbed least, and says how much."""
    made = []
    while len(made) < wanted * TIMES and sum(stolen(one) <= STOLEN for one in made) < wanted:
        made.append(make())
    quiet = sorted(made, key=stolen)[:wanted]
    return quiet, f"the host kept {stolen(quiet[-1]):.0%} of the time at most in the quietest {wanted} of {len(made)}"


def sized(pid):
    """Its memory and its page tables, in bytes."""
    with open(f"/proc/{pid}/status") as status:
        text = status.read()
    return tuple(int(re.search(rf"{name}:\s+(\d+)", text)[1]) * 1024 for name in ("VmRSS", "VmPTE"))


class Load:
    """What wrk got from a server, with one body or with several in turn."""

    def __init__(self, folder, port, connections, pids, path, body, closing):
        script = f"{folder}/load.lua"
        with open(script, "w") as lua:
            lua.write("wrk.method = 'POST'\n")
            if isinstance(body, str):
                lua.write(f"wrk.body = '{body}'\n")
            else:
                lua.write(f"local bodies, at = {{{', '.join(repr(one) for one in body)}}}, 0\n"
                          "request = function()\n at = at % #bodies + 1\n return wrk.format(nil, nil, nil, bodies[at])\nend\n")
            if closing:
                lua.write("wrk.headers['Connection'] = 'close'\n")
        before, client, host = processor_time(pids), resource.getrusage(resource.RUSAGE_CHILDREN), Host()
        told = subprocess.run(["wrk", "-t", str(min(connections, 2)), "-c", str(connections), "-d", f"{SECONDS}s", "--latency", "-s", script,
                               f"http://127.0.0.1:{port}{path}"], capture_output=True, text=True, check=True).stdout
        after, self.stolen = resource.getrusage(resource.RUSAGE_CHILDREN), host.share()
        count = int(re.search(r"(\d+) requests in", told)[1])
        self.rate = float(re.search(r"Requests/sec:\s+(\S+)", told)[1])
        self.server = (processor_time(pids) - before) / max(count, 1) * 1e6
        self.client = (after.ru_utime + after.ru_stime - client.ru_utime - client.ru_stime) / max(count, 1) * 1e6
        self.half, self.most = (re.search(rf"^ +{share}% +(\S+)", told, re.M)[1] for share in (50, 99))
        self.failed = re.search(r"(Non-2xx.*|Socket errors.*)", told)

    def told(self):
        failed = f"  [{self.failed[1]}]" if self.failed else ""
        return f"{self.rate:9.0f}/s, {self.server:6.1f} + {self.client:5.1f} us of processor, p50 {self.half}, p99 {self.most}{failed}"


def reply_of(port):
    """The bytes of the body that a read is answered with."""
    with socket.create_connection(("127.0.0.1", port)) as client:
        client.sendall(b"POST /v3/kv/range HTTP/1.1\r\nHost: h\r\nConnection: close\r\nContent-Length: %d\r\n\r\n" % len(READ) + READ.encode())
        return b"".join(iter(lambda: client.recv(65536), b"")).split(b"\r\n\r\n", 1)[1].decode()


def nginx(folder, body):
    port = free_port()
    with open(f"{folder}/nginx.conf", "w") as conf:
        conf.write(f"""worker_processes 4; daemon off; pid {folder}/nginx.pid; error_log {folder}/nginx.log;
events {{ worker_connections 1024; }}
http {{ access_log off; keepalive_requests 1000000000; default_type application/json;
server {{ listen 127.0.0.1:{port}; location / {{ return 200 '{body}'; }} }} }}
""")
    process = subprocess.Popen(["nginx", "-c", f"{folder}/nginx.conf", "-p", folder])
    until(lambda: socket.socket().connect_ex(("127.0.0.1", port)) == 0, 10, "nginx listens")
    with open(f"/proc/{process.pid}/task/{process.pid}/children") as children:
        return process, port, [int(pid) for pid in children.read().split()]


MISSED = []


def mark(what, value, unit, least=None, most=None):
    """Says whether a mark is met."""
    met = value >= least if least is not None else value <= most
    wanted = f"at least {least}" if least is not None else f"at most {most}"
    print(f"  mark: {what} {value:.2f}{unit}, {wanted}{unit}: {'met' if met else 'missed'}", flush=True)
    if not met:
        MISSED.append(what)


def compare(what, name, theirs, ours, by_processor, least=None):
    """Makes both loads in turn, tells the round whose share stands in the middle, and marks that share."""
    def share(pair):
        other, own = pair
        return (other.server + other.client) / (own.server + own.client) if by_processor else own.rate / other.rate

    rounds, host = quietest(ROUNDS, lambda: (theirs(), ours()), lambda pair: max(load.stolen for load in pair))
    rounds.sort(key=share)
    other, own = rounds[ROUNDS // 2]
    way = "processor time" if by_processor else "requests"
    print(f"{what}\n  ours   {own.told()}\n  {name:6} {other.told()}\n"
          f"  {share(rounds[0]):.2f} to {share(rounds[-1]):.2f} of {name}, {share((other, own)):.2f} in the middle, by {way}; {host}", flush=True)
    if least is not None:
        mark(f"{what}, beside {name} by {way}", share((other, own)), "", least=least)


def reads(folder, cluster, proxy):
    pids = [proxy.process.pid]
    put(proxy, "bench/key", "v" * 32)
    proxy.post("/v3/kv/range", {"key": KEY})
    server, port, workers = nginx(folder, reply_of(proxy.port))
    try:
        for connections in CONNECTIONS:
            compare(f"cached reads, {connections} connections", "nginx",
                    lambda: Load(folder, port, connections, workers, "/", READ, False),
                    lambda: Load(folder, proxy.port, connections, pids, "/v3/kv/range", READ, False), True, 0.8 if connections < 64 else 0.7)
    finally:
        server.terminate()
        server.wait()


def counted(folder, plain, counting):
    """What it costs a cached read that the proxy counts it, by the processor time of the proxy alone."""
    for proxy in (plain, counting):
        put(proxy, "bench/key", "v" * 32)
        proxy.post("/v3/kv/range", {"key": KEY})

    def load(proxy):
        return Load(folder, proxy.port, 16, [proxy.process.pid], "/v3/kv/range", READ, False)

    def share(pair):
        return pair[1].server / pair[0].server

    rounds, host = quietest(ROUNDS, lambda: (load(plain), load(counting)), lambda pair: max(one.stolen for one in pair))
    rounds.sort(key=share)
    uncounted, own = rounds[ROUNDS // 2]
    print(f"cached reads that are counted, 16 connections\n  counted   {own.told()}\n  uncounted {uncounted.told()}\n"
          f"  {share(rounds[0]):.3f} to {share(rounds[-1]):.3f} of one that isn't, {share((uncounted, own)):.3f} in the middle; {host}", flush=True)
    mark("a cached read that is counted, beside one that isn't", share((uncounted, own)), "", most=1.03)


def calls(folder, cluster, proxy):
    pids, members = [proxy.process.pid], [p.pid for p in cluster.processes]
    _, told = post(cluster.ports[0], "/v3/maintenance/status", {})
    print(f"calls go to a member that {'leads' if told['leader'] == told['header']['member_id'] else 'follows another'}", flush=True)
    for what, path, body, least in (("reads passed on", "/v3/kv/range", READ, None), ("puts", "/v3/kv/put", PUT, 0.95)):
        for connections in CONNECTIONS:
            compare(f"{what}, {connections} connections", "direct",
                    lambda: Load(folder, cluster.ports[0], connections, members, path, body, True),
                    lambda: Load(folder, proxy.port, connections, pids, path, body, False), False, least)


def kept(folder, cluster, plain, leasing):
    """Puts of 256 keys beside clients of the cluster itself that keep their connections, as etcd's own clients do."""
    members = [p.pid for p in cluster.processes]
    for name, proxy, least in (("without leasing", plain, 0.85), ("with leasing", leasing, 0.6)):
        put(proxy, "bench/key", "v" * 32)
        for connections in CONNECTIONS:
            compare(f"puts beside kept connections, {name}, {connections} connections", "direct",
                    lambda: Load(folder, cluster.ports[0], connections, members, "/v3/kv/put", PUTS_OF_KEYS, False),
                    lambda: Load(folder, proxy.port, connections, [proxy.process.pid], "/v3/kv/put", PUTS_OF_KEYS, False), False, least)


def delivered(all_watches, revision):
    """Waits until each watch has a message with this revision, and looks at no more of it than that."""
    mark, ready = b'"mod_revision":"%d"' % revision, select.epoll()
    waiting = {watch.socket.fileno(): watch.socket for watch in all_watches}
    for number in waiting:
        ready.register(number, select.EPOLLIN)
    while waiting:
        for number, _ in ready.poll(60):
            if number in waiting and mark in waiting[number].recv(65536):
                del waiting[number]
    ready.close()


# By this option a read also tells when the kernel had its last bytes (Linux, SO_TIMESTAMPNS).
STAMPED = 35


def arrived(watch, revision):
    """When the watch's message with this revision came to its socket, in seconds of the system's clock, however late it is read."""
    mark, ready = b'"mod_revision":"%d"' % revision, select.poll()
    ready.register(watch.socket, select.POLLIN)
    while ready.poll(60_000):
        message, stamps, _, _ = watch.socket.recvmsg(65536, 64)
        if mark in message:
            seconds, parts = struct.unpack("qq", stamps[0][2])
            return seconds + parts / 1e9
    raise OSError("a watch was told nothing for a minute")


class Took:
    """What each of some puts took, in milliseconds."""

    def __init__(self, seconds=()):
        self.all = [one * 1e3 for one in seconds]

    def add(self, seconds):
        self.all.append(seconds * 1e3)

    def half(self):
        return sorted(self.all)[len(self.all) // 2]

    def told(self):
        return f"p50 {self.half():.1f} ms, least {min(self.all):.1f}, most {max(self.all):.1f}"


def arrival(all_watches, proxy):
    """From the sending of a put until its event was at the first and at the last watch's socket, and what the host took meanwhile. Nobody reads before
    that, so that the clients, which stand on the same processors here, take none of them from the server."""
    host, start = Host(), time.time()
    revision = put(proxy, "w/0", f"value {start}")
    time.sleep(max(0.3, len(all_watches) / 10_000))
    stolen = host.share()
    came = [arrived(watch, revision) for watch in all_watches]
    return min(came) - start, max(came) - start, stolen


def readings(all_watches, proxy):
    """From the sending of a put until one client in Python has read its event from each watch, and its reply's part of that."""
    reply, last = Took(), Took()
    for number in range(PUTS):
        start = time.monotonic()
        revision = put(proxy, "w/0", f"value {number}")
        reply.add(time.monotonic() - start)
        delivered(all_watches, revision)
        last.add(time.monotonic() - start)
        time.sleep(0.3)
    return reply, last


def begun(proxy, count):
    """So many equal watches."""
    all_watches = [Watch(proxy.port, {"key": text64("w/"), "range_end": text64("w0")}) for _ in range(count)]
    watched(all_watches, lambda: all(w.created for w in all_watches), 60, "all watches are created")
    for watch in all_watches:
        watch.socket.setsockopt(socket.SOL_SOCKET, STAMPED, 1)
    return all_watches


def watches(cluster, proxy, count, milliseconds):
    before = sized(proxy.process.pid)
    all_watches = begun(proxy, count)
    after = sized(proxy.process.pid)
    came, host = quietest(PUTS, lambda: arrival(all_watches, proxy), lambda one: one[2])
    first, last = Took(one[0] for one in came), Took(one[1] for one in came)
    used = processor_time([proxy.process.pid])
    reply, read = readings(all_watches, proxy)
    used = (processor_time([proxy.process.pid]) - used) / (PUTS * count) * 1e6
    print(f"{count} equal watches, {used:.0f} us of processor a message\n"
          f"  from a put to the last client's socket: {last.told()}; {host}\n"
          f"  to the first client's socket: {first.told()}\n"
          f"  until one client in Python has read all: {read.told()}\n"
          f"  until the put's reply: {reply.told()}\n"
          f"  {(after[0] - before[0]) / count / 1e3:.1f} KB a client, and {(after[1] - before[1]) / count / 1e3:.1f} KB of page tables", flush=True)
    mark(f"last delivery of {count}", last.half(), " ms", most=milliseconds)
    mark(f"a watching client of {count}", (after[0] - before[0]) / count / 1e3, " KB", most=40)
    for watch in all_watches:
        watch.socket.close()


def idle(proxy, count):
    before, kept = sized(proxy.process.pid), []
    for number in range(count):
        kept.append(socket.create_connection(("127.0.0.1", proxy.port), 10))
    until(lambda: proxy.counts()[0] > count, 60, "each connection has its thread")
    after = sized(proxy.process.pid)
    print(f"{count} idle connections: {(after[0] - before[0]) / count / 1e3:.1f} KB each, and {(after[1] - before[1]) / count / 1e3:.1f} KB of page tables")
    mark("an idle connection", (after[0] - before[0]) / count / 1e3, " KB", most=24)
    for one in kept:
        one.sendall(b"POST /v3/kv/range HTTP/1.1\r\nHost: h\r\nContent-Length: %d\r\n\r\n" % len(READ) + READ.encode())
        one.recv(65536)
    served = sized(proxy.process.pid)
    print(f"  once each had a reply: {(served[0] - before[0]) / count / 1e3:.1f} KB, and {(served[1] - before[1]) / count / 1e3:.1f} KB of page tables;\n"
          f"  {after[0] / 1e6:.0f} MB resident in all, {served[0] / 1e6:.0f} MB then", flush=True)
    for one in kept:
        one.close()


def many(count):
    """As many clients as are wanted, or as the limit on descriptors has room for: the proxy keeps a quarter of its own, and where three quarters of
    the others are taken it soon closes a connection that rests."""
    return min(count, resource.getrlimit(resource.RLIMIT_NOFILE)[0] * 9 // 16 - 100)


def main():
    most = resource.getrlimit(resource.RLIMIT_NOFILE)[1]
    resource.setrlimit(resource.RLIMIT_NOFILE, (most, most))
    folder = tempfile.mkdtemp(prefix="etcd-proxy-", dir=in_memory())
    cluster = Cluster(folder)
    proxies = []

    def proxy(name, *options):
        proxies.append(Proxy(PROGRAM, cluster, folder, name, *options))
        return proxies[-1]

    def counting():
        counted(folder, proxy("uncounted", "--leasing-prefix=N/", "--workers=64"),
                proxy("counting", "--leasing-prefix=M/", "--workers=64", f"--metrics-addr=127.0.0.1:{free_port()}"))

    parts = {"reads": lambda: reads(folder, cluster, proxy("leasing", "--leasing-prefix=L/", "--workers=64")),
             "counted": counting,
             "calls": lambda: calls(folder, cluster, proxy("plain", "--workers=64")),
             "kept": lambda: kept(folder, cluster, proxy("kept", "--workers=64"), proxy("kept_leasing", "--leasing-prefix=K/", "--workers=64")),
             "watches": lambda: watches(cluster, proxy("watches"), 1000, 15),
             "idle": lambda: idle(proxy("idle"), 1000),
             "many_watches": lambda: watches(cluster, proxy("many_watches", "--max-connections=16384"), many(10_000), 120),
             "many_idle": lambda: idle(proxy("many_idle", "--max-connections=16384"), many(12_000))}
    try:
        for name in PARTS or parts:
            parts[name]()
    finally:
        for one in proxies:
            one.stop()
        cluster.stop()
        shutil.rmtree(folder, ignore_errors=True)
    return judged()


def judged():
    """Says which marks are missed. The status."""
    print(f"marks missed: {'; '.join(MISSED)}" if MISSED else "all marks are met")
    return 1 if MISSED else 0


if __name__ == "__main__":
    sys.exit(main())
