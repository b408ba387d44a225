#!/usr/bin/env python3
"""Clients and fronts that others wrote, unchanged, with running proxies on loopback.

usage: real_clients.py PROGRAM PORT PORT PROCESS PROCESS
       real_clients.py store PORT

PROGRAM is the built etcd_proxy. Two proxies before one cluster, with one leasing prefix, are at the ports, and have these process numbers. The
front's settings are the blocks of docs/OPERATIONS.md as they stand there, but for ports and folders. What isn't here and can't be installed isn't
tried, which is said.

curl       a proxy itself: calls, a put of a megabyte, a watch, connections that are kept and that aren't, HTTP/1.0
nginx      the same through nginx, with and without the lines on HTTP/1.1, on kept connections and on silent watches, and by TLS; a write is sent once
haproxy    the same through haproxy, with checks of /health by HTTP/1.1 and by HTTP/1.0, and by TLS; a write is sent once
stunnel    the same through stunnel, with TLS on both sides, before a member of etcd that asks for a certificate
unit, deployment
           systemd and kubectl read the blocks for them, where they are here
etcd3gw, patroni
           tests/debian_clients.py

With `store`, curl and etcd3gw ask the program's own small store at the port, with no proxy between; what it doesn't serve isn't asked for.
"""
import base64, contextlib, json, os, queue, re, shutil, socket, subprocess, sys, tempfile, threading, time

HERE = os.path.dirname(os.path.abspath(__file__))
PATIENCE = float(os.environ.get("PATIENCE", 1))


class Failure(Exception):
    pass


def check(holds, what):
    if not holds:
        raise Failure(what)


def until(holds, seconds, what):
    """Waits until it holds."""
    end = time.monotonic() + seconds * PATIENCE
    while not holds():
        check(time.monotonic() < end, f"{what}: not within {seconds} s")
        time.sleep(0.1)


def text64(text):
    return base64.b64encode(text.encode()).decode()


def free_port():
    with socket.socket() as taken:
        taken.bind(("127.0.0.1", 0))
        return taken.getsockname()[1]


def listens(port):
    with socket.socket() as client:
        return client.connect_ex(("127.0.0.1", port)) == 0


def connections(port):
    """How many connections are open to a port of this machine."""
    with open("/proc/net/tcp") as table:
        rows = [line.split() for line in table.read().splitlines()[1:]]
    return sum(row[1] == f"0100007F:{port:04X}" and row[3] == "01" for row in rows)


# ---- what is installed, and what runs

def have(package, program):
    """Whether a program of a package is here, or can be installed."""
    quiet = {"stdout": subprocess.DEVNULL, "stderr": subprocess.DEVNULL, "check": False}
    here = lambda: bool(shutil.which(program)) or os.path.exists(program)
    if not here() and shutil.which("apt-get"):
        subprocess.run(["apt-get", "install", "-y", "-qq", "--no-install-recommends", package],
                       env={**os.environ, "DEBIAN_FRONTEND": "noninteractive"}, **quiet)
        if here() and shutil.which("service"):
            # The package starts a service of its own, which isn't wanted.
            subprocess.run(["service", package.removesuffix("-light"), "stop"], **quiet)
    if not here():
        print(f"real_clients: what needs {package} wasn't tried, since it can't be installed here")
    return here()


def blocks(heading, language):
    """The blocks of a language below a heading of docs/OPERATIONS.md."""
    with open(f"{HERE}/../docs/OPERATIONS.md") as page:
        section = re.search(rf"^## {heading}\n(.*?)(?=^## )", page.read(), re.M | re.S)[1]
    return re.findall(rf"^```{language}\n(.*?)^```", section, re.M | re.S)


def changed(text, *changes):
    """A block with other words in place of some that have to stand there."""
    for old, new in changes:
        check(old in text, f"a block of docs/OPERATIONS.md has no {old}")
        text = text.replace(old, new)
    return text


def without(text, *words):
    """A block without its lines that have these words."""
    for word in words:
        check(word in text, f"a block of docs/OPERATIONS.md has no {word}")
        text = "".join(line for line in text.splitlines(True) if word not in line)
    return text


@contextlib.contextmanager
def running(folder, name, port, *words):
    """A process that listens on a port, and ends behind this."""
    with open(f"{folder}/{name}.log", "ab") as log:
        process = subprocess.Popen(words, stdin=subprocess.DEVNULL, stdout=log, stderr=log)
    try:
        until(lambda: process.poll() is not None or listens(port), 15, f"{name} listens")
        with open(f"{folder}/{name}.log") as log:
            check(process.poll() is None, f"{name} ended: {log.read()}")
        yield process
    finally:
        process.terminate()
        with contextlib.suppress(subprocess.TimeoutExpired):
            process.wait(5)
        process.kill()
        process.wait()


# ---- what is asked, by curl

def curl(*words, body=None):
    """The status and the body that curl gets, 0 where it gets none. It posts a body where there is one."""
    sent = [] if body is None else ["-d", "@-"]
    told = subprocess.run(["curl", "-s", "-m", str(30 * PATIENCE), "-w", "\\n%{http_code}", *words, *sent], input=body, capture_output=True,
                          check=False).stdout
    body, status = told.rsplit(b"\n", 1)
    return int(status), body


class At:
    """Calls to an address, with further words for curl."""

    def __init__(self, url, *words):
        self.url, self.words = url, words

    def post(self, path, body, *words):
        status, told = curl(*self.words, *words, self.url + path, body=body if isinstance(body, bytes) else json.dumps(body).encode())
        try:
            return status, json.loads(told)
        except ValueError:
            return status, told

    def done(self, path, body, *words):
        """What is answered to a call that may be made again where it came to nothing within its time, as on a busy machine."""
        told = next((told for _ in range(5) if (told := self.post(path, body, *words))[0] not in (503, 504)), (0, "lost five times"))
        check(told[0] == 200, f"{path} at {self.url}: {told}")
        return told[1]

    def put(self, key, value, *words):
        self.done("/v3/kv/put", {"key": text64(key), "value": text64(value)}, *words)

    def value(self, key, *words):
        told = self.done("/v3/kv/range", {"key": text64(key)}, *words)
        return base64.b64decode(told["kvs"][0]["value"]).decode() if "kvs" in told else None

    def connects(self, count, *words):
        """How many connections curl makes for so many calls."""
        urls = [f"{self.url}/v3/kv/range"] * count
        told = subprocess.run(["curl", "-s", "-m", str(30 * PATIENCE), "-w", "\\n%{http_code} %{num_connects}\\n", *self.words, *words,
                               "-d", '{"key":"Pw=="}', *urls], capture_output=True, check=False).stdout
        made = re.findall(rb"^(\d{3}) (\d+)$", told, re.M)
        check(len(made) == count and all(status in (b"200", b"503", b"504") for status, _ in made), f"calls at {self.url}: {told}")
        return sum(int(number) for _, number in made)


class Watch:
    """A watch of a key by curl."""

    def __init__(self, at, key):
        self.process = subprocess.Popen(["curl", "-s", "-N", *at.words, "-d", json.dumps({"create_request": {"key": text64(key)}}), at.url + "/v3/watch"],
                                        stdout=subprocess.PIPE)
        self.told = queue.Queue()
        threading.Thread(target=self.read, daemon=True).start()
        check(self.next(10)["result"].get("created"), f"a watch at {at.url} is created")

    def read(self):
        for line in self.process.stdout:
            self.told.put(json.loads(line))
        self.told.put(None)

    def next(self, seconds):
        """What it is told next, or None at its end."""
        try:
            return self.told.get(timeout=seconds * PATIENCE)
        except queue.Empty:
            raise Failure(f"a watch was told nothing within {seconds} s") from None

    def stop(self):
        self.process.kill()
        self.process.wait()


MEGABYTE = "m" * 1_000_000


def watched(at, past, key):
    """A watch is told of each put at once, a silent while later too. The least time from a put's end to its event, in seconds."""
    watch, took = Watch(at, key), []
    for number in range(6):
        if number == 3:
            time.sleep(2)
        past.put(key, str(number))
        done = time.monotonic()
        event = watch.next(5)
        took.append(time.monotonic() - done)
        check(event and base64.b64decode(event["result"]["events"][0]["kv"]["value"]).decode() == str(number), f"a watch at {at.url}: {event}")
    watch.stop()
    return min(took)


def called(name, at, past, large=True):
    """Calls are answered here, where `past` is the server itself."""
    key = f"real/{name}/"
    at.put(key + "a", "1")
    check(at.value(key + "a") == "1" and past.value(key + "a") == "1", f"{name}: a range behind a put")
    at.put(key + "a", "2", "-H", "Transfer-Encoding: chunked")
    check(at.value(key + "a") == "2", f"{name}: a range behind a put in chunks")
    if large:
        at.put(key + "large", MEGABYTE)
        check(at.value(key + "large") == MEGABYTE, f"{name}: a range of a megabyte")
        at.done("/v3/kv/deleterange", {"key": text64(key + "large")})
    check(at.connects(20) == 1, f"{name}: a connection isn't kept")
    check(at.connects(5, "-H", "Connection: close") == 5, f"{name}: a connection is kept that isn't to be")
    took = watched(at, past, key + "w")
    check(took < 0.15 * PATIENCE, f"{name}: a watch is told of a put {took:.2f} s later at the soonest")


def served(name, at, past, large=True):
    """All that a client asks for is answered here, where `past` is a proxy itself."""
    called(name, at, past, large)
    for path, body in (("/version", b'{"etcdserver":"3.4.0","etcdcluster":"3.4.0"}'), ("/health", b'{"health":"true"}')):
        check(curl(*at.words, at.url + path) == (200, body), f"{name}: GET {path}: {curl(*at.words, at.url + path)}")
        check(curl(*at.words, "-I", at.url + path)[0] == 200, f"{name}: HEAD {path}")


class Closing:
    """A server that answers checks, and closes a connection whose request it took without an answer."""

    def __init__(self):
        self.socket, self.taken = socket.create_server(("127.0.0.1", 0)), 0
        self.port = self.socket.getsockname()[1]
        threading.Thread(target=self.run, daemon=True).start()

    def run(self):
        with contextlib.suppress(OSError):
            while True:
                client, _ = self.socket.accept()
                threading.Thread(target=self.take, args=(client,), daemon=True).start()

    def take(self, client):
        with client, contextlib.suppress(OSError):
            client.settimeout(10)
            told = client.recv(65536)
            self.taken += told.startswith(b"POST")
            if told.startswith(b"GET"):
                client.sendall(b"HTTP/1.1 200 OK\r\nContent-Length: 0\r\nConnection: close\r\n\r\n")


def sent_once(name, at, past, closing):
    """Of two servers one closes each put's connection when it took it: that put isn't sent to the other, which takes all that it doesn't get."""
    key = {"key": text64(f"real/{name}/once")}
    told = [at.post("/v3/kv/put", key)[0] for _ in range(8)]
    version = int(past.done("/v3/kv/range", key)["kvs"][0]["version"])
    check(closing.taken > 0 and told.count(502) == closing.taken and told.count(200) == version == 8 - closing.taken,
          f"{name}: {closing.taken} puts were taken and not answered, {version} were done: {told}")


# by the small store, and by the proxies with --etcd-errors
BARE = (400, {"message": "proxy: bad request", "code": 3})
REFUSED = (400, {"error": "proxy: bad request", "message": "proxy: bad request", "code": 3})


def refused_for_its_version(name, at, wanted=REFUSED):
    told = at.post("/v3/kv/range", {"key": text64("?")})
    check(told == wanted, f"{name}: HTTP/1.0 is answered {told}")


# ---- the proxy itself, and each front

def try_curl(ports):
    at = At(f"http://127.0.0.1:{ports[0]}")
    served("curl", at, At(f"http://127.0.0.1:{ports[1]}"))
    refused_for_its_version("curl", At(at.url, "--http1.0"))
    print("curl: the proxy itself served a put of a megabyte, a watch, and connections that were kept or not")


def certificates(folder):
    """An authority's certificate, and one for a server and one for a client that it made."""
    def openssl(*words):
        subprocess.run(["openssl", *words], cwd=folder, capture_output=True, check=True)
    key = ("-newkey", "ec", "-pkeyopt", "ec_paramgen_curve:prime256v1", "-nodes")
    openssl("req", "-x509", *key, "-days", "2", "-subj", "/CN=authority", "-keyout", "ca.key", "-out", "ca.pem")
    with open(f"{folder}/more", "w") as more:
        more.write("subjectAltName=IP:127.0.0.1\nextendedKeyUsage=serverAuth,clientAuth\n")
    for name in ("server", "client"):
        openssl("req", *key, "-subj", f"/CN={name}", "-keyout", f"{name}.key", "-out", f"{name}.csr")
        openssl("x509", "-req", "-in", f"{name}.csr", "-CA", "ca.pem", "-CAkey", "ca.key", "-CAcreateserial", "-days", "2", "-extfile", "more",
                "-out", f"{name}.pem")
    with open(f"{folder}/both.pem", "w") as both:
        for name in ("server.pem", "server.key"):
            with open(f"{folder}/{name}") as part:
                both.write(part.read())


def by_tls(folder, port):
    """Calls with the client's certificate; and without, which is refused."""
    at = At(f"https://127.0.0.1:{port}", "--cacert", f"{folder}/ca.pem", "--cert", f"{folder}/client.pem", "--key", f"{folder}/client.key")
    status, _ = curl("--cacert", f"{folder}/ca.pem", at.url + "/version")
    check(status != 200, f"a client without a certificate was served at {at.url}")
    return at


def nginx(folder, block, port):
    """nginx with this block."""
    kinds = ("client_body", "proxy", "fastcgi", "uwsgi", "scgi")
    user = "user root;" if os.geteuid() == 0 else ""
    with open(f"{folder}/nginx.conf", "w") as file:
        file.write(f"daemon off; {user} worker_processes 1; pid {folder}/nginx.pid; error_log {folder}/nginx.errors; events {{}}\n"
                   f"http {{ access_log off; {''.join(f'{kind}_temp_path {folder}/{kind};' for kind in kinds)}\n{block}\n}}")
    return running(folder, "nginx", port, "nginx", "-c", f"{folder}/nginx.conf", "-e", f"{folder}/nginx.errors")


def try_nginx(folder, ports):
    port = free_port()
    at, past = At(f"http://127.0.0.1:{port}"), At(f"http://127.0.0.1:{ports[1]}")
    block = changed(blocks("Behind nginx", "nginx")[0], ("127.0.0.1:23790", f"127.0.0.1:{ports[0]}"), ("listen 8379", f"listen 127.0.0.1:{port}"))
    idle = lambda: connections(ports[0])
    until(lambda: idle() == 0, 5, "connections to a proxy end")
    with nginx(folder, block, port):
        served("nginx", at, past)
        check(at.value("real/nginx/a", "--http1.0") == "2", "nginx: a client that asks by HTTP/1.0")
        check(idle() > 0, "nginx: no connection to the proxy was kept")
        check(at.post("/v3/kv/put", b"x" * ((4 << 20) + 1))[0] == 413, "nginx: a body that is too long")
    closing = Closing()
    server = next(line for line in block.splitlines(True) if "    server 127" in line)
    with nginx(folder, block.replace(server, f"server 127.0.0.1:{closing.port};\n{server}"), port):
        sent_once("nginx", at, past, closing)
    with nginx(folder, without(block, "proxy_http_version"), port):
        refused_for_its_version("nginx without `proxy_http_version 1.1`", at)
    with nginx(folder, without(block, "keepalive", "Connection"), port):
        served("nginx without kept connections", at, past, large=False)
        at.value("real/nginx/a")
        until(lambda: idle() == 0, 5, "nginx: connections to the proxy that aren't to be kept")
    with nginx(folder, changed(block, ("proxy_read_timeout 1h", "proxy_read_timeout 1s")), port):
        watch = Watch(at, "real/nginx/silent")
        check(watch.next(10) is None, "nginx: a watch that was silent for longer than `proxy_read_timeout` goes on")
        watch.stop()
    tls = changed(blocks("TLS", "nginx")[0], ("listen 2379", f"listen 127.0.0.1:{port}"), ("/etc/etcd_proxy", folder))
    with nginx(folder, changed(block, (f"    listen 127.0.0.1:{port};\n", tls)), port):
        served("nginx with TLS", by_tls(folder, port), past, large=False)
    print("nginx: served as documented, by TLS too; without its lines for it HTTP/1.0 is refused, connections aren't kept, and a silent watch ends")


def haproxy(folder, block, port):
    with open(f"{folder}/haproxy.cfg", "w") as file:
        file.write(block)
    return running(folder, "haproxy", port, "haproxy", "-db", "-f", f"{folder}/haproxy.cfg")


def try_haproxy(folder, ports):
    port = free_port()
    at, past = At(f"http://127.0.0.1:{port}"), At(f"http://127.0.0.1:{ports[1]}")
    block = changed(blocks("Behind haproxy", "haproxy")[0], ("bind :8379", f"bind 127.0.0.1:{port}"))
    server, closing = next(line for line in block.splitlines(True) if "    server " in line), Closing()
    before = lambda *numbers: block.replace(server, "".join(changed(server, ("server a", f"server {name}"), ("127.0.0.1:23790", f"127.0.0.1:{number}"))
                                                            for name, number in zip("ab", numbers)))
    checked = lambda: curl(at.url + "/health")[0]
    with haproxy(folder, before(closing.port, ports[0]), port):
        sent_once("haproxy", at, past, closing)
    block = before(*ports)
    with haproxy(folder, block, port):
        served("haproxy", at, past)
        refused_for_its_version("haproxy", At(at.url, "--http1.0"))
        time.sleep(8)
        check(checked() == 200, "haproxy: its checks find no proxy")
    with haproxy(folder, changed(block, (" ver HTTP/1.1 hdr Host etcd-proxy", "")), port):
        until(lambda: checked() == 503, 15, "haproxy: checks by HTTP/1.0 fail")
    tls = changed(blocks("TLS", "haproxy")[0], ("bind :2379", f"bind 127.0.0.1:{port}"), ("/etc/etcd_proxy", folder))
    with haproxy(folder, changed(block, (f"    bind 127.0.0.1:{port}\n", tls)), port):
        served("haproxy with TLS", by_tls(folder, port), past, large=False)
    print("haproxy: served as documented, by TLS too; its checks by HTTP/1.0 are refused")


def try_stunnel(folder, program):
    clients, link, plain, member, peer = (free_port() for _ in range(5))
    block = changed(blocks("TLS", "ini")[0], ("accept = 2379", f"accept = 127.0.0.1:{clients}"), ("127.0.0.1:23790", f"127.0.0.1:{plain}"),
                    ("127.0.0.1:12379", f"127.0.0.1:{link}"), ("10.0.0.1:2379", f"127.0.0.1:{member}"), ("checkIP = 10.0.0.1", "checkIP = 127.0.0.1"),
                    ("/etc/etcd_proxy", folder))
    with open(f"{folder}/stunnel.conf", "w") as file:
        file.write(block)
    url, peers = f"https://127.0.0.1:{member}", f"http://127.0.0.1:{peer}"
    etcd = lambda: running(folder, "etcd", member, "etcd", "--name", "m", "--data-dir", f"{folder}/member", "--listen-client-urls", url,
                           "--advertise-client-urls", url, "--listen-peer-urls", peers, "--initial-advertise-peer-urls", peers,
                           "--initial-cluster", f"m={peers}", "--cert-file", f"{folder}/server.pem", "--key-file", f"{folder}/server.key",
                           "--client-cert-auth", "--trusted-ca-file", f"{folder}/ca.pem")
    past = At(f"http://127.0.0.1:{plain}")
    healthy = lambda: curl(past.url + "/health")[0] == 200
    put = lambda: past.post("/v3/kv/put", {"key": text64("real/stunnel/b"), "value": text64("3")})
    with running(folder, "stunnel", clients, "stunnel4", f"{folder}/stunnel.conf"), \
            running(folder, "proxy", plain, program, "grpc-proxy", "start", f"--endpoints=127.0.0.1:{link}", f"--listen-addr=127.0.0.1:{plain}",
                    "--leasing-prefix=L/", "--workers=16"):
        with etcd():
            until(healthy, 15, "stunnel: the proxy has its member")
            served("stunnel", by_tls(folder, clients), past)
        told = put()
        check(told[0] == 503 and told[1]["code"] == 14, f"stunnel: a put while the member is down: {told}")
        until(lambda: not healthy(), 10, "stunnel: a member that is down is seen to be")
        with etcd():
            until(lambda: put()[0] == 200, 20, "stunnel: a put once the member is back")
    print("stunnel: served as documented, with TLS on both sides, before a member that asks for a certificate")


def try_files(folder):
    """systemd and kubectl read the files for them, and know each of their words."""
    if shutil.which("systemd-analyze"):
        unit = changed(blocks("Under systemd", "ini")[0], ("/usr/local/lib/etcd_proxy/serve.sh", os.path.realpath(f"{HERE}/../tools/serve.sh")))
        with open(f"{folder}/etcd_proxy.service", "w") as file:
            file.write(unit)
        told = subprocess.run(["systemd-analyze", "verify", file.name], capture_output=True, text=True, check=False)
        check(told.returncode == 0 and "etcd_proxy.service" not in told.stderr, f"systemd: {told.stderr}")
        print("unit: systemd-analyze finds nothing wrong with it")
    else:
        print("real_clients: the unit file wasn't tried, since there is no systemd-analyze here")
    if shutil.which("kubectl"):
        with open(f"{folder}/deployment.yaml", "w") as file:
            file.write(blocks("In Kubernetes", "yaml")[0])
        read = lambda *words: json.loads(subprocess.run(["kubectl", *words, "--local", "-f", file.name, "-o", "json"],
                                                        capture_output=True, check=True).stdout)
        # The first keeps what stands there, the second what the API knows of it.
        stands, known = read("annotate", "a=b"), read("set", "image", "etcd-proxy=other")
        lost = list(words_lost(stands["spec"], known["spec"]))
        check(not lost, f"kubectl knows nothing of {lost}")
        print("deployment: kubectl knows each of its words")
    else:
        print("real_clients: the deployment wasn't tried, since there is no kubectl here")


def words_lost(stands, known, path=""):
    """The fields of a value that another one hasn't."""
    if isinstance(stands, dict):
        for name, value in stands.items():
            if name not in known:
                yield f"{path}.{name}"
            else:
                yield from words_lost(value, known[name], f"{path}.{name}")
    elif isinstance(stands, list):
        for number, value in enumerate(stands):
            yield from words_lost(value, known[number], f"{path}[{number}]")


DEBIAN = "/usr/lib/python3/dist-packages"


def try_debian(*words):
    told = subprocess.run(["/usr/bin/python3", f"{HERE}/debian_clients.py", *map(str, words)], stdout=subprocess.PIPE, stderr=subprocess.STDOUT, text=True,
                          timeout=180 * PATIENCE, check=False)
    check(told.returncode == 0, told.stdout)
    print(told.stdout.splitlines()[-1])


# what the small store doesn't serve: what a member tells of itself, and ranges that are sorted otherwise than by rising keys
UNSERVED = ["test_client_status", "test_client_members", "test_get_prefix_sort_order", "test_get_prefix_sort_order_explicit_sort_target_key",
            "test_get_prefix_sort_order_explicit_sort_target_rev"]


def try_store(port):
    at = At(f"http://127.0.0.1:{port}")
    called("curl", at, at)
    refused_for_its_version("curl", At(at.url, "--http1.0"), BARE)
    print("curl: the small store served a put of a megabyte, a watch, and connections that were kept or not")
    try_etcd3gw(port, *UNSERVED)


def try_etcd3gw(port, *others):
    if have("python3-etcd3gw", f"{DEBIAN}/etcd3gw/client.py"):
        try_debian("etcd3gw", port, *others)


def try_proxies(folder, program, *numbers):
    ports, processes = [int(number) for number in numbers[:2]], numbers[2:]
    try_curl(ports)
    tls = have("openssl", "openssl")
    if tls:
        certificates(folder)
    if tls and have("nginx-light", "nginx"):
        try_nginx(folder, ports)
    if tls and have("haproxy", "haproxy"):
        try_haproxy(folder, ports)
    if tls and have("stunnel4", "stunnel4"):
        try_stunnel(folder, os.path.abspath(program))
    try_files(folder)
    try_etcd3gw(ports[0])
    if have("patroni", f"{DEBIAN}/patroni/dcs/etcd3.py"):
        try_debian("patroni", *ports, *processes)


def main(what, *numbers):
    folder = tempfile.mkdtemp(prefix="real-clients-")
    try:
        if what == "store":
            try_store(*numbers)
        else:
            try_proxies(folder, what, *numbers)
    except (Failure, subprocess.SubprocessError) as failure:
        print(f"real_clients: {failure}", file=sys.stderr)
        return 1
    finally:
        shutil.rmtree(folder, ignore_errors=True)
    return 0


if __name__ == "__main__":
    sys.stdout.reconfigure(line_buffering=True)
    sys.exit(main(*sys.argv[1:]))
