#!/usr/bin/python3
"""Debian's clients of etcd's JSON gateway, unchanged, before running proxies. tests/real_clients.py runs it by the Python that they are for.

usage: debian_clients.py etcd3gw PORT [TEST ..]
       debian_clients.py patroni PORT PORT PROCESS PROCESS

etcd3gw    the tests that python3-etcd3gw comes with, but for those that are named
patroni    two nodes by the classes of Debian's patroni, each through a proxy of its own: they race for the leader's key, follow each other by
           watches, hand over, and lose a lease. PROCESS PROCESS are the proxies' numbers, of which it kills one
"""
import functools, json, logging, os, signal, sys, threading, time, types, unittest
from unittest import mock

PATIENCE = float(os.environ.get("PATIENCE", 1))


def stand_in(name, **has):
    """Makes a module that can be imported where there is none of this name."""
    try:
        __import__(name)
    except ImportError:
        module = sys.modules[name] = types.ModuleType(name)
        module.__dict__.update(has)


def try_etcd3gw(port, *others):
    # What the tests use of these two is the standard library's.
    stand_in("oslotest", base=types.SimpleNamespace(BaseTestCase=unittest.TestCase))
    stand_in("testtools")
    stand_in("testtools.testcase", unittest=unittest)
    # They are skipped where nothing answers at port 2379.
    with mock.patch("urllib3.PoolManager.request"):
        from etcd3gw.tests import test_etcd3gw as tests
    tests.Etcd3Client = functools.partial(tests.Etcd3Client, host="127.0.0.1", port=int(port), api_path="/v3/")
    cases = unittest.defaultTestLoader.loadTestsFromModule(tests)
    wanted = [case for group in cases for case in group if case.id().rsplit(".", 1)[1] not in others]
    told = unittest.TextTestRunner(sys.stderr, verbosity=0).run(unittest.TestSuite(wanted))
    if not told.wasSuccessful() or told.skipped:
        sys.exit(f"etcd3gw: {len(told.failures) + len(told.errors)} of {len(wanted)} tests failed, {len(told.skipped)} were skipped")
    print(f"etcd3gw: {len(wanted)} tests that it comes with passed, all {f'but {len(others)}' if others else 'of them'}")


# how long a lease of a node lives, in seconds
TTL = int(6 * PATIENCE)


class Steps:
    """What the nodes do, one after the other."""

    def __init__(self, nodes):
        self.nodes, self.count = nodes, 0

    def __call__(self, what, holds):
        self.count += 1
        if not holds:
            sys.exit(f"patroni: step {self.count}: {what}: {[node.get_cluster() for node in self.nodes]}")

    def seen(self, what, holds, seconds=5):
        """Both nodes see the cluster as it is to be, in a while."""
        end = time.monotonic() + seconds * PATIENCE
        while not all(holds(node.get_cluster()) for node in self.nodes) and time.monotonic() < end:
            time.sleep(0.05)
        self(what, all(holds(node.get_cluster()) for node in self.nodes))


def at_once(*calls):
    """What calls answer that are made at the same time."""
    told = [None] * len(calls)

    def make(number):
        told[number] = calls[number]()
    threads = [threading.Thread(target=make, args=(number,)) for number in range(len(calls))]
    for thread in threads:
        thread.start()
    for thread in threads:
        thread.join()
    return told


def nodes_of(ports):
    """Two nodes, each with its own proxy first."""
    from patroni.dcs import etcd3

    scope = f"trial-{os.getpid()}-{time.time():.0f}"
    return [etcd3.Etcd3({"name": name, "scope": scope, "namespace": "/service", "hosts": [f"127.0.0.1:{port}" for port in order],
                         "use_proxies": True, "ttl": TTL, "loop_wait": 1, "retry_timeout": 5})
            for name, order in (("a", ports), ("b", ports[::-1]))]


def begins(steps, a, b):
    """The nodes find nothing, one of them begins a cluster, and both join it."""
    steps("both nodes have a lease", a._lease and b._lease and a._lease != b._lease)
    steps.seen("nothing is there", lambda c: c.initialize is None and c.leader is None and not c.members)
    steps("one node begins the cluster", sum(at_once(lambda: a.initialize(True, "1"), lambda: b.initialize(True, "1"))) == 1)
    steps.seen("it is begun", lambda c: c.initialize == "1")
    steps("both nodes tell of themselves", at_once(*[lambda n=n: n.touch_member({"state": n._name}) for n in (a, b)]) == [True, True])
    steps.seen("both see both", lambda c: {m.name: m.data["state"] for m in c.members} == {"a": "a", "b": "b"})


def race(steps, a, b):
    """The nodes race for the leader's key. The one that has it, and the other one."""
    told = at_once(a.attempt_to_acquire_leader, b.attempt_to_acquire_leader)
    steps(f"one node is the leader: {told}", sum(map(bool, told)) == 1)
    leader, other = (a, b) if told[0] else (b, a)
    steps.seen("both see the leader", lambda c: c.leader_name == leader._name)
    steps("the leader's lease goes on", leader.update_leader(100))
    steps.seen("both see its position", lambda c: c.last_lsn == 100)
    steps("the other node can't lead", not other.attempt_to_acquire_leader())
    return leader, other


def settings(steps, leader, other):
    """What is written only where it wasn't written since."""
    steps("the settings are written", leader.set_config_value(json.dumps({"ttl": TTL})))
    steps.seen("both see the settings", lambda c: c.config and c.config.data == {"ttl": TTL})
    index = other.get_cluster().config.index
    steps("they are written again behind their revision", other.set_config_value(json.dumps({"ttl": TTL + 1}), index))
    steps("and not behind an older one", not leader.set_config_value("{}", index))
    steps("a synchronous standby is told", leader.write_sync_state(leader._name, other._name))
    steps.seen("both see it", lambda c: c.sync.leader == leader._name and c.sync.members == [other._name])
    steps("and is told no more", leader.delete_sync_state(leader.get_cluster().sync.index))


def hand_over(steps, leader, other):
    """The leader gives its key to the other node, which waits for that."""
    steps("a failover is asked for", other.manual_failover(leader._name, other._name))
    steps.seen("both see it", lambda c: c.failover and c.failover.candidate == other._name)
    leader.get_cluster(), other.event.clear()
    woken, given = at_once(lambda: other.watch(None, 10 * PATIENCE), leader.delete_leader)
    steps("the leader gives its key up", given)
    steps("the other node hears of it", woken)
    steps("and has the key", other.attempt_to_acquire_leader())
    steps.seen("both see the new leader", lambda c: c.leader_name == other._name)


def without_its_proxy(steps, leader, process):
    """The leader's proxy is killed."""
    os.kill(int(process), signal.SIGKILL)
    steps("the leader's lease goes on through the other proxy", any(leader.update_leader(200) for _ in range(3)))
    steps.seen("both see its position", lambda c: c.leader_name == leader._name and c.last_lsn == 200, 10)


def lose(steps, leader, other):
    """The leader does nothing more until its lease is over, which it hears of late."""
    begun = time.monotonic()
    while other.get_cluster().leader and time.monotonic() < begun + 3 * TTL:
        other.touch_member({"state": other._name})
        time.sleep(0.5)
    steps("the leader's key goes with its lease", not other.get_cluster().leader)
    steps("the other node has the key", other.attempt_to_acquire_leader())
    # A put with a lease that is over is refused, and the refusal's field `error` says so: then the node has a new lease.
    old = leader._lease
    steps("it tells of itself again", any(leader.touch_member({"state": "again"}) for _ in range(3)))
    steps("the node that led has a new lease", leader._lease and leader._lease != old)
    steps.seen("both see it, and the leader", lambda c: c.leader_name == other._name
               and {m.name: m.data["state"] for m in c.members} == {leader._name: "again", other._name: other._name})
    steps("it can't lead", not leader.attempt_to_acquire_leader())
    steps("all is deleted", other.delete_cluster())
    steps.seen("nothing is there", lambda c: c.initialize is None and c.leader is None and not c.members)


def try_patroni(first, second, *processes):
    logging.disable(logging.CRITICAL)
    a, b = nodes_of([first, second])
    steps = Steps([a, b])
    begins(steps, a, b)
    first, second = race(steps, a, b)
    settings(steps, first, second)
    hand_over(steps, first, second)
    without_its_proxy(steps, second, processes[0 if second is a else 1])
    lose(steps, second, first)
    print(f"patroni: two nodes made {steps.count} steps through two proxies, of which one was killed")


if __name__ == "__main__":
    {"etcd3gw": try_etcd3gw, "patroni": try_patroni}[sys.argv[1]](*sys.argv[2:])
    sys.stdout.flush()
    # Threads of the clients that still watch end with the process.
    os._exit(0)
