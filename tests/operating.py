"""Runs relayd as its operator does, from its package, while browsers call each other. It is no part of the test command.

    tests/operating.py FOLDER

A machine of Debian with systemd, in FOLDER, is behind a NAT without hairpinning (RFC 4787, section 6), and has the
package of the built program, with two processes whose ports for clients are their own. Two browsers are behind NATs of their own,
whose ports depend on the destination, and call each other through slots of one server. During the calls the users and the secret are
replaced, the package is upgraded, and each process is drained and restarted with the new program; at the end the package is purged. A
message of a call that is lost is a failure, and so is a connection that changes its state; what each side saw is printed.

The machine is made by debootstrap where FOLDER has none, which fetches 200 MB. It needs root, systemd-nspawn, nft and Chromium.
"""

import base64
import contextlib
import hashlib
import hmac
import json
import pathlib
import shutil
import subprocess
import sys
import tempfile
import time

from lib.program import PROGRAM, TOP, build, finish
from lib.server import wanted

sys.path.insert(0, str(pathlib.Path(__file__).parent / "clients"))
from chromium import Page, started  # noqa: E402: the folder of the clients is no package

CALL = (TOP / "tests" / "clients" / "call.html").as_uri()
ARCHIVE, SUITE = "http://deb.debian.org/debian", "bookworm"
WANTED = "systemd,systemd-sysv,dbus,iproute2,procps"
# the public addresses: the server's, those of the browsers, and that of who checks it
SERVER, BROWSERS, OUTSIDE = "203.0.113.1", ("203.0.113.11", "203.0.113.12"), "203.0.113.20"
# each process: its first relayed port, and its port for clients
PROCESSES = {49152: 3478, 49408: 3479}
NAT = """
table ip nat {{
  chain before {{
    type nat hook prerouting priority -100;
    {before}
  }}
  chain after {{
    type nat hook postrouting priority 100;
    oif "wan" {after}
  }}
}}
table ip filter {{
  chain through {{
    type filter hook forward priority 0; policy drop;
    ct state established,related accept
    iif "lan" oif "wan" accept
    iif "wan" ct status dnat accept
  }}
}}
"""
TO_SERVER = 'iif "wan" udp dport { 3478, 3479, 49152-49663 } dnat to 192.0.2.10'
# what the manual says of the options of all processes, and of a process with a port of its own
DROP_IN = """[Service]
Environment="RELAY=--listen 192.0.2.10 --relay-ip 203.0.113.1 --slots 256 --relayed-ports 49152-49663 --deny 10.0.0.0/8"
Environment="FILES=--users /etc/relayd/users --secret /etc/relayd/secret --client /etc/relayd/%i.bpf"
IPAddressDeny=
"""
EXAMPLES = "/usr/share/doc/relayd/examples/relay"


def called(*words, **options):
    """Runs words, and returns what they print. A status that isn't 0 ends the script."""
    return subprocess.run(words, check=True, text=True, stdout=subprocess.PIPE, **options).stdout


def ip(*words):
    """Runs `ip`."""
    return called("ip", *map(str, words))


def at_public(name, address):
    """Gives a namespace its place at the public network."""
    ip("-n", "inet", "link", "add", f"p-{name}", "type", "veth", "peer", "name", "wan", "netns", name)
    ip("-n", "inet", "link", "set", f"p-{name}", "master", "bridge", "up")
    ip("-n", name, "addr", "add", f"{address}/24", "dev", "wan")
    ip("-n", name, "link", "set", "wan", "up")


def behind(nat, host, network, rules):
    """Puts a namespace behind another one, at the addresses .1 and .10 of a network."""
    ip("-n", nat, "link", "add", "lan", "type", "veth", "peer", "name", "eth0", "netns", host)
    ip("-n", nat, "addr", "add", f"{network}.1/24", "dev", "lan")
    ip("-n", nat, "link", "set", "lan", "up")
    ip("-n", host, "addr", "add", f"{network}.10/24", "dev", "eth0")
    ip("-n", host, "link", "set", "eth0", "up")
    ip("-n", host, "route", "add", "default", "via", f"{network}.1")
    called("ip", "netns", "exec", nat, "sysctl", "-qw", "net.ipv4.ip_forward=1")
    called("ip", "netns", "exec", nat, "nft", "-f", "-", input=rules)


@contextlib.contextmanager
def networks():
    """A public network, the server behind its NAT, two hosts behind theirs, and one that is behind none."""
    names = ("inet", "nat", "server", "nat0", "host0", "nat1", "host1", "outside")
    for name in names:
        ip("netns", "add", name)
        ip("-n", name, "link", "set", "lo", "up")
    try:
        ip("-n", "inet", "link", "add", "bridge", "type", "bridge")
        ip("-n", "inet", "link", "set", "bridge", "up")
        for name, address in zip(("nat", "nat0", "nat1", "outside"), (SERVER, *BROWSERS, OUTSIDE)):
            at_public(name, address)
        behind("nat", "server", "192.0.2", NAT.format(before=TO_SERVER, after=f"snat to {SERVER}"))
        for number in (0, 1):
            behind(f"nat{number}", f"host{number}", f"10.{number}.0", NAT.format(before="", after="masquerade random,fully-random"))
        yield
    finally:
        for name in names:
            ip("netns", "del", name)


class Machine:
    """A machine with systemd, in a folder and the namespace of the server."""

    def __init__(self, folder):
        self.root = folder / "root"
        if not self.root.exists():
            called("debootstrap", "--variant=minbase", f"--include={WANTED}", SUITE, self.root, ARCHIVE)
        words = ["systemd-nspawn", "--network-namespace-path=/run/netns/server", "--register=no", "--keep-unit", "--boot",
                 "--console=pipe", "--link-journal=no", "--machine=relay", f"--directory={self.root}"]
        self.process = subprocess.Popen(words, stdin=subprocess.DEVNULL, stdout=subprocess.DEVNULL, stderr=subprocess.DEVNULL)

    def __enter__(self):
        while "running" not in self.run("systemctl is-system-running --wait"):
            time.sleep(0.5)
        return self

    def __exit__(self, *_):
        self.run("systemctl poweroff")
        self.process.wait(60)

    def run(self, command):
        """Runs a command of the machine's shell, and returns what it prints."""
        first = subprocess.run(["pgrep", "-P", str(self.process.pid)], text=True, capture_output=True, check=False).stdout.split()
        if not first:
            return ""
        words = ["nsenter", "-a", "-t", first[0], "env", "-i", "PATH=/usr/sbin:/usr/bin", "HOME=/root", "sh", "-c", f"cd /root; {command}"]
        ran = subprocess.run(words, text=True, capture_output=True, check=False)
        return (ran.stdout + ran.stderr).strip()

    def put(self, name, text):
        """Writes a file of the relay as the manual says: beside the old one, with the group's right, and named in one step."""
        (self.root / "root" / "new").write_text(text, encoding="utf-8")
        return self.run(f"install -m 640 -g relayd new /etc/relayd/{name}.new && mv /etc/relayd/{name}.new /etc/relayd/{name}")

    def load(self, program, first):
        """Gives a process a client's program, and waits until it has it."""
        self.run(f"install -m 640 -g relayd {program} /etc/relayd/{first}.new && mv /etc/relayd/{first}.new /etc/relayd/{first}.bpf")
        time.sleep(3)

    def install(self, package):
        """Installs a package, which is copied to the machine."""
        shutil.copy(package, self.root / "root")
        return self.run(f"apt-get install -y --reinstall ./{package.name}")

    def is_upgraded(self, first):
        """Returns whether a process runs the program that is installed."""
        return self.run(f"readlink /proc/$(systemctl show -p MainPID --value relayd@{first})/exe") == "/usr/bin/relayd"

    def drain(self, first, seconds=90):
        """Waits until a process has no allocation, and returns whether it has none."""
        for _ in range(seconds):
            if self.run(f"grep -cx 'relayd_slots_in_use.* 0' /run/relayd/{first}.prom") == "1":
                return True
            time.sleep(1)
        return False


class Call:
    """A call of two browsers, each with credentials, through one process."""

    def __init__(self, title, browsers, first, users, policy="relay"):
        self.title, self.sides = title, [Page(browser, CALL) for browser in browsers]
        for side, (name, password) in zip(self.sides, users):
            servers = [{"urls": f"turn:{SERVER}:{PROCESSES[first]}", "username": name, "credential": password}]
            side.evaluate("Side", f"globalThis.side = new Side({json.dumps(servers)}, {json.dumps(policy)}), 0")
        offer = self.sides[0].evaluate("side", "await side.offer()")
        answer = self.sides[1].evaluate("side", f"await side.answer({json.dumps(offer)})")
        self.sides[0].evaluate("side", f"await side.accept({json.dumps(answer)})")
        self.talks = [side.evaluate("side", "await side.talk()") for side in self.sides]

    def failures(self, when):
        """Prints what each side has seen since the last time, and yields what is wrong."""
        for number, side in enumerate(self.sides):
            found = side.evaluate("side", "await side.figures()")
            print(f"{self.title}, side {number}, {when}: {json.dumps(found)}", flush=True)
            yield from wanted(f"{self.title}, side {number}, {when}: lost", found["lost"], 0)
            yield from wanted(f"{self.title}, side {number}, {when}: states", found["states"], "checking connected")

    def hang_up(self):
        """Ends the call: both sides release their allocations."""
        for side in self.sides:
            side.evaluate("side", "side.hangUp()")


def expiring(secret, *name):
    """A name with time-limited credentials, and its password."""
    user = ":".join([str(int(time.time()) + 3_600), *name])
    return user, base64.b64encode(hmac.new(secret.encode(), user.encode(), hashlib.sha1).digest()).decode()


def checked(place, first, user):
    """What `relayd check` says of a process from a namespace: nothing where all works."""
    words = ["ip", "netns", "exec", place, PROGRAM, "check", f"{SERVER}:{PROCESSES[first]}", "--user", ":".join(user)]
    return subprocess.run(words, text=True, capture_output=True, check=False).stderr.strip()


def set_up(machine, package, secret):
    """Sets the relay up as the manual says."""
    machine.install(package)
    machine.run("mkdir -p /etc/systemd/system/relayd@.service.d")
    (machine.root / "etc/systemd/system/relayd@.service.d/override.conf").write_text(DROP_IN, encoding="ascii")
    machine.put("users", "ann:first-password\n")
    machine.put("secret", f"{secret}\n")
    machine.run(f"relayd assemble {EXAMPLES}/client.s client.bpf")
    machine.run(f"cat {EXAMPLES}/drain.s {EXAMPLES}/client.s >drain.s && relayd assemble drain.s drain.bpf && relayd verify drain.bpf")
    for first, port in PROCESSES.items():
        machine.put(f"{first}.env", f'PORT="--port {port}"\n')
        machine.run(f"install -m 640 -g relayd client.bpf /etc/relayd/{first}.bpf")
    machine.run("systemctl daemon-reload; systemctl enable relayd.target; systemctl restart relayd.target")
    time.sleep(2)


def upgraded(folder, package):
    """A package of the same files with the next version."""
    (folder / "root.deb").mkdir()
    called("dpkg-deb", "-R", package, folder / "root.deb")
    control = folder / "root.deb" / "DEBIAN" / "control"
    control.write_text(control.read_text(encoding="utf-8").replace("\nVersion: ", "\nVersion: 1:"), encoding="utf-8")
    called("dpkg-deb", "--root-owner-group", "-b", folder / "root.deb", folder / "relayd_next.deb")
    return folder / "relayd_next.deb"


def replacing(machine, calls, old, new):
    """Replaces the users and the secret during calls, and yields what is wrong."""
    carol = "carol", "second-password"
    machine.put("users", "ann:first-password\ncarol\n")
    machine.put("secret", f"{new}\n{old}\n")
    time.sleep(3)
    yield from wanted("a user of a list with a fault", checked("outside", 49152, carol), "Allocate: error 401")
    machine.put("users", "ann:first-password\ncarol:second-password\n")
    time.sleep(3)
    for first in PROCESSES:
        yield from wanted(f"a new user at {first}", checked("outside", first, carol), "")
        yield from wanted(f"a name of the new secret at {first}", checked("host0", first, expiring(new)), "")
        yield from wanted(f"a name of the old secret at {first}", checked("host1", first, expiring(old)), "")
    for call in calls:
        yield from call.failures("after users and the secret were replaced")


def upgrading(machine, first, ending, others):
    """Drains a process, ends its calls and restarts it, while others go on; yields what is wrong."""
    ann = "ann", "first-password"
    machine.load("drain.bpf", first)
    yield from wanted(f"who comes to {first} meanwhile", checked("outside", first, ann), "no answer to Allocate without credentials")
    for call in [*ending, *others]:
        yield from call.failures(f"while {first} is drained")
    for call in ending:
        call.hang_up()
    yield from wanted(f"{first} has no allocation", machine.drain(first), True)
    yield from wanted(f"{first} has the old program", machine.is_upgraded(first), False)
    machine.load("client.bpf", first)
    machine.run(f"systemctl restart relayd@{first}")
    time.sleep(2)
    yield from wanted(f"{first} has the new program", machine.is_upgraded(first), True)
    yield from wanted(f"who comes to {first} afterwards", checked("host0", first, ann), "")


def purging(machine):
    """Yields what is left of the package where it is purged; what the operator made stays."""
    machine.run("apt-get purge -y relayd")
    enabled = "/etc/systemd/system/multi-user.target.wants/relayd.target"
    gone = f"/usr/bin/relayd /etc/relayd/users /usr/lib/systemd/system/relayd@.service {enabled}"
    yield from wanted("what is left of a purged package", machine.run(f"ls {gone} 2>/dev/null; pgrep relayd"), "")
    yield from wanted("the operator's secret", machine.run("ls /etc/relayd/secret"), "/etc/relayd/secret")


def run_through(machine, browsers, folder):
    """Yields what is wrong from the first installation to the end."""
    ann = "ann", "first-password"
    old, new = (base64.b64encode(bytes([number]) * 24).decode() for number in (1, 2))
    package = pathlib.Path(called(TOP / "package", folder, "--program", PROGRAM).strip())
    set_up(machine, package, old)
    for place in ("outside", "host0", "host1"):
        for first in PROCESSES:
            yield from wanted(f"{first} from {place}", checked(place, first, ann), "")
    long = Call("the long call", browsers, 49152, [ann, expiring(old, "bob")])
    short = Call("the short call", browsers, 49408, [expiring(old, "dora"), expiring(old, "emil")])
    yield from wanted("both calls are open", long.talks + short.talks, [True] * 4)
    yield from replacing(machine, [long, short], old, new)
    print(machine.install(upgraded(folder, package)).splitlines()[-1])
    yield from upgrading(machine, 49408, [short], [long])
    next_call = Call("the next call", browsers, 49408, [ann, expiring(new, "hal")])
    yield from upgrading(machine, 49152, [long], [next_call])
    machine.put("secret", f"{new}\n")
    time.sleep(3)
    yield from wanted("a name of a secret that is gone", checked("outside", 49152, expiring(old)), "Allocate: error 401")
    last = Call("the last call", browsers, 49152, [ann, ann], "all")
    time.sleep(5)
    for call in (next_call, last):
        yield from call.failures("at the end")
        call.hang_up()
    print(machine.run("journalctl --no-pager -o cat -t relayd | grep -v allocation"))
    yield from purging(machine)


def main():
    """Runs it, and returns the exit status."""
    build()
    folder = pathlib.Path(sys.argv[1]).resolve()
    words = [("ip", "netns", "exec", f"host{number}", "chromium") for number in (0, 1)]
    with tempfile.TemporaryDirectory() as name, networks(), Machine(folder) as machine:
        with started(*words[0]) as first, started(*words[1]) as second:
            failures = list(run_through(machine, (first, second), pathlib.Path(name)))
    return finish(failures, f"operating: {len(failures)} failures")


if __name__ == "__main__":
    sys.exit(main())
