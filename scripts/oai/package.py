"""Makes the Debian package and tries it in a fresh root that boots. What is expected is written from packaging/debian/oaihost.README.Debian, and from
what the task of a service is."""

import os
import pathlib
import re
import shutil
import subprocess
import tempfile
import time

from oai.programs import TOP, needs, oaihost, oaihostd
from oai.trials import Trial

UNIT = "oaihostd.service"

# One of several servers, the folder of its configuration, and its port.
SERVER, SERVER_FOLDER, SERVER_PORT = "oaihostd@letters.service", "/etc/oaihost/letters", 8481

ITEM = '{"deposit":"oai:a:1","sets":[],"records":{"oai_dc":[["title","On Sets"]]}}'
EXAMPLE = "/usr/share/doc/oaihost/examples/archive.example"

# For how many seconds is waited for a boot, a start and an end.
PATIENCE = 300


class Machine:
    """A root that systemd-nspawn boots, without a network beside its own."""

    def __init__(self, folder):
        self.folder = pathlib.Path(folder)
        self.process = None
        self.leader = None

    def boot(self):
        """Starts it, and waits until its units have been started."""
        self.process = subprocess.Popen(
            ["systemd-nspawn", "-q", "-b", "-D", self.folder, "-M", self.folder.name, "--register=no", "--keep-unit", "--private-network", "--console=pipe"],
            stdin=subprocess.DEVNULL, stdout=subprocess.DEVNULL, stderr=subprocess.DEVNULL)
        children = pathlib.Path(f"/proc/{self.process.pid}/task/{self.process.pid}/children")
        self.leader = wait(lambda: next(iter(children.read_text().split()), None))
        wait(lambda: self.run("systemctl is-system-running").stdout.strip() in ("running", "degraded"))

    def run(self, command):
        """Runs a command of the shell in it."""
        return subprocess.run(["nsenter", "-t", self.leader, "-a", "sh", "-c", command], capture_output=True, text=True)

    def said(self, command):
        """What a command wrote, which has to end well."""
        done = self.run(command)
        if done.returncode != 0:
            raise RuntimeError(f"{command}: {done.returncode}: {done.stdout}{done.stderr}")
        return done.stdout.strip()

    def apt(self, command, name):
        """Has apt-get do that; it waits where the timers of a fresh root have it at work."""
        self.said(f"apt-get -o DPkg::Lock::Timeout={PATIENCE} {command} -y {name}")

    def ask(self, path, body=None, port=8480, fields=()):
        """What the server in it answers, by a client beside it in its network."""
        data = [] if body is None else ["--data-binary", body]
        data += [it for field in fields for it in ("-H", field)]
        command = ["nsenter", "-t", self.leader, "-n", "curl", "-sS", "--retry", "20", "--retry-connrefused", "--retry-delay", "1", *data]
        return subprocess.run([*command, f"http://127.0.0.1:{port}{path}"], capture_output=True, text=True).stdout.strip()

    def stop(self, command="systemctl poweroff"):
        """Ends it, as its own command does."""
        self.run(command)
        self.process.wait(PATIENCE)

    def close(self):
        """Ends it at once, where it still runs."""
        if self.process and self.process.poll() is None:
            self.process.terminate()
            try:
                self.process.wait(PATIENCE)
            except subprocess.TimeoutExpired:
                self.process.kill()


def wait(found):
    """Waits until what is looked for is there."""
    end = time.monotonic() + PATIENCE
    while time.monotonic() < end:
        it = found()
        if it:
            return it
        time.sleep(0.2)
    raise RuntimeError("it takes too long")


def build(folder, version):
    """The path of a package of this version."""
    made = subprocess.run([TOP / "packaging/build.sh", folder], env=os.environ | {"VERSION": version, "OAIHOST": oaihost(), "OAIHOSTD": oaihostd()}, capture_output=True, text=True)
    if made.returncode != 0:
        raise RuntimeError(made.stderr)
    return pathlib.Path(made.stdout.strip())


def look_at(trial, package):
    """The package itself: no error of lintian, the programs byte for byte, and what they need."""
    found = subprocess.run(["lintian", "--allow-root", package], capture_output=True, text=True).stdout.splitlines()
    print("\n".join(found), flush=True)
    trial.check("errors of lintian", [it for it in found if it.startswith("E:")], [])
    with tempfile.TemporaryDirectory() as opened:
        subprocess.run(["dpkg-deb", "-x", package, opened], check=True)
        for program, place in [(oaihost(), "usr/bin/oaihost"), (oaihostd(), "usr/sbin/oaihostd")]:
            trial.check(f"the program {place}", (pathlib.Path(opened) / place).read_bytes() == pathlib.Path(program).read_bytes(), True)
        linked = subprocess.run(["ldd", f"{opened}/usr/sbin/oaihostd"], capture_output=True, text=True).stdout
    print(linked.rstrip(), flush=True)
    depends = subprocess.run(["dpkg-deb", "-f", package, "Depends"], capture_output=True, text=True).stdout.strip()
    print(f"Depends: {depends}", flush=True)
    trial.check("it depends on the C library", bool(re.search(r"\blibc6 \(>= ", depends)), True)


def install(trial, machine, package):
    """It is installed: started at each boot, and not now, since there is no configuration; and the unit is sound."""
    machine.apt("install", f"/srv/{package.name}")
    trial.check("started at boots", machine.said(f"systemctl is-enabled {UNIT}"), "enabled")
    trial.check("not started yet", machine.run(f"systemctl is-active {UNIT}").stdout.strip(), "inactive")
    trial.check("no archive yet", machine.run("ls /var/lib/oaihostd").returncode, 2)
    trial.check("the unit is sound", machine.run(f"systemd-analyze verify --man=no {UNIT} 2>&1").stdout, "")
    exposure = machine.said(f"systemd-analyze security --no-pager {UNIT} | tail -n 1")
    print(exposure, flush=True)
    trial.check("the unit is shut off", float(re.search(r": (\d+\.\d+) ", exposure)[1]) < 1.5, True)
    trial.check("a manual", machine.said("ls /usr/share/man/man1/oaihost.1.gz /usr/share/man/man8/oaihostd.8.gz | wc -l"), "2")


def begin(trial, machine):
    """An archive is begun as README.Debian says; comes back with what was answered to a deposit."""
    machine.said(f"sed '/^ *#/d' {EXAMPLE} >/etc/oaihost/archive.json")
    trial.check("the example", machine.said("oaihost check /etc/oaihost/archive.json"), "ok 1")
    machine.said(f"systemctl start {UNIT}")
    answer = machine.ask("/deposit/a", ITEM)
    if not re.fullmatch(r"ok \d{4}-\d\d-\d\dT\d\d:\d\d:\d\dZ", answer):
        raise RuntimeError(f"a deposit: {answer}: {machine.run(f'journalctl --no-pager -u {UNIT} -n 20').stdout}")
    return answer.split()[1]


def has_item(trial, machine, when, stamp, name="a", port=8480):
    """The item is there, with its datestamp."""
    answer = machine.ask(f"/oai/{name}?verb=GetRecord&identifier=oai:a:1&metadataPrefix=oai_dc", port=port)
    found = re.search("<header>.*</header>", answer)
    trial.check(f"the item {when}", found and found[0], f"<header><identifier>oai:a:1</identifier><datestamp>{stamp}</datestamp></header>")


def property_of(machine, name, unit=UNIT):
    return machine.said(f"systemctl show --value -p {name} {unit}")


def look_at_service(trial, machine):
    """As whom it runs, what it may do, and what it made."""
    pid = property_of(machine, "MainPID")
    trial.check("as whom it runs", machine.said(f"stat -c %U:%G /proc/{pid}"), "oaihost:oaihost")
    trial.check("how many files it may open", machine.said(f"sed -n 's/^Max open files *//p' /proc/{pid}/limits").split()[:2], ["4096", "4096"])
    trial.check("its rights", machine.said(f"sed -n 's/^CapBnd:\\s*//p' /proc/{pid}/status"), "0" * 16)
    trial.check("its folder", machine.said("stat -c '%U:%G %a' /var/lib/oaihostd"), "oaihost:oaihost 750")
    trial.check("its journal", machine.said("stat -c '%U:%G %a' /var/lib/oaihostd/journal"), "oaihost:oaihost 640")
    for place, wanted in [("/etc/oaihost/none", 1), ("/usr/none", 1), ("/var/none", 1), ("/var/lib/oaihostd/none", 0)]:
        done = machine.run(f"nsenter -t {pid} -m sh -c 'touch {place} && rm {place}'")
        trial.check(f"whether {place} can be written there", done.returncode, wanted)
    trial.check("where it listens", [it.split()[3] for it in machine_sockets(machine)], ["127.0.0.1:8480"])
    for name, wanted in [("Type", "exec"), ("Restart", "on-failure"), ("RestartUSec", "5s"), ("TimeoutStartUSec", "infinity"), ("ProtectSystem", "strict")]:
        trial.check(name, property_of(machine, name), wanted)
    trial.check("behind the clock", "time-sync.target" in property_of(machine, "After").split(), True)


def machine_sockets(machine):
    """The sockets that listen in its network."""
    return subprocess.run(["nsenter", "-t", machine.leader, "-n", "ss", "-Htln"], capture_output=True, text=True).stdout.splitlines()


def begin_server(trial, machine):
    """A second server is begun as README.Debian says, with keys; comes back with what was answered to a deposit, or None."""
    machine.said(f"mkdir {SERVER_FOLDER}; sed 's/\"a\"/\"letters\"/' /etc/oaihost/archive.json >{SERVER_FOLDER}/archive.json")
    machine.said(f"systemctl enable --now {SERVER}")
    trial.check("a server without a port", property_of(machine, "ActiveState", SERVER), "inactive")
    digest = machine.said("printf key | sha256sum").split()[0]
    machine.said(f"""echo '{{"keys":[{{"name":"letters","digests":["{digest}"]}}]}}' >{SERVER_FOLDER}/keys.json""")
    machine.said(f"printf 'PORT={SERVER_PORT}\\nKEYS={SERVER_FOLDER}/keys.json\\n' >{SERVER_FOLDER}/server.env")
    machine.said(f"systemctl start {SERVER}")
    trial.check("a deposit without its key", machine.ask("/deposit/letters", ITEM, SERVER_PORT), "")
    found = re.fullmatch(r"ok (\S+)", machine.ask("/deposit/letters", ITEM, SERVER_PORT, ["Authorization: Bearer key"]))
    trial.check("a deposit with its key", bool(found), True)
    trial.check("the ports", sorted(it.split()[3] for it in machine_sockets(machine)), ["127.0.0.1:8480", f"127.0.0.1:{SERVER_PORT}"])
    trial.check("its folder", machine.said("stat -c '%U:%G %a' /var/lib/oaihostd@letters"), "oaihost:oaihost 750")
    trial.check("whether it can write into another's", machine.run(f"nsenter -t {property_of(machine, 'MainPID', SERVER)} -m touch /var/lib/oaihostd/none").returncode, 1)
    texts = [machine.said(f"systemctl cat {unit} | tail -n +2").splitlines() for unit in (UNIT, SERVER)]
    other = sorted({it.partition("=")[0] for it in set(texts[0]) ^ set(texts[1]) if not it.startswith("#")})
    trial.check("where the units differ", other, ["ConditionPathExists", "Description", "EnvironmentFile", "ExecStart", "StateDirectory"])
    return found and found[1]


def has_both(trial, machine, when, stamps):
    """Each server has its item."""
    has_item(trial, machine, when, stamps[0])
    has_item(trial, machine, f"of the second server {when}", stamps[1], "letters", SERVER_PORT)


def kill(trial, machine, stamp):
    """Killed, it is started again by itself; ended by a stop, it is not."""
    before = property_of(machine, "MainPID")
    machine.said(f"kill -9 {before}")
    wait(lambda: property_of(machine, "MainPID") not in (before, "0"))
    has_item(trial, machine, "behind kill -9", stamp)
    machine.said(f"systemctl stop {UNIT}")
    trial.check("how a stop ends", property_of(machine, "Result"), "success")
    machine.said(f"systemctl start {UNIT}")
    has_item(trial, machine, "behind a stop and a start", stamp)


def change_configuration(trial, machine, stamp):
    """With another deletedRecord it ends with the status 2, and is not started again and again; with the configuration of before it goes on."""
    machine.said("sed -i.before '0,/persistent/s//transient/' /etc/oaihost/archive.json")
    machine.said(f"systemctl restart {UNIT}")
    wait(lambda: property_of(machine, "ActiveState") == "failed")
    time.sleep(7)
    trial.check("another configuration", [property_of(machine, it) for it in ("ActiveState", "ExecMainStatus", "NRestarts")], ["failed", "2", "0"])
    trial.check("what it said", "config: differs from the journal" in machine.said(f"journalctl --no-pager -u {UNIT} -n 20"), True)
    machine.said("mv /etc/oaihost/archive.json.before /etc/oaihost/archive.json")
    machine.said(f"systemctl start {UNIT}")
    has_item(trial, machine, "behind another configuration", stamp)


def upgrade(trial, machine, package, stamps):
    """A later package is installed over the running archive, which goes on with it."""
    before = [property_of(machine, "MainPID", it) for it in (UNIT, SERVER)]
    machine.apt("install", f"/srv/{package.name}")
    trial.check("the later package", machine.said("dpkg-query -W -f '${Version}' oaihost"), package.name.split("_")[1])
    for unit in (UNIT, SERVER):
        trial.check(f"{unit} was started anew", property_of(machine, "MainPID", unit) not in (*before, "0"), True)
    has_both(trial, machine, "behind an upgrade", stamps)


def remove(trial, machine, package, stamps):
    """Removed, it leaves the archive, with which it goes on once it is installed again; purged, it leaves nothing."""
    machine.apt("remove", "oaihost")
    trial.check("removed", machine.run(f"ls /usr/sbin/oaihostd /usr/bin/oaihost /usr/share/oaihost /lib/systemd/system/oaihostd* 2>/dev/null").stdout, "")
    trial.check("it listens no more", machine_sockets(machine), [])
    stays = "etc/oaihost/archive.json etc/oaihost/letters/archive.json var/lib/oaihostd/journal var/lib/oaihostd@letters/journal"
    trial.check("what stays", machine.said("cd / && ls etc/oaihost/archive.json etc/oaihost/*/archive.json var/lib/oaihostd*/journal").split(), stays.split())
    machine.apt("install", f"/srv/{package.name}")
    has_both(trial, machine, "once it is installed again", stamps)


def files(machine):
    """All files of the root but those that each boot and each installation of a package makes."""
    found = machine.said("find / -xdev -path /srv -prune -o -path /var/log -prune -o -path /var/cache -prune -o -path /var/lib/apt -prune"
                         " -o -path /var/lib/dpkg -prune -o -path /root -prune -o -path /var/lib/systemd -prune -o -path /var/tmp -prune -o -print")
    return set(found.splitlines())


def purge(trial, machine, before):
    machine.apt("purge", "oaihost")
    trial.check("what a purge leaves", sorted(files(machine) - before), [])
    trial.check("what a purge takes of others", sorted(before - files(machine)), [])


def try_all(trial, folder):
    folder = pathlib.Path(folder)
    first, second = (build(folder, f"0.{number}") for number in (1, 2))
    trial.check("two builds are the same", build(folder / "again", "0.1").read_bytes() == first.read_bytes(), True)
    look_at(trial, first)
    root = folder / "oaihost-trial"
    if "ROOT" in os.environ:
        subprocess.run(["cp", "-a", os.environ["ROOT"], root], check=True)
    else:
        subprocess.run(["debootstrap", "--variant=minbase", "--include=systemd-sysv,dbus", "bookworm", root], check=True, stdout=subprocess.DEVNULL)
    for package in (first, second):
        shutil.copy(package, root / "srv")
    machine = Machine(root)
    try:
        machine.boot()
        before = files(machine)
        install(trial, machine, first)
        stamp = begin(trial, machine)
        has_item(trial, machine, "at first", stamp)
        look_at_service(trial, machine)
        kill(trial, machine, stamp)
        change_configuration(trial, machine, stamp)
        stamps = stamp, begin_server(trial, machine)
        upgrade(trial, machine, second, stamps)
        machine.stop()
        machine.boot()
        for unit in (UNIT, SERVER):
            trial.check(f"{unit} started by the boot", machine.said(f"systemctl is-active {unit}"), "active")
        has_both(trial, machine, "behind a boot", stamps)
        remove(trial, machine, second, stamps)
        purge(trial, machine, before)
        machine.stop()
    finally:
        machine.close()


def package():
    """Makes the Debian package, and tries it in a fresh root that systemd-nspawn boots.

    packaging/build.sh makes it, and lintian looks at it. It is installed, its unit is looked at with systemd-analyze,
    an archive is begun as README.Debian says, items are deposited, the server is killed, a second server is begun, a
    later package is installed over the running archive, the machine is started again, the package is removed (the
    archive stays), installed again, and purged. Each time the item of each server is asked for, which has to be there
    with its datestamp. It names what differs; the last line is `N checked, M differ`, and the status is 0 where M is 0.
    ROOT is a folder in which debootstrap made a fresh root, of which a copy is used; where it is not set one is made,
    which asks a mirror of Debian. It needs root, and packages of Debian: apt-get install curl debhelper debootstrap
    lintian systemd-container
    """
    needs("curl", "dh", "lintian", "debootstrap", "systemd-nspawn", "nsenter", root=True)
    trial = Trial()
    with tempfile.TemporaryDirectory() as folder:
        try:
            try_all(trial, folder)
        except RuntimeError as fault:
            trial.check("the trial goes on", str(fault), None)
    return trial.ended()
