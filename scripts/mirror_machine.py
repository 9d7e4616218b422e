"""Two machines of QEMU's that mirror a disk by DRBD, for failover_trial.py. Their wire and their disks are served from here. They
are set up by the commands of docs/STANDBY.md, and run the files of scripts/standby/. `systemctl` and `runuser` are stand-ins."""
import argparse
import collections
import contextlib
import pathlib
import random
import re
import select
import shlex
import socket
import threading
import time
from collections.abc import Callable, Iterable

from check_docs import commands_after
from map import TOP
from power_machine import APPENDED, DISK, WHOLE, Machine, pack, path_of
from trial import Wrong, free_port

PAGE, PEER = (TOP / "docs" / "STANDBY.md").read_text(), {"alpha": "beta", "beta": "alpha"}
# The ports of a machine: its console, a shell, what its service prints, and its fence.
CONSOLE, SHELL, SERVICE, FENCE = range(4)
FENCED = "fence asked"
PACKAGES = {"qemu-system-x86": "qemu-system-x86_64", "busybox-static": "busybox", "e2fsprogs": "e2fsck", "drbd-utils": "drbdadm"}
PROGRAMS = "drbdadm", "drbdsetup", "drbdmeta", "e2fsck", "mkfs.ext4", "install", "iconv"
OF_DRBD = "/lib/drbd/drbdadm-84", "/lib/drbd/drbdsetup-84"
MODULES, MEGABYTES, DISK_SECONDS, PATIENCE_SECONDS = ("virtio_net", "drbd", "ext4"), 12, 0.001, 180
# A machine passes connections to its port 7071 on to the server. A port of ours leads there. Its kernel hands the name and the
# number to the script.
WORDS = f"""-netdev dgram,id=n,local.type=unix,local.path={{folder}}/{{name}},remote.type=unix,remote.path={{folder}}/wire
    -device virtio-net-pci,netdev=n,romfile=,mac=52:54:00:00:00:0{{number}}
    -netdev user,id=u,restrict=on,hostfwd=tcp:127.0.0.1:{{port}}-10.0.2.15:7071 -device virtio-net-pci,netdev=u,romfile=
    -append '{APPENDED} cryptomgr.notests audit=0 name={{name}} number={{number}}'"""
SCRIPT = r"""
export PATH=/sbin:/usr/sbin:/bin:/usr/local/bin; hostname $name
ifconfig eth0 10.0.0.$number netmask 255.255.255.0 up
ifconfig eth1 10.0.2.15 netmask 255.255.255.0 up
mkdir -p /run /tmp /var/lock /var/run/drbd /var/lib/drbd /var/lib/world /etc/worldd /etc/drbd.d
ln -s /proc/mounts /etc/mtab; echo world:x:99: >/etc/group
printf 'root:x:0:0::/:/bin/sh\nworld:x:99:99::/:/bin/sh\n' >/etc/passwd
cat >/etc/drbd.conf <<END
global { usage-count no; }
common { net { ping-int 3; ping-timeout 10; timeout 25; connect-int 3; }
         disk { resync-rate 100M; c-plan-ahead 0; al-extents 67; } }
include "drbd.d/*.res";
END
cat >/etc/worldd/switch-off <<'END'
#!/bin/sh
exec 3<>$(echo /dev/vport*p3); echo "$1" >&3; read -r status <&3; exit $status
END
cat >/bin/systemctl <<'END'
#!/bin/sh
case $1 in
start)
    grep -q ' /var/lib/world ' /proc/mounts || exit 1
    worldd inspect --dir /var/lib/world --words
    worldd serve --dir /var/lib/world $(cat /run/flags) --port 7070 --clients 1000 </dev/null >/run/service 2>&1 & ;;
stop) kill $(pidof worldd); while pidof worldd >/dev/null; do sleep 0.1; done ;;
esac
END
printf '#!/bin/sh\nshift 3\nexec "$@"\n' >/bin/runuser
chmod 755 /etc/worldd/switch-off /bin/systemctl /bin/runuser
while ! ls /dev/vport*p3 >/dev/null 2>&1; do sleep 0.05; done
mkfifo /run/service; cat <>/run/service >$(echo /dev/vport*p2) &
nc -ll -p 7071 -e nc 127.0.0.1 7070 2>/dev/null &
exec setsid sh <>$(echo /dev/vport*p1) >&0 2>&1
"""
# All commands of the set-up are run, except for `apt-get install`.
INSTALL = ["cd /", *commands_after("On both machines, as root", PAGE)[1:]]
CREATE, UP = commands_after("**On both machines**, create", PAGE)
(PROMOTE,) = commands_after("On the other one, as root", PAGE)
STEP_DOWN, _ = commands_after("On the machine that serves, and then", PAGE)
# Where the names, the addresses and the disk are written, and how the state of DRBD is printed.
RESOURCE, STATE = "/etc/drbd.d/world.res", "sleep 0.2; grep ' 0: cs:' /proc/drbd || :"

Edits = dict[str, str]


class Pair:
    """Both machines and the wire, which takes some time and may be cut. The resource gets edits."""

    def __init__(self, given: argparse.Namespace, folder: pathlib.Path, edits: Edits) -> None:
        self.given, self.folder, edits = given, folder, {"/dev/VG/world": "/dev/vda", **edits}
        self.edits = [f"grep '{old}' {RESOURCE} && sed -i 's|{old}|{new}|' {RESOURCE}" for old, new in edits.items()]
        self.images = {name: bytearray(MEGABYTES << 20) for name in PEER}
        self.ports = {name: str(free_port()) for name in PEER}
        self.machines: dict[str, Machine] = {}
        self.is_dead = {name: threading.Event() for name in PEER}
        # What each machine printed on each port, and its packets on the wire with the times when they arrive.
        self.lines: dict[tuple[str, int], list[str]] = collections.defaultdict(list)
        self.packets: dict[str, collections.deque[tuple[float, bytes]]] = {name: collections.deque() for name in PEER}
        self.wire = socket.socket(socket.AF_UNIX, socket.SOCK_DGRAM | socket.SOCK_NONBLOCK)
        self.wire.bind(f"{folder}/wire")
        self.delay, self.is_cut, self.has_fence = (0.0, 0.0), False, True
        self.tally: collections.Counter[str] = collections.Counter()
        files = {f"sbin/{name}": path_of(name) for name in PROGRAMS} | {path.lstrip("/"): path for path in OF_DRBD}
        ours = [TOP / "install.sh", *(TOP / "scripts" / "standby").iterdir()]
        files |= {"usr/local/bin/worldd": given.worldd} | {str(path.relative_to(TOP)): str(path) for path in ours}
        pack(folder, given.kernel, MODULES, files, SCRIPT)

    def boot(self, names: Iterable[str], *commands: str) -> None:
        """Starts these machines, and sets them up. Then each runs these commands."""
        for name in names:
            words = WORDS.format(folder=self.folder, name=name, number=1 + [*PEER].index(name), port=self.ports[name])
            self.machines[name] = Machine(self.folder, self.images[name], FENCE, shlex.split(words))
            self.is_dead[name] = threading.Event()
        for name in names:
            self.sh(name, *INSTALL, *self.edits, *commands)

    def fence(self, name: str) -> None:
        """Switches the other machine off for this one, and says so, if the fence works."""
        if self.has_fence and name in self.machines:
            if PEER[name] in self.machines:
                self.kill(PEER[name])
            self.machines[name].streams[FENCE].sendall(b"0\n")

    def kill(self, name: str, is_kept: bool = False, share: float | None = None) -> None:
        """Takes the power of a machine, with what it has on the wire. Of the writes that no flush covered its drive keeps a
        share, and perhaps all that have ended."""
        self.is_dead[name].set()
        machine = self.machines.pop(name)
        machine.close()
        machine.flush(sorted(machine.done & machine.writes.keys()) if is_kept else [])
        machine.cut(machine.image, WHOLE, random.random() if share is None else share)
        self.carry()
        self.packets[name].clear()

    def step(self) -> None:
        """Serves disks and wire for a moment, and takes the lines that come."""
        streams = [stream for machine in self.machines.values() for stream in machine.streams]
        due = [machine.due[0][0] for machine in self.machines.values() if machine.due]
        due += [packets[0][0] for packets in self.packets.values() if packets]
        select.select([*streams, self.wire], [], [], max(0.0, min([0.05, *(at - time.monotonic() for at in due)])))
        self.carry()
        events = [(name, *event) for name, machine in self.machines.items() for event in machine.events(DISK_SECONDS, 0)]
        for name, port, line in events:
            if port != DISK:
                self.lines[name, port].append(line)
            if port == FENCE:
                self.tally[FENCED] += 1
                self.fence(name)

    def carry(self) -> None:
        """Takes what is put on the wire, and delivers what has arrived, in order."""
        with contextlib.suppress(BlockingIOError):
            while True:
                packet, path = self.wire.recvfrom(1 << 16)
                at, name = time.monotonic() + random.uniform(*self.delay), pathlib.Path(path).name
                if name in self.machines:
                    self.packets[name].append((at, packet))
        for name, packets in self.packets.items():
            while packets and packets[0][0] <= time.monotonic():
                _, packet = packets.popleft()
                if PEER[name] in self.machines and not self.is_cut:
                    with contextlib.suppress(OSError):
                        self.wire.sendto(packet, f"{self.folder}/{PEER[name]}")

    def wait(self, seconds: float, done: Callable[[], object] = lambda: False) -> bool:
        """Serves for so long, or until that holds. Whether it holds."""
        end = time.monotonic() + seconds
        while not (holds := done()) and time.monotonic() < end:
            self.step()
        return bool(holds)

    def until(self, done: Callable[[], object], what: str) -> None:
        """Serves until this is so."""
        if not self.wait(PATIENCE_SECONDS, done):
            raise Wrong(f"{what}: {[self.state(name) for name in self.machines]}")

    def sh(self, name: str, *commands: str) -> list[str]:
        """Runs commands in a machine's shell, which have to end well. Gives the lines of the last one."""
        lines = self.lines[name, SHELL]
        for command in commands:
            lines.clear()
            self.machines[name].streams[SHELL].sendall(f"{command}\ns=$?; echo; echo @@$s\n".encode())
            if not self.wait(PATIENCE_SECONDS, lambda: lines and lines[-1].startswith("@@")) or lines[-1] != "@@0":
                raise Wrong(f"{name}: `{command}` fails or doesn't end: {lines}")
        return [line for line in lines[:-1] if line]

    def state(self, name: str) -> str:
        """The line of DRBD's resource."""
        return "".join(self.sh(name, STATE))

    def until_state(self, name: str, wanted: str) -> None:
        """Waits until this is found in that line."""
        self.until(lambda: re.search(wanted, self.state(name)), f"{name} isn't {wanted}")
