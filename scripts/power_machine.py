"""Machines of QEMU's, for power_trial.py, device_trial.py and mirror_machine.py. The disk of each is served from here by the
NBD protocol. It records what is asked of it, and may refuse it. Its power may be cut: another machine tells then what is left."""
import argparse
import collections
import contextlib
import functools
import heapq
import lzma
import os
import pathlib
import random
import re
import selectors
import shutil
import signal
import socket
import struct
import subprocess
import tempfile
import time
from collections.abc import Callable, Iterator, Sequence

import trial
from trial import PATIENCE_SECONDS, QUIET, Words, Wrong, library_of

# What has to be there: programs, by their packages.
PACKAGES = {"qemu-system-x86": "qemu-system-x86_64", "busybox-static": "busybox", "e2fsprogs": "mkfs.ext4"}
PACKAGES |= {"xfsprogs": "mkfs.xfs", "btrfs-progs": "mkfs.btrfs", "udftools": "mkfs.udf"}
MODULES = "virtio_pci", "virtio_blk", "virtio_console", "crc32c_generic", "crc32c_intel"
INIT = """#!/bin/busybox sh
/bin/busybox --install -s /bin; export PATH=/bin
mount -t proc proc /proc; mount -t sysfs sys /sys; mount -t devtmpfs dev /dev; ifconfig lo 127.0.0.1 up
for module in {modules}; do insmod /modules/$module 2>/dev/null || again="$again $module"; done
for module in $again; do insmod /modules/$module; done
"""
QEMU = """qemu-system-x86_64 -accel tcg,tb-size=128 -cpu Nehalem -m 384 -display none -nodefaults -no-reboot
    -kernel {packed}/kernel -initrd {packed}/files -blockdev driver=nbd,node-name=d,server.type=unix,server.path={room}/disk
    -serial chardev:c0 -device virtio-serial-pci -device virtio-blk-pci,drive=d,discard=off,write-zeroes=off"""
APPENDED = "console=ttyS0 quiet panic=-1 mitigations=off no_timer_check acpi=off ipv6.disable=1"
# A kernel that xz packed has these bytes in front of its packed part.
XZ = b"\xfd7zXZ\0"
# Of the NBD protocol: the greeting of a disk that can be flushed, and the kinds of requests.
GREETING, CAN_BE_FLUSHED, READ, WRITE = struct.Struct(">8sQQI124x"), 5, 0, 1
FAILED, SECTOR, FLUSH = 5, 512, 3
DISK = -1
# The disk of a file system, and how long the other machine is waited for.
MEGABYTES, LOOK_SECONDS, BLOCKS = {"ext4": 144, "xfs": 300, "btrfs": 128, "udf": 64}, 600, ("1024", "4096")
# What is left of the writes that no flush has covered: whole ones or sectors, each by such a chance or by any.
WHOLE = 1 << 30
WAYS: dict[str, tuple[bool, float | None]] = {"no write left": (False, 0), "all writes left": (False, 1)}
WAYS |= {"some writes left": (False, None), "some sectors left": (True, None), "most sectors left": (True, 0.95)}
MOUNTED = "mount -t {fs} -o {options} /dev/vda /mnt || {{ e2fsck -fy /dev/vda; mount -t {fs} -o {options} /dev/vda /mnt; }}"
READS = f"""while ! ls /dev/vport*; do sleep 0.1; done
exec <>$(ls /dev/vport*) >&0 2>&1
while read look; do
    {MOUNTED}
    worldd recover --refuse-losses --dir /mnt/w || {{{{ mkdir -p /mnt/w; worldd create --dir /mnt/w --cells {{cells}}; }}}}
    worldd inspect --dir /mnt/w --words; umount /mnt || rm -r /mnt/w; echo looked
done
"""


def kernels(root: pathlib.Path) -> list[pathlib.Path]:
    """The kernels that are installed or unpacked there, the newest one last."""
    return sorted(root.glob("boot/vmlinuz-*"), key=lambda path: [int(n) for n in re.findall(r"\d+", path.name)])


def path_of(program: str) -> str:
    """The path of a program that isn't lacking."""
    path = shutil.which(program)
    if path is None:
        raise Wrong(f"there is no {program}")
    return path


def lacking(root: pathlib.Path, packages: dict[str, str] = PACKAGES, module: str = "") -> list[str]:
    """The packages that aren't there, and the kernel if it or its module of this name isn't."""
    missing = [name for name, program in packages.items() if not shutil.which(program)]
    if not kernels(root) or (module and not modules(root, [module])):
        missing.append(f"kernel with {module}" if module else "kernel")
    return missing


@functools.cache
def unpacked(kernel: pathlib.Path) -> bytes:
    """The kernel without its packing, which starts in half the time, if xz packed it."""
    data = kernel.read_bytes()
    at = data.find(XZ)
    return lzma.LZMADecompressor().decompress(data[at:]) if at >= 0 else data


def modules(root: pathlib.Path, names: list[str]) -> list[pathlib.Path]:
    """The kernel's modules of these names, each after those that it needs."""
    release = kernels(root)[-1].name.removeprefix("vmlinuz-")
    files = {path.stem.replace("-", "_"): path for path in (root / "lib" / "modules" / release).rglob("*.ko")}
    for name in names:
        needs = re.search(rb"\0depends=([^\0]*)\0", files[name].read_bytes()) if name in files else None
        names += needs[1].decode().replace("-", "_").split(",") if needs else []
    return [files[name] for name in dict.fromkeys(reversed(names)) if name in files]


def pack(room: pathlib.Path, root: pathlib.Path, names: Sequence[str], programs: dict[str, str], script: str) -> None:
    """Packs the machine's kernel and its first file system: busybox and these programs with their C library, modules of the
    kernel, a script."""
    loaded = modules(root, [*names, *MODULES])
    programs = {"bin/busybox": path_of("busybox"), **programs}
    linked = re.findall(r"(/\S+) \(0x", subprocess.run(["ldd", *programs.values()], capture_output=True, text=True).stdout)
    paths = {path.lstrip("/"): path for path in linked} | programs | {f"modules/{path.name}": path for path in loaded}
    for folder in ("proc", "sys", "dev", "mnt", *(os.path.dirname(name) for name in paths)):
        (room / "first" / folder).mkdir(parents=True, exist_ok=True)
    for name, path in paths.items():
        shutil.copy(path, room / "first" / name)
    (room / "first" / "init").write_text(INIT.format(modules=" ".join(path.name for path in loaded)) + script)
    (room / "first" / "init").chmod(0o755)
    subprocess.run("find . | busybox cpio -o -H newc >../files", shell=True, cwd=room / "first", check=True, stderr=QUIET)
    (room / "kernel").write_bytes(unpacked(kernels(root)[-1]))


class Disk:
    """The bytes of a disk as they are read, and the durable ones. A flush makes writes durable. A request may be refused: it
    fails, and of a write such a share of its sectors is made."""

    def __init__(self, image: bytearray) -> None:
        self.image, self.durable = image, bytearray(image)
        self.refused: Callable[[int, bytes], float | None] = lambda kind, data: None
        self.writes: dict[int, tuple[int, bytes]] = {}
        self.done: set[int] = set()
        self.count = 0

    def is_refused(self, kind: int, at: int, data: bytes) -> bool:
        """Whether a request is refused. Its share is made then."""
        share = self.refused(kind, data)
        if share is None:
            return False
        for begin in range(0, len(data), SECTOR):
            if random.random() < share:
                self.done.add(self.write(at + begin, data[begin : begin + SECTOR]))
        return True

    def write(self, at: int, data: bytes) -> int:
        """Makes a write, and gives its number."""
        self.count += 1
        self.writes[self.count], self.image[at : at + len(data)] = (at, data), data
        return self.count

    def flush(self, numbers: list[int]) -> None:
        """Makes these writes durable."""
        for at, data in map(self.writes.pop, numbers):
            self.durable[at : at + len(data)] = data

    def cut(self, image: bytearray, size: int, share: float) -> None:
        """Makes the image one that a cut leaves now: of the writes that aren't durable a share, in pieces of this size."""
        image[:] = self.durable
        for at, data in self.writes.values():
            for begin in range(0, len(data), size):
                if random.random() < share:
                    end = min(begin + size, len(data))
                    image[at + begin : at + end] = data[begin:end]


class Machine(Disk):
    """A running machine with a disk. A write is read back at once, done after a while, later still if it has the slow bytes,
    and durable once a flush is done that began after that. A disk that lies keeps the last writes back at each flush."""

    def __init__(self, packed: pathlib.Path, image: bytearray, ports: int, more: Sequence[str] = ()) -> None:
        """Starts what was packed in a folder, with more words for QEMU."""
        super().__init__(image)
        room = pathlib.Path(tempfile.mkdtemp(dir=packed))
        self.slow, self.kept_back, self.rests = (b"", 0.0), 0, [b""] * (1 + ports)
        self.due: list[tuple[float, int, int, set[int], bytes]] = []
        doors = [socket.create_server(f"{room}/{name}", family=socket.AF_UNIX) for name in ("disk", "lines")]
        words = [*QEMU.format(room=room, packed=packed).split(), "-append", APPENDED]
        for port in range(1 + ports):
            words += ["-chardev", f"socket,id=c{port},path={room}/lines"]
            words += ["-device", f"virtserialport,chardev=c{port}"] if port else []
        self.process = subprocess.Popen([*words, *more], stdin=QUIET, start_new_session=True)
        self.chosen = selectors.DefaultSelector()
        for door in doors:
            door.settimeout(PATIENCE_SECONDS)
        self.disk = doors[0].accept()[0]
        self.disk.sendall(GREETING.pack(b"NBDMAGIC", 0x420281861253, len(image), CAN_BE_FLUSHED))
        self.streams = [doors[1].accept()[0] for _ in self.rests] + [self.disk]
        for number, stream in enumerate(self.streams):
            self.chosen.register(stream, selectors.EVENT_READ, number)

    def close(self) -> None:
        """Takes its power."""
        self.process.kill()
        self.process.wait()
        self.chosen.close()
        for stream in self.streams:
            stream.close()

    def take(self, seconds: float) -> int:
        """Takes a request of the disk, and gives how many writes and flushes that was. They are done after some such time."""
        _, _, kind, handle, at, length = struct.unpack(">IHHQQI", self.disk.recv(28, socket.MSG_WAITALL))
        answer = struct.pack(">IIQ", 0x67446698, 0, handle)
        data, covered = self.disk.recv(length, socket.MSG_WAITALL) if kind == WRITE else b"", self.done & self.writes.keys()
        if self.is_refused(kind, at, data):
            self.disk.sendall(struct.pack(">IIQ", 0x67446698, FAILED, handle))
            return 0
        if kind == READ:
            self.disk.sendall(answer + self.image[at : at + length])
            return 0
        number = self.write(at, data) if kind == WRITE else self.count + 1
        self.count = number
        due = time.monotonic() + seconds * random.expovariate(1) + self.slow[1] * (self.slow[0] in data)
        heapq.heappush(self.due, (due, number, kind, covered, answer))
        return 1

    def events(self, seconds: float, longest: float = 0.05) -> Iterator[tuple[int, str]]:
        """Serves the disk for a moment. Gives each line that has come with its port, which is 0 for the console, and DISK after
        each write or flush that is asked for and before the end of each flush. A request that came with a line follows it."""
        while self.due and self.due[0][0] <= time.monotonic():
            _, number, kind, covered, answer = heapq.heappop(self.due)
            self.done.add(number)
            if kind != WRITE:
                yield DISK, "flush"
                self.flush(sorted(self.writes)[: -self.kept_back] if self.kept_back else sorted(covered & self.writes.keys()))
            self.disk.sendall(answer)
        wait = max(0.0, self.due[0][0] - time.monotonic()) if self.due and longest else longest
        for number in sorted(key.data for key, _ in self.chosen.select(wait)):
            if self.streams[number] is self.disk:
                yield from [(DISK, "request")] * self.take(seconds)
                continue
            data = self.streams[number].recv(1 << 16)
            if not data:
                raise Wrong("the machine has ended")
            *lines, self.rests[number] = (self.rests[number] + data).split(b"\n")
            yield from ((number, line.decode(errors="replace").strip()) for line in lines)


class Rig:
    """Machines with a file system, the disk that the last cut left, and the counts so far. A library may be loaded first."""

    def __init__(self, given: argparse.Namespace, folder: pathlib.Path, library: str, fault: str) -> None:
        self.given, self.folder, self.library, self.fault = given, folder, library, fault
        self.left = bytearray(MEGABYTES[given.fs] << 20)
        self.tally: collections.Counter[str] = collections.Counter()

    def new_disk(self) -> bytearray:
        """A disk with a new file system."""
        fs, path = self.given.fs, self.folder / "new"
        path.write_bytes(bytes(len(self.left)))
        flags = {"ext4": ["-q", "-b", random.choice(BLOCKS)], "udf": ["-b", "512"]}.get(fs, [])
        make: Words = [f"mkfs.{fs}", *flags, path]
        subprocess.run(make, check=True, capture_output=True)
        return bytearray(path.read_bytes())

    def machine(self, script: str, image: bytearray, ports: int, **words: object) -> contextlib.closing[Machine]:
        """Starts a machine with this script."""
        given, room = self.given, pathlib.Path(tempfile.mkdtemp(dir=self.folder))
        programs = {"bin/worldd": given.worldd, "bin/e2fsck": path_of("e2fsck")}
        if self.library:
            programs["lib/first.so"] = str(library_of(self.library, room))
        words |= {"fault": self.fault, "library": "/lib/first.so" if self.library else ""}
        pack(room, given.kernel, [given.fs], programs, script.format(**vars(given) | words))
        return contextlib.closing(Machine(room, image, ports))

    def reading(self) -> contextlib.closing[Machine]:
        """Starts the machine that tells what is left on a disk."""
        return self.machine(READS, bytearray(self.left), 1)

    def cut(self, machine: Machine, reader: Machine, size: int, share: float) -> list[str]:
        """Cuts the power of a machine, which goes on nevertheless. Gives what the other one tells of the disk that is left."""
        told: list[str] = []
        end = time.monotonic() + LOOK_SECONDS
        machine.process.send_signal(signal.SIGSTOP)
        machine.cut(self.left, size, share)
        reader.image[:] = self.left
        reader.streams[1].sendall(b"look\n")
        while "looked" not in told and time.monotonic() < end:
            told += [line for port, line in reader.events(0) if port > 0]
        reader.writes.clear()
        machine.process.send_signal(signal.SIGCONT)
        return told


def world_of(told: list[str]) -> list[str]:
    """The lines of a world among those that were told of a disk."""
    return [line for line in told if re.match(r"recovered|fault|created|image|log|\d+ ", line)] or ["nothing"]


def parser_of(page: str) -> argparse.ArgumentParser:
    """The arguments of each trial that has machines."""
    parser = trial.parser_of(page, "of the batches, the moments and what is left")
    parser.add_argument("--kernel", type=pathlib.Path, default="/", help="where a kernel is installed or unpacked (/)")
    return parser


def status_of(
    name: str, given: argparse.Namespace, lacking: Callable[[], list[str]], run: Callable[[pathlib.Path], str | None]
) -> int:
    """Runs a trial in a new folder, unless something is lacking, and gives its status."""
    os.environ["PATH"] += ":/usr/sbin:/sbin"
    random.seed(given.seed)
    if missing := lacking():
        print(f"{name}: skipped: there is no {', no '.join(missing)}")
        return 0
    print(f"{name}: seed {given.seed}", flush=True)
    return trial.status_in_folder(name, given, run)
