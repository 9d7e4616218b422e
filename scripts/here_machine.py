"""This machine in place of one of QEMU's, for device_trial.py: much faster, and only for root. The disk is a file that is
served from here by the protocol of FUSE, with a loop device over it. A power cut is a copy of what that disk holds then."""
import contextlib
import ctypes
import os
import pathlib
import pty
import selectors
import shutil
import signal
import struct
import subprocess
import tempfile
import threading
import time
import tty
from collections.abc import Iterator

from power_machine import DISK, FAILED, FLUSH, READ, WRITE, Disk, Rig, path_of
from trial import QUIET, Words, Wrong, free_port, library_of, pipe

# Of the protocol: the kinds of requests, and the attributes of a folder and of the file in it.
INIT, LOOKUP, GETATTR, OPEN, OPENDIR, READS, WRITES, SYNCS = 26, 1, 3, 14, 27, 15, 16, 20
UNANSWERED, EMPTY, NO_SYSTEM_CALL, DIRECT = (2, 36, 42), (18, 25, 29, 38), 38, 1
# How often the system writes back by itself, in hundredths of a second.
WRITE_BACK = pathlib.Path("/proc/sys/vm/dirty_writeback_centisecs")
# Files of disks that are looked at are in memory.
MEMORY, ZEROS = "/dev/shm", bytes(1 << 18)
HEAD, ATTRIBUTES = struct.Struct("<IIQQIIII"), struct.Struct("<6Q10I")


class Served(Disk):
    """A disk that is served by FUSE as the one file of a folder."""

    def __init__(self, folder: pathlib.Path, image: bytearray) -> None:
        super().__init__(image)
        self.folder, self.requests, self.guard = folder, 0, threading.Lock()
        folder.mkdir()
        self.device = os.open("/dev/fuse", os.O_RDWR | os.O_CLOEXEC)
        data = f"fd={self.device},rootmode=40000,user_id=0,group_id=0".encode()
        if ctypes.CDLL(None, use_errno=True).mount(b"disk", os.fsencode(folder), b"fuse", 6, data):
            raise OSError(ctypes.get_errno(), "mount of FUSE")
        threading.Thread(target=self.serve, daemon=True).start()

    def attributes(self, node: int) -> bytes:
        """The attributes of the folder, or of the file in it."""
        mode, size = (0o40700, 0) if node == 1 else (0o100600, len(self.image))
        return ATTRIBUTES.pack(node, size, size // 512, 0, 0, 0, 0, 0, 0, mode, 1, 0, 0, 0, 4096, 0)

    def serve(self) -> None:
        """Answers each request, until the folder is unmounted."""
        while True:
            try:
                data = os.read(self.device, 1 << 20)
            except OSError:
                return
            _, kind, unique, node, *_ = HEAD.unpack_from(data)
            if kind in UNANSWERED:
                continue
            try:
                error, answer = 0, self.answer(kind, node, data[HEAD.size :])
            except OSError as failed:
                error, answer = -failed.errno, b""
            try:
                os.write(self.device, struct.pack("<IiQ", 16 + len(answer), error, unique) + answer)
            except OSError:
                pass

    def answer(self, kind: int, node: int, data: bytes) -> bytes:
        """The answer to a request, or the error of a refused one."""
        if kind == INIT:
            return struct.pack("<IIIIHHIIHHI7I", 7, 31, 1 << 17, 1 << 5, 16, 12, 1 << 17, 1, 0, 0, 0, *[0] * 7)
        if kind == LOOKUP:
            return struct.pack("<5Q", 2, 0, 3600, 3600, 0)[:40] + self.attributes(2)
        if kind == GETATTR:
            return struct.pack("<QII", 3600, 0, 0) + self.attributes(node)
        if kind in (OPEN, OPENDIR):
            return struct.pack("<QII", 1, DIRECT if kind == OPEN else 0, 0)
        if kind in EMPTY:
            return b""
        with self.guard:
            if kind == READS:
                at, length = struct.unpack_from("<QI", data, 8)
                self.refuse(READ, 0, b"")
                return bytes(self.image[at : at + length])
            if kind == WRITES:
                at, length = struct.unpack_from("<QI", data, 8)
                self.requests += 1
                self.refuse(WRITE, at, data[40 : 40 + length])
                self.done.add(self.write(at, data[40 : 40 + length]))
                return struct.pack("<II", length, 0)
            if kind == SYNCS:
                self.requests += 1
                self.refuse(FLUSH, 0, b"")
                self.flush(sorted(self.writes))
                return b""
        raise OSError(NO_SYSTEM_CALL, "no such request")

    def refuse(self, kind: int, at: int, data: bytes) -> None:
        """Fails if the request is to be refused. A part of a write is made then."""
        if self.is_refused(kind, at, data):
            raise OSError(FAILED, "refused")


class Stream:
    """A terminal in place of a machine's port."""

    def __init__(self, path: pathlib.Path) -> None:
        self.file, self.other = pty.openpty()
        tty.setraw(self.other)
        path.symlink_to(os.ttyname(self.other))

    def fileno(self) -> int:
        return self.file

    def recv(self, length: int) -> bytes:
        return os.read(self.file, length)

    def sendall(self, data: bytes) -> None:
        while data:
            data = data[os.write(self.file, data) :]


class Here(Served):
    """This machine with a disk: its script runs here, on the disk's file system in a folder."""

    def __init__(self, room: pathlib.Path, script: str, image: bytearray, ports: int) -> None:
        super().__init__(room / "disk", image)
        self.mounted, self.rests, self.seen = room / "mounted", [b""] * (1 + ports), 0
        self.mounted.mkdir()
        find: Words = ["losetup", "--find", "--show", room / "disk" / "file"]
        self.loop = subprocess.run(find, check=True, capture_output=True, text=True).stdout.strip()
        pathlib.Path(f"/sys/block/{pathlib.Path(self.loop).name}/queue/max_sectors_kb").write_text("4")
        self.streams = {port: Stream(room / f"p{port}") for port in range(1, 1 + ports)}
        text = script.replace("/dev/vport*p", f"{room}/p").replace("/dev/vda", self.loop).replace("/mnt", str(self.mounted))
        self.process = subprocess.Popen(
            ["sh", "-c", text], cwd="/", stdin=QUIET, stdout=subprocess.PIPE, stderr=subprocess.STDOUT, start_new_session=True
        )
        self.chosen = selectors.DefaultSelector()
        self.chosen.register(pipe(self.process.stdout), selectors.EVENT_READ, 0)
        for port, stream in self.streams.items():
            self.chosen.register(stream, selectors.EVENT_READ, port)

    def close(self) -> None:
        """Ends what runs, and gives the disk up."""
        os.killpg(self.process.pid, signal.SIGKILL)
        self.process.wait()
        for _ in range(100):
            if subprocess.run(["umount", self.mounted], stderr=QUIET).returncode in (0, 32) and not os.path.ismount(self.mounted):
                break
            time.sleep(0.1)
        subprocess.run(["losetup", "--detach", self.loop])
        subprocess.run(["umount", "--lazy", self.folder])

    def events(self, seconds: float) -> Iterator[tuple[int, str]]:
        """Gives each line that has come with its port, which is 0 for what the script prints, and DISK for each request."""
        while self.seen < self.requests:
            self.seen += 1
            yield DISK, "request"
        for number, file in sorted((key.data, key.fd) for key, _ in self.chosen.select(0.01)):
            data = os.read(file, 1 << 16)
            if not data:
                raise Wrong("the script has ended")
            *lines, self.rests[number] = (self.rests[number] + data).split(b"\n")
            yield from ((number, line.decode(errors="replace").strip()) for line in lines)


@contextlib.contextmanager
def writing_late() -> Iterator[None]:
    """Lets the system write nothing back by itself for ten minutes: such a write would meet a refusal that is for a call."""
    was = WRITE_BACK.read_text()
    WRITE_BACK.write_text("60000")
    try:
        yield
    finally:
        WRITE_BACK.write_text(was)


def lacking() -> list[str]:
    """What isn't there."""
    programs = "losetup", "busybox", "mkfs.ext4", "mkfs.xfs"
    paths = ["/dev/fuse", "/dev/loop-control", *(str(shutil.which(name)) for name in programs)]
    is_there = all(map(os.path.exists, paths))
    return ["root"] * (os.geteuid() != 0) + ["FUSE, loop device, busybox or file system"] * (not is_there)


def here(rig: Rig, script: str, ports: int, **words: object) -> Here:
    """Lets a rig's script run here, with a new disk."""
    room = pathlib.Path(tempfile.mkdtemp(dir=rig.folder))
    (room / "bin").mkdir()
    (room / "bin" / "worldd").symlink_to(rig.given.worldd)
    (room / "bin" / "nc").symlink_to(path_of("busybox"))
    words |= {"fault": rig.fault, "library": library_of(rig.library, room), "port": free_port()}
    text = f"PATH={room}/bin:$PATH\n" + script.format(**vars(rig.given) | words)
    return Here(room, text, rig.new_disk(), ports)


def lines_of(room: pathlib.Path, worldd: str, fs: str, left: bytearray) -> list[str]:
    """What worldd prints of a disk that a cut left."""
    path, folder = room / "left", room / "looked"
    folder.mkdir(exist_ok=True)
    with path.open("wb") as file:
        file.truncate(len(left))
        for at in range(0, len(left), len(ZEROS)):
            piece = left[at : at + len(ZEROS)]
            if piece != ZEROS:
                file.seek(at)
                file.write(piece)
    options = "loop,nouuid" if fs == "xfs" else "loop"
    subprocess.run(["mount", "-o", options, path, folder], check=True, capture_output=True)
    try:
        words = [["recover", "--refuse-losses"], ["inspect", "--words"]]
        ran = [subprocess.run([worldd, *word, "--dir", folder / "w"], capture_output=True, text=True) for word in words]
    finally:
        subprocess.run(["umount", folder], check=True, capture_output=True)
    return [line for each in ran for line in (each.stdout + each.stderr).splitlines()]
