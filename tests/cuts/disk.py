"""A disk that writes down what it is asked: each write and each flush, in their order. It is a file in a file system of our own (FUSE), under a loop
device of the kernel, on which an ordinary file system is mounted. Needs root, /dev/fuse and loop devices."""
import ctypes
import errno
import fcntl
import os
import signal
import socket
import stat
import struct
import time
import traceback

LIBC = ctypes.CDLL(None, use_errno=True)
BLOCK = 4096
PARENT_ENDED, NEW_MOUNTS, DETACH = 1, 0x20000, 2

# The requests of FUSE that a loop device leads to, and how they are answered; all others with ENOSYS.
LOOKUP, FORGET, GETATTR, OPEN, READ, WRITE, RELEASE, FSYNC, FLUSH, INIT, OPENDIR, RELEASEDIR, INTERRUPT, DESTROY, MANY_FORGET = (
    1, 2, 3, 14, 15, 16, 18, 20, 25, 26, 27, 29, 36, 38, 42)
REQUEST = struct.Struct("<IIQQIIIHH")
ROOT, DISK = 1, 2
MOST_WRITTEN = 1 << 17
RECORD = struct.Struct("<cQI")


def checked(result):
    if result != 0:
        number = ctypes.get_errno()
        raise OSError(number, os.strerror(number))


def mount(source, place, kind, words="", flags=0):
    checked(LIBC.mount(source.encode(), place.encode(), kind.encode(), flags, words.encode()))


def unmount(place):
    """What still has it open lets go soon."""
    for _ in range(200):
        try:
            return checked(LIBC.umount2(place.encode(), 0))
        except OSError as e:
            if e.errno != errno.EBUSY:
                raise
        time.sleep(0.05)
    raise OSError(errno.EBUSY, f"{place} stays in use")


# ---- loop devices

GET_FREE, CONFIGURE, AUTOCLEAR = 0x4C82, 0x4C0A, 4


def loop(path):
    """A loop device on a file, and a descriptor that keeps it. It goes once nobody has it open."""
    for _ in range(50):
        control = os.open("/dev/loop-control", os.O_RDWR)
        name = f"/dev/loop{fcntl.ioctl(control, GET_FREE)}"
        os.close(control)
        device, file = os.open(name, os.O_RDWR), os.open(path, os.O_RDWR)
        # struct loop_config: the file, the sectors' length, struct loop_info64 (of which only the flags are set), eight words kept free.
        words = struct.pack("<II", file, 512) + bytes(52) + struct.pack("<I", AUTOCLEAR) + bytes(176 + 64)
        try:
            fcntl.ioctl(device, CONFIGURE, words)
            return name, device
        except OSError as e:
            os.close(device)
            # Somebody else took it first.
            if e.errno != errno.EBUSY:
                raise
        finally:
            os.close(file)
    raise OSError(errno.EBUSY, "no loop device is free")


def mounted(path, place, kind, words):
    """The file system of an image file, at a place."""
    name, device = loop(path)
    try:
        mount(name, place, kind, words)
    finally:
        os.close(device)


# ---- the file system of one file

class Server:
    """Answers the kernel for a folder with one file, the disk, whose bytes lie in an image file."""

    def __init__(self, fuse, image, log):
        self.fuse, self.image = fuse, os.open(image, os.O_RDWR)
        self.log = os.open(log, os.O_WRONLY | os.O_APPEND)
        self.size = os.path.getsize(image)

    def attributes(self, node):
        kind, size = (stat.S_IFREG | 0o600, self.size) if node == DISK else (stat.S_IFDIR | 0o700, 0)
        return struct.pack("<QQQQQQIIIIIIIIII", node, size, size // 512, 0, 0, 0, 0, 0, 0, kind, 1, 0, 0, 0, BLOCK, 0)

    def lookup(self, body):
        if body.rstrip(b"\0") != b"disk":
            return -errno.ENOENT
        return struct.pack("<QQQQII", DISK, 0, 0, 0, 0, 0) + self.attributes(DISK)

    def read(self, body):
        _, at, size = struct.unpack_from("<QQI", body)
        return os.pread(self.image, size, at)

    def write(self, body):
        _, at, size = struct.unpack_from("<QQI", body)
        data = body[40:40 + size]
        os.write(self.log, RECORD.pack(b"W", at, size) + data)
        os.pwrite(self.image, data, at)
        return struct.pack("<II", size, 0)

    def flush(self):
        os.write(self.log, RECORD.pack(b"F", 0, 0))
        return b""

    def answer(self, kind, node, body):
        if kind == INIT:
            return struct.pack("<IIIIHHIIHHI7I", 7, 31, MOST_WRITTEN, 1 << 5, 16, 12, MOST_WRITTEN, 1, 0, 0, 0, *[0] * 7)
        if kind == LOOKUP:
            return self.lookup(body)
        if kind == GETATTR:
            return struct.pack("<QII", 0, 0, 0) + self.attributes(node)
        if kind in (OPEN, OPENDIR):
            return struct.pack("<QII", 0, 0, 0)
        if kind == READ:
            return self.read(body)
        if kind == WRITE:
            return self.write(body)
        if kind == FSYNC:
            return self.flush()
        return b"" if kind in (FLUSH, RELEASE, RELEASEDIR, DESTROY) else -errno.ENOSYS

    def serve(self):
        while True:
            try:
                request = os.read(self.fuse, 1 << 20)
            except OSError as e:
                if e.errno == errno.ENODEV:
                    return
                if e.errno in (errno.EINTR, errno.ENOENT, errno.EAGAIN):
                    continue
                raise
            _, kind, unique, node, *_ = REQUEST.unpack_from(request)
            if kind in (FORGET, MANY_FORGET, INTERRUPT):
                continue
            said = self.answer(kind, node, request[REQUEST.size:])
            number, data = (said, b"") if isinstance(said, int) else (0, said)
            try:
                os.write(self.fuse, struct.pack("<IiQ", 16 + len(data), number, unique) + data)
            except FileNotFoundError:
                # Whoever asked is gone.
                pass


class Recording:
    """A file system on a disk that writes down what it is asked, from when it is mounted at place until end."""

    def __init__(self, folder, base, kind, words):
        self.place, self.log, self.under = f"{folder}/place", f"{folder}/log", f"{folder}/under"
        image = f"{folder}/disk"
        for d in (self.place, self.under):
            os.makedirs(d, exist_ok=True)
        base.put(image)
        open(self.log, "wb").close()
        fuse = os.open("/dev/fuse", os.O_RDWR)
        ours, its = socket.socketpair()
        self.server = self.serve(fuse, image, its)
        its.close()
        ours.recv(1)
        mount("disk", self.under, "fuse", f"fd={fuse},rootmode=40000,user_id=0,group_id=0")
        ours.send(b"!")
        ours.close()
        os.close(fuse)
        mounted(f"{self.under}/disk", self.place, kind, words)

    def serve(self, fuse, image, other):
        """Starts the process that answers; it does not see the mounts to come, so that their end never waits for its own."""
        server = os.fork()
        if server > 0:
            return server
        status = 1
        try:
            LIBC.prctl(PARENT_ENDED, signal.SIGKILL)
            checked(LIBC.unshare(NEW_MOUNTS))
            other.send(b"!")
            other.recv(1)
            Server(fuse, image, self.log).serve()
            status = 0
        except Exception:
            traceback.print_exc()
        finally:
            os._exit(status)

    def abandon(self):
        """After a failure: nothing stays mounted."""
        for place in (self.place, self.under):
            LIBC.umount2(place.encode(), DETACH)

    def position(self):
        """How much is written down so far."""
        return os.path.getsize(self.log)

    def end(self):
        """Unmounts, which writes what is left, and gives the log."""
        unmount(self.place)
        unmount(self.under)
        _, status = os.waitpid(self.server, 0)
        assert status == 0, "the disk failed"
        return read_log(self.log)


def read_log(path):
    """The writes and flushes, each with where it ends in the log: (position, offset, data), data None for a flush."""
    with open(path, "rb") as f:
        all_bytes = f.read()
    found, at = [], 0
    while at < len(all_bytes):
        kind, offset, size = RECORD.unpack_from(all_bytes, at)
        at += RECORD.size
        found.append((at + size, offset, all_bytes[at:at + size] if kind == b"W" else None))
        at += size
    return found


# ---- images

class Image:
    """What a disk holds: its blocks that are not zero."""

    def __init__(self, size, blocks=None):
        self.size, self.blocks = size, dict(blocks or {})

    @classmethod
    def of(cls, path):
        image, at = cls(os.path.getsize(path)), 0
        with open(path, "rb") as f:
            while True:
                try:
                    at = os.lseek(f.fileno(), at, os.SEEK_DATA)
                except OSError:
                    return image
                end = os.lseek(f.fileno(), at, os.SEEK_HOLE)
                for block in range(at // BLOCK, -(-end // BLOCK)):
                    data = os.pread(f.fileno(), BLOCK, BLOCK * block)
                    if data.strip(b"\0"):
                        image.blocks[block] = data.ljust(BLOCK, b"\0")
                at = end

    def copy(self):
        return Image(self.size, self.blocks)

    def write(self, offset, data):
        at = 0
        while at < len(data):
            block, start = divmod(offset + at, BLOCK)
            part = data[at:at + BLOCK - start]
            old = self.blocks.get(block, bytes(BLOCK))
            self.blocks[block] = old[:start] + part + old[start + len(part):]
            at += len(part)

    def put(self, path):
        """Into a sparse file."""
        with open(path, "wb") as f:
            f.truncate(self.size)
            for block, data in self.blocks.items():
                os.pwrite(f.fileno(), data, BLOCK * block)
