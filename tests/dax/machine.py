"""A virtual machine: qemu, Debian's kernel and a small first file system with busybox, the modules named and the programs given. Without KVM."""
import glob
import os
import re
import shutil
import subprocess
import time

INIT = """#!/bin/sh
/bin/busybox --install -s /bin 2>/dev/null
export PATH=/bin:/sbin
mount -t proc proc /proc; mount -t sysfs sys /sys; mount -t devtmpfs dev /dev
stty -F /dev/ttyS1 raw
. /act.sh
echo MACHINE-END
poweroff -f
"""


def kernel(folder):
    """Debian's kernel, unpacked in the folder: its image, and its modules."""
    if not glob.glob(f"{folder}/boot/vmlinuz-*"):
        os.makedirs(folder, exist_ok=True)
        named = subprocess.check_output(["apt-cache", "depends", "linux-image-amd64"], text=True)
        subprocess.check_call(["apt-get", "download", re.search(r"Depends: (\S+)", named)[1]], cwd=folder, stdout=subprocess.DEVNULL)
        subprocess.check_call(["dpkg-deb", "-x", glob.glob(f"{folder}/*.deb")[0], folder])
    return glob.glob(f"{folder}/boot/vmlinuz-*")[0], glob.glob(f"{folder}/lib/modules/*")[0]


def put(root, path, name=None):
    """A program, and the libraries that it needs, at their places."""
    shutil.copy(os.path.realpath(path), f"{root}/{name or path}")
    needs = subprocess.run(["ldd", path], capture_output=True, text=True).stdout
    for library in re.findall(r"/\S+", needs):
        os.makedirs(root + os.path.dirname(library), exist_ok=True)
        shutil.copy(library, root + library)


def pack(root, out):
    subprocess.check_call(f"cd '{root}' && find . | cpio -o -H newc --quiet | gzip -1 > '{out}'", shell=True)


def put_modules(root, modules, wanted):
    """The modules of these folders and files, with what modprobe reads."""
    version = os.path.basename(modules)
    for d in wanted:
        to = f"{root}/lib/modules/{version}/kernel/{d}"
        os.makedirs(os.path.dirname(to), exist_ok=True)
        (shutil.copy if d.endswith(".ko") else shutil.copytree)(f"{modules}/kernel/{d}", to)
    for f in glob.glob(f"{modules}/modules.*"):
        shutil.copy(f, f"{root}/lib/modules/{version}/")
    subprocess.check_call(["depmod", "-b", root, version])


def contents(path):
    if not os.path.exists(path):
        return ""
    with open(path, errors="replace") as f:
        return f.read().replace("\r", "")


class Machine:
    """processor and devices are words of qemu's. Its first file system has busybox, the programs and mkfs of ext4 and xfs."""

    def __init__(self, folder, unpacked, modules, programs, processor, devices):
        self.folder, self.words = folder, ["-cpu", processor, *devices]
        self.image, all_modules = kernel(unpacked)
        root = f"{folder}/root"
        for d in ("bin", "sbin", "proc", "sys", "dev", "mnt", "tmp", "lib/modules"):
            os.makedirs(f"{root}/{d}")
        put_modules(root, all_modules, modules)
        put(root, shutil.which("busybox"), "bin/busybox")
        os.symlink("busybox", f"{root}/bin/sh")
        os.symlink("/bin/busybox", f"{root}/sbin/modprobe")
        for path in programs:
            put(root, path, "bin/" + os.path.basename(path))
        with open(f"{root}/init", "w") as f:
            f.write(INIT)
        os.chmod(f"{root}/init", 0o755)
        pack(root, f"{folder}/base.gz")

    def first_files(self, act, files):
        """The first file system of one start: the machine's, the script and the files that it reads in /data."""
        own = f"{self.folder}/own"
        shutil.rmtree(own, ignore_errors=True)
        os.makedirs(f"{own}/data")
        for name, text in {"act.sh": act, **{f"data/{n}": t for n, t in files.items()}}.items():
            with open(f"{own}/{name}", "w") as f:
                f.write(text)
        pack(own, f"{self.folder}/own.gz")
        subprocess.check_call("cat base.gz own.gz > initrd.gz; rm -f console line", shell=True, cwd=self.folder)

    def start(self):
        return subprocess.Popen(
            ["qemu-system-x86_64", "-accel", "tcg", *self.words, "-display", "none", "-monitor", "none", "-no-reboot", "-net", "none",
             # A processor that others use too loses ticks of the timer: the kernel does not look for them.
             "-kernel", self.image, "-initrd", f"{self.folder}/initrd.gz", "-append", "console=ttyS0 panic=-1 quiet no_timer_check",
             "-serial", f"file:{self.folder}/console", "-serial", f"file:{self.folder}/line"], stdin=subprocess.DEVNULL)

    def boot(self, act, files={}, kill=None, limit=600):
        """Runs the script; what the console and the second line (ttyS1) got, and whether the machine was killed, so many seconds after the
        console's line WORK."""
        self.first_files(act, files)
        run = self.start()
        began, work, killed = time.monotonic(), None, False
        try:
            while run.poll() is None:
                time.sleep(0.02)
                now = time.monotonic()
                if kill is not None and work is None and "\nWORK\n" in contents(f"{self.folder}/console"):
                    work = now
                if work and now > work + kill:
                    run.kill()
                    killed = True
                assert now < began + limit, "the machine takes too long: " + contents(f"{self.folder}/console")[-800:]
        finally:
            run.kill()
            run.wait()
        return contents(f"{self.folder}/console"), contents(f"{self.folder}/line"), killed
