"""in_machine.py KERNEL_FOLDER SCRIPT WORDS ..: runs a script of Python as root in a virtual machine, over this system's files, which it can read and not
change. What the script prints comes out here; the status is its own."""
import os
import sys
import tempfile

sys.path.insert(0, os.path.join(os.path.dirname(os.path.abspath(__file__)), "..", "dax"))
from machine import Machine

MODULES = ("fs/ext4 fs/jbd2 fs/xfs fs/btrfs fs/fuse fs/9p fs/netfs fs/fscache fs/mbcache.ko net/9p lib crypto arch/x86/crypto drivers/block/loop.ko "
           "drivers/virtio").split()
SHARED = ["-machine", "q35", "-m", "2G", "-virtfs", "local,path=/,mount_tag=host,security_model=none,readonly=on,multidevs=remap"]


def main(unpacked, *words):
    quoted = " ".join(f"'{word}'" for word in (sys.executable, *words))
    with tempfile.TemporaryDirectory() as folder:
        machine = Machine(folder, unpacked, MODULES, [], "max", SHARED)
        console, line, _ = machine.boot(f"""for m in virtio_pci 9pnet_virtio 9p fuse loop ext4 xfs btrfs; do modprobe $m || echo no module $m; done
mkdir /host /dev/shm; mount -t tmpfs none /dev/shm
mount -t 9p -o trans=virtio,version=9p2000.L,ro,msize=1048576,cache=loose host /host || echo no files
mount -t proc proc /host/proc; mount -t sysfs sys /host/sys; mount --bind /dev /host/dev; ip link set lo up
export PATH=/usr/bin:/bin:/usr/sbin:/sbin PYTHONDONTWRITEBYTECODE=1 HOME=/
/bin/busybox chroot /host {quoted} > /dev/ttyS1 2>&1; echo "STATUS $?"
""", limit=5400)
    print(line, end="")
    if "STATUS 0" not in console:
        sys.exit("the machine says: " + console[-1000:])


main(*sys.argv[1:])
