"""bttv's own code of a kernel tree, compiled in user space with stubs.h and commands.c. No kernel text is kept."""

import json
import os
import re
import subprocess
import sys

HERE = os.path.dirname(os.path.abspath(__file__))
sys.path.insert(0, os.path.dirname(HERE))  # where the package bt878 lies

BT8XX = "drivers/media/pci/bt8xx"
SYSTEM = {"linux/types.h", "linux/videodev2.h", "linux/errno.h", "asm/byteorder.h"}  # headers that the system has itself
TABLES = (  # of bttv-driver.c, for trees whose bttv-driver.c isn't compiled: from the line that matches to one that does
    (r"#define CROPCAP", r".*[^\\]$"),
    (r"[^;]*\bbttv_tvnorms\[\]", r"};"),
    (r"[^;]*\bformats\[\]", r"};"),
)


WITHIN = {  # what each command stands for
    "format": "VIDIOC_S_FMT", "crop": "VIDIOC_S_SELECTION", "vbi": "VIDIOC_S_FMT", "prepare": "VIDIOC_QBUF", "queue": "VIDIOC_QBUF",
    "stream": "VIDIOC_STREAMON", "interrupt": "the interrupt handler", "overlay": "VIDIOC_S_FMT",
}  # fmt: skip


def source(tree, name):
    with open(os.path.join(tree, BT8XX, name), encoding="utf-8", errors="replace") as file:
        return file.read()


def make_headers(tree, folder):
    """A header of each name that the driver includes, which leads to stubs.h."""
    names = os.listdir(os.path.join(tree, BT8XX))
    texts = [source(tree, name) for name in names if re.fullmatch(r"(bt|btcx).*\.[ch]", name)]
    for name in set(re.findall(r"^#include <(.*)>", "\n".join(texts), re.MULTILINE)) - SYSTEM:
        os.makedirs(os.path.join(folder, os.path.dirname(name)), exist_ok=True)
        with open(os.path.join(folder, name), "w") as file:
            file.write('#include "stubs.h"\n')


def tables(tree):
    """The tables of bttv-driver.c alone."""
    lines, out = source(tree, "bttv-driver.c").splitlines(), ['#include "bttvp.h"']
    for first, last in TABLES:
        at = next(n for n, line in enumerate(lines) if re.match(first, line))
        end = next(n for n in range(at, len(lines)) if re.fullmatch(last, lines[n]))
        out += lines[at : end + 1]
    return "\n".join(out) + "\n"


def is_old(tree):
    """Whether a tree's driver still has overlay windows, and queues of its own: then only its generators are compiled."""
    return "bttv_risc_overlay" in source(tree, "bttv-risc.c")


def build(tree, folder):
    """The program of commands.c and the driver of a tree, by the C compiler that CC names."""
    if not os.path.exists(os.path.join(tree, BT8XX, "bttv-risc.c")):
        sys.exit(f"no {BT8XX}/bttv-risc.c in {tree}")
    make_headers(tree, folder)
    kind = []
    if is_old(tree):
        with open(os.path.join(folder, "tables.c"), "w") as file:
            file.write(tables(tree))
    else:
        kind = ["-DWHOLE_DRIVER"]
    driver, out = os.path.abspath(os.path.join(tree, BT8XX)), os.path.join(folder, "driver")
    flags = ["-std=gnu11", "-g", "-O1", "-fno-inline", "-fno-strict-aliasing", "-w", *kind]
    paths = [f"-I{path}" for path in (folder, HERE, driver)]
    units = [os.path.join(HERE, "commands.c"), os.path.join(driver, "btcx-risc.c")]
    link = ["-static", "-Wl,--unresolved-symbols=ignore-all"]  # what the rest of the kernel would have
    subprocess.run([os.environ.get("CC", "cc"), *flags, *paths, *units, "-o", out, *link], check=True)
    return out


class Harness:
    """A driver that obeys commands."""

    def __init__(self, path):
        self.path = path
        self.child = subprocess.Popen([path], stdin=subprocess.PIPE, stdout=subprocess.PIPE, text=True)

    def obey(self, *commands):
        """The commands are carried out; what there is then."""
        self.child.stdin.write("\n".join([*commands, "dump"]) + "\n")
        self.child.stdin.flush()
        return json.loads(self.child.stdout.readline())

    def death(self, dump):
        """How the driver died and where, or None."""
        if not dump["death"]:
            return None
        words = ["addr2line", "-f", "-e", self.path, hex(dump["death_at"])]
        function = subprocess.run(words, capture_output=True, text=True).stdout.splitlines()[:1] or ["?"]
        return f"{dump['death']} in {function[0]}, within {WITHIN[dump['command']]}"

    def close(self):
        self.child.stdin.close()
        self.child.wait()
