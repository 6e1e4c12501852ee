"""Image files that are opened: what RAM holds, and what a program finds there. Values are the format's and the architecture's."""

from model import images
from model.devices import RAM

# auipc a1, 0; lc ca0, 256(a1), in integer mode
LOADS = bytes.fromhex("97050000" "0fa50510")
CODE = (RAM, LOADS)
# root's word, as a section has it
LOOKS = (RAM + 0x110, images.ROOT)
ROW = "0010008000000000 0450fe070000ffff"
NOTHING = "0000000000000000 0000000000000000"
ROOT = "0000000000000000 000000000000ffff"


def opened(file, deeds, *answers):
    return f"file | {file.hex()} | {deeds} => {'; '.join(answers)}"


def cases():
    yield "# image files: file | bytes | events and queries"
    yield opened(images.FIRST, "steps 5; sent", "41")
    yield opened(images.ONE_CAPABILITY, "granule 80000100; granule 800000f0; granule 80000110", f"{ROW} 1", f"{NOTHING} 0", f"{NOTHING} 0")
    two = images.file_v2(1, RAM, 0, [images.GRANTED], [CODE, LOOKS])
    yield "# a capability is loaded; a section that looks like one is bytes"
    yield opened(two, "steps 2; trap; bytes ca0; granule 80000100; granule 80000110", "none", f"{ROW} 1", f"{ROW} 1", f"{ROOT} 0")
    yield "# a capability stands over a section's bytes, and the granules beside it keep theirs"
    over = images.file_v2(1, RAM, 0, [images.GRANTED], [(RAM + 0xF0, b"\x07" * 48)])
    sevens = "0707070707070707 0707070707070707"
    yield opened(over, "granule 800000f0; granule 80000100; granule 80000110", f"{sevens} 0", f"{ROW} 1", f"{sevens} 0")
    yield "# it has the permissions and the flag of its entry: Global and Load, and the flag"
    less = images.file_v2(1, RAM, 0, [images.granted(perms=5, flag=1)])
    yield opened(less, "granule 80000100", "0010008000000000 0450fe0700200500 1")
    yield "# the last granule of RAM"
    last = images.file_v2(1, RAM, 0, [images.granted(images.END - 16)])
    yield opened(last, "granule 80000ff0", f"{ROW} 1")
