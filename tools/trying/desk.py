"""A folder of files on which the program is tried, with devices that fail at a call (failing_devices.c)."""
import os
import shutil
import subprocess
import tempfile

from refused_growths import compilers

from .paths import FAILING_DEVICES

FLAGS = ["-shared", "-fPIC", "-nostdlib", "-fno-builtin", "-O1"]


def built(folder):
    """The library in front of the C library's calls."""
    made = os.path.join(folder, "failing_devices.so")
    for words in compilers():
        if subprocess.run([*words, *FLAGS, "-o", made, FAILING_DEVICES], capture_output=True, check=False).returncode == 0:
            return made
    raise ValueError("devices that fail need a C compiler: one that CC names, or cc, of Debian's package gcc")


class Desk:
    """A folder with files and directories, and the calls at which devices fail, by their names in failing_devices.c."""

    def __init__(self, bench, files, directories=(), devices=()):
        self.bench, self.devices = bench, dict(devices)
        self.folder = tempfile.mkdtemp(dir=bench.folder)
        self.given = set(files)
        for name, contents in files.items():
            with open(os.path.join(self.folder, name), "wb") as file:
                file.write(contents)
        for name in directories:
            os.mkdir(os.path.join(self.folder, name))

    def run(self, words, typed=b""):
        """What comes of a command line: its status, what was opened and made, what was sent, what was told, and what stands in the file
        that was made."""
        library = self.bench.once("failing devices", lambda: built(self.bench.folder))
        listed, noted = os.pipe()
        devices = "".join(f"{name} {call}\n" for name, call in self.devices.items())
        ran = subprocess.run([self.bench.program, *words], input=typed, capture_output=True, cwd=self.folder, timeout=60, check=False,
                             pass_fds=[noted], env={"LD_PRELOAD": library, "DEVICES": devices, "OPENED": str(noted)})
        os.close(noted)
        with os.fdopen(listed, "rb") as opened:
            return ran.returncode, opened.read().decode(), ran.stdout, ran.stderr, self.made()

    def made(self):
        """What stands in the file that was made, or nothing."""
        for name in sorted(os.listdir(self.folder)):
            path = os.path.join(self.folder, name)
            if name not in self.given and os.path.isfile(path):
                with open(path, "rb") as file:
                    return file.read()
        return b""

    def clear(self):
        shutil.rmtree(self.folder)
