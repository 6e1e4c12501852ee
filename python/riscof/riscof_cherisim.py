"""The plugin of riscof for this machine: it compiles each test of riscv-arch-test, runs it and leaves its signature.

A config.ini names it, as docs/COMPARED.md shows. It needs riscv64-unknown-elf-gcc, and libcherisim where the module cherisim finds it.
"""
import os
import subprocess
import sys
from concurrent.futures import ThreadPoolExecutor

from riscof.pluginTemplate import pluginTemplate

TOOLS = "riscv64-unknown-elf-"
STEPS = 10_000_000
"""The steps that a test may take."""


class cherisim(pluginTemplate):  # riscof looks for a class of the plugin's name
    """This machine as a device under test, or as the reference."""

    __model__ = "cherisim"
    __version__ = "0.1.0"

    def __init__(self, *given, **named):
        super().__init__(*given, **named)
        config = named.get("config")
        if config is None:
            raise SystemExit("riscof_cherisim: no section for the plugin in config.ini")
        self.jobs = int(config.get("jobs", 1))
        self.folder = os.path.abspath(config["pluginpath"])
        self.isa_spec = os.path.abspath(config["ispec"])
        self.platform_spec = os.path.abspath(config["pspec"])
        self.target_run = config.get("target_run", "1") != "0"
        self.environment = ""

    def initialise(self, suite, work_dir, archtest_env):
        """Notes where the suite's own headers are."""
        self.environment = archtest_env

    def build(self, isa_yaml, platform_yaml):
        """There is nothing to build: only that the tools are there is asked."""
        for tool in ("gcc", "objcopy", "nm"):
            subprocess.run([TOOLS + tool, "--version"], stdout=subprocess.DEVNULL, check=True)

    def commands(self, entry):
        """The commands of a test, in the order in which they are run, each with the file that its output goes to or None."""
        path = lambda name: os.path.join(entry["work_dir"], name)
        macros = [f"-D{macro}" for macro in entry["macros"]]
        own = os.path.join(self.folder, "env")
        compiled = [TOOLS + "gcc", f"-march={entry['isa'].lower()}", "-mabi=lp64", "-mcmodel=medany", "-static", "-nostdlib",
                    "-nostartfiles", "-T", os.path.join(own, "link.ld"), "-I", own, "-I", self.environment, *macros, entry["test_path"],
                    "-o", path("test.elf")]
        signature = os.path.join(self.folder, "..", "examples", "signature.py")
        return [(compiled, None), ([TOOLS + "objcopy", "-O", "binary", path("test.elf"), path("test.bin")], None),
                ([TOOLS + "nm", path("test.elf")], path("test.sym")),
                ([sys.executable, signature, path("test.bin"), path("test.sym"), str(STEPS)], path(self.name[:-1] + ".signature"))]

    def run_test(self, entry):
        """Runs the commands of a test up to the first that fails; without a signature riscof says that the test failed."""
        modules = os.pathsep.join(filter(None, [os.path.join(self.folder, ".."), os.environ.get("PYTHONPATH")]))
        for words, out in self.commands(entry)[:None if self.target_run else 1]:
            with open(out or os.devnull, "w", encoding="ascii") as file:
                ran = subprocess.run(words, stdout=file, cwd=entry["work_dir"], env={**os.environ, "PYTHONPATH": modules}, check=False)
            if ran.returncode:
                return

    def runTests(self, testList, *_more):  # riscof's name
        """Runs the tests, as many at once as `jobs` says."""
        with ThreadPoolExecutor(self.jobs) as pool:
            list(pool.map(self.run_test, testList.values()))
        if not self.target_run:
            raise SystemExit(0)
