"""What the tests of the Python package and the command have in common."""

import os
import shutil
import subprocess
import sys
import tempfile
import unittest

ROOT = os.path.dirname(os.path.dirname(os.path.dirname(os.path.abspath(__file__))))
PACKAGES = os.path.join(ROOT, "python")

# Document 01's example, in bytes by its layout.
PAIR = bytes.fromhex("0200 0200 0400 0a00 1400")
TWO_JOBS = bytes.fromhex("0200 00000000 04000000 02000000 03000000 06000000 04000000")
PLAN = bytes.fromhex("0300 0300 0000 4100 8000 04000000 04000000 02000000")
# The same plan with its steps from the last to the first.
BACKWARDS = bytes.fromhex("0300 0300 8000 4100 0000 02000000 04000000 04000000")
PRICES = bytes.fromhex("0300 02000000 03000000 04000000 01 02 01")
LISTING = """\
sizes 2 3 3
span 0 2 4 1 4 2 1
span 2 3 4 2 2 2 2
span 3 4 2 1 2 2 1
step 0 0 4
step 1 1 4
step 2 0 2
energy 2200
"""


def write(path, content):
    with open(path, "wb") as file:
        file.write(content if isinstance(content, bytes) else content.encode())


def read(path):
    with open(path, "rb") as file:
        return file.read()


class InFolder(unittest.TestCase):
    """A test with a folder of its own."""

    def setUp(self):
        self.folder = tempfile.mkdtemp()
        self.addCleanup(shutil.rmtree, self.folder)

    def site(self, *, name=None, **files):
        """A folder with the files given: jobs_txt is the content of jobs.txt."""
        if name is None:
            path = tempfile.mkdtemp(dir=self.folder)
        else:
            path = os.path.join(self.folder, name)
            os.makedirs(path)
        for file, content in files.items():
            write(os.path.join(path, file.replace("_", ".")), content)
        return path

    def run_command(self, *words, **settings):
        """Runs the command from the repository's package, where the archive is built already."""
        command = [sys.executable, "-B", "-m", "ramyearly", *words]
        options = {"capture_output": True, "text": True, "env": {**os.environ, "PYTHONPATH": PACKAGES}, **settings}
        return subprocess.run(command, **options)
