"""What the tests of the programs share: the launcher, the samples of tables/ and the records of tests/span_lister.cases."""
import glob
import os
import subprocess
import sys
from importlib.machinery import SourceFileLoader
from importlib.util import module_from_spec, spec_from_loader

TOP = os.path.dirname(os.path.dirname(os.path.abspath(__file__)))
TABLES = os.path.join(TOP, "tables")
LAUNCHER = os.path.join(TOP, "tasulogi")
# exit statuses of the launcher; tables/record.py has them but UNBUILT
DONE, UNBUILT, USAGE, REFUSED, FAILED = 0, 1, 2, 4, 5

sys.path.insert(0, TABLES)
if not os.access(LAUNCHER, os.X_OK):
    sys.exit(f"{LAUNCHER} is not there, or cannot be run")


def load(name):
    """A test beside this file, as a module."""
    loader = SourceFileLoader(name, os.path.join(TOP, "tests", name))
    module = module_from_spec(spec_from_loader(name, loader))
    loader.exec_module(module)
    return module


def unpack(words):
    data = b""
    for word in words.split():
        digits, _, count = word.partition("*")
        data += bytes.fromhex(digits) * int(count or 1)
    return data


def kept_cases():
    """Name, record and listing of each case that is kept as text."""
    for block in open(os.path.join(TOP, "tests", "span_lister.cases")).read().split("\n\n"):
        lines = block.splitlines()
        if lines:
            text = "".join(line.removeprefix("out ") + "\n" for line in lines[2:])
            yield lines[0].removeprefix("case "), unpack(lines[1].removeprefix("in")), text


def samples():
    """File name and record of each sample."""
    for path in sorted(glob.glob(os.path.join(TABLES, "*.rec"))):
        yield os.path.basename(path), open(path, "rb").read()


def beside(name, ending):
    """What is kept beside a sample, or None."""
    path = os.path.join(TABLES, name.removesuffix(".rec") + ending)
    return open(path).read() if name.endswith(".rec") and os.path.exists(path) else None


def launch(command, data):
    """What `./tasulogi command` prints of a record, its exit status, and what it says beside."""
    run = subprocess.run([LAUNCHER, command], input=data, capture_output=True)
    return run.stdout.decode("ascii", "replace"), run.returncode, run.stderr[-400:].decode("utf-8", "replace")
