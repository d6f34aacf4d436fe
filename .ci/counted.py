"""What the checks share that count the calls of the built program."""
import contextlib
import pathlib
import subprocess
import sys
import tempfile

top = pathlib.Path(__file__).resolve().parent.parent


def program():
    """The first word, or the built program, which the launcher builds where it has to."""
    if len(sys.argv) > 1:
        return sys.argv[1]
    subprocess.run([top / "df1", "replay"], input=b"end\n", stdout=subprocess.DEVNULL, check=True)
    return top / "crates/df1/out/df1"


@contextlib.contextmanager
def counting(source):
    """The environment in which a program's calls go through this C source."""
    with tempfile.TemporaryDirectory() as folder:
        counter = pathlib.Path(folder, "counter.so")
        subprocess.run(["cc", "-x", "c", "-O1", "-shared", "-fPIC", "-", "-o", counter, "-ldl"], input=source, text=True, check=True)
        yield {"LD_PRELOAD": counter}
