#!/usr/bin/python3
"""The parts of a replica, tried without etcd: in its place stands one in this process, which fails now and then, before it did what was asked or after it.
Then the whole of it, by the short form of trial.py, for three minutes.

    deploy/replica/replica_test.py [--program PATH] [--parts]        --parts: nothing but the parts

The last line of each is `N passed, N failed`.
"""
import argparse
import importlib.util
import io
import os
import subprocess
import sys
import unittest
from contextlib import redirect_stderr

HERE = os.path.dirname(os.path.realpath(__file__))
sys.dont_write_bytecode = True
sys.path[1:1] = [f"{HERE}/../../tools"]

from run import program_of  # noqa: E402
from tests.asked import ASKED  # noqa: E402

PARTS = ("log_test", "judge_test", "machine_test", "passed_over_test", "entrance_test", "real_test")


def main() -> int:
    """Runs all tests."""
    parser = argparse.ArgumentParser(prog="replica_test.py", description=__doc__, formatter_class=argparse.RawDescriptionHelpFormatter)
    parser.add_argument("--program", metavar="PATH", help="the program that is run")
    parser.add_argument("--parts", action="store_true", help="the parts alone")
    asked = parser.parse_args()
    if not importlib.util.find_spec("aiohttp"):
        print("not tried: python3-aiohttp is not installed (Debian: python3-aiohttp)")
        return 0
    ASKED.program = program_of(asked.program)
    with redirect_stderr(io.StringIO()):  # where the machines say something
        ran = unittest.TextTestRunner(sys.__stderr__).run(unittest.defaultTestLoader.loadTestsFromNames(PARTS))
    failed = len(ran.failures) + len(ran.errors)
    print(f"{ran.testsRun - failed} passed, {failed} failed", flush=True)
    if asked.parts:
        return int(failed > 0)
    whole = subprocess.run([sys.executable, f"{HERE}/trial.py", "--short", "--seconds", "180", "--program", ASKED.program], check=False)
    return int(failed > 0 or whole.returncode > 0)


if __name__ == "__main__":
    sys.exit(main())
