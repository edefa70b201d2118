#!/usr/bin/env python3
"""The login of deploy/nginx before a served desk: the files of this folder as they stand, but for the ports and the folders that they name.

    deploy/nginx/login_test.py [--program PATH]

A real nginx listens on 127.0.0.1 with a certificate of its own. `login_names` asks by password and by certificate, in another's name in many spellings,
and from pages of other sites. `login_bodies` sends all bodies of tools/generate through the login and to a second desk without one, which have to answer
alike; a stand-in for the desk tells which bytes come to it. `login_busy` has many posts at the same moment, peers that stall, and a desk that is stopped
or cut. `login_guard` gives wrong passwords, reads the logs, and sends conditions along. `login_rights` tries each act by each role, and the countersign
in many ways. `login_shown` shows a real browser a page of another site, and runs the commands of the README. What could not be tried is told in a line
`not tried: ..`; the last line is `N passed, N failed`.
"""
import argparse
import os
import shutil
import sys
import tempfile
import time
from http.client import HTTPException
from typing import Callable, Optional, Sequence

sys.path.append(f"{os.path.dirname(os.path.realpath(__file__))}/../../tools")

from login_bodies import listed, sent, spelled  # noqa: E402
from login_busy import at_once, faults, posted, stalls, stopped  # noqa: E402
from login_guard import conditions, heads, logged, slowed, waits  # noqa: E402
from login_names import board, certificates, logins, others, paths, sites  # noqa: E402
from login_peer import MODULE, Proxy, certificate_files, password_files  # noqa: E402
from login_rights import roles, second_person, signatures  # noqa: E402
from login_shown import browsers, readme  # noqa: E402
from run import program_of  # noqa: E402
from tests.http_cases import Cases  # noqa: E402
from tests.http_peer import Fault, Server, in_time  # noqa: E402
from tests.runs import quick_folder  # noqa: E402


def passwords(cases: Cases, folder: str) -> None:
    """The cases of a login by password before one desk."""
    password_files(folder)
    with Server(cases.program, folder, "desk.db", None) as server, Proxy(folder, "tcdesk-password", server.port) as proxy:
        logins(cases, proxy)
        sites(cases, proxy, others(cases, proxy))
        paths(cases, proxy, server.port)
        board(cases, proxy, server.port)
        at_once(cases, proxy)
        stalls(cases, proxy)


def lists(cases: Cases, folder: str) -> None:
    """The bodies of the lists before a desk of their own."""
    password_files(folder)
    with Server(cases.program, folder, "desk.db", None) as server, Proxy(folder, "tcdesk-password", server.port) as proxy:
        listed(cases, folder, proxy, server.port)


def by_certificate(cases: Cases, folder: str) -> None:
    """The cases of a login by certificate."""
    certificate_files(folder)
    certificates(cases, folder)


GROUPS: Sequence[tuple[str, Callable[[Cases, str], None]]] = (
    ("logins, names and sites", passwords), ("the bodies of all lists", lists), ("steps in many spellings", spelled), ("a desk that is stopped", stopped),
    ("the manual's function", posted), ("what comes to the desk", sent), ("a desk that fails", faults), ("certificates", by_certificate),
    ("wrong passwords", slowed), ("conditions of a post", conditions), ("what the log says", logged), ("the head of each answer", heads),
    ("a page that waits", waits), ("roles", roles), ("the second person of a step", second_person), ("signatures", signatures), ("a browser", browsers),
    ("the commands of the README", readme))


def lacks() -> Optional[str]:
    """What is not installed that is needed here."""
    for name in ("nginx", "openssl"):
        if not shutil.which(name):
            return f"{name} is not installed"
    return None if os.path.exists(MODULE) else "njs, the module of nginx, is not installed (Debian: libnginx-mod-http-js)"


def main() -> int:
    """Tries all groups."""
    parser = argparse.ArgumentParser(description=__doc__, formatter_class=argparse.RawDescriptionHelpFormatter)
    parser.add_argument("--program", metavar="PATH", help="the program that is run")
    program = program_of(parser.parse_args().program)
    os.environ["PATH"] += ":/usr/sbin"
    with tempfile.TemporaryDirectory(prefix="login-", dir=quick_folder()) as folder:
        cases = Cases(program, folder)
        if lack := lacks():
            print(f"not tried: {lack}")
        for name, group in () if lack else GROUPS:
            before, began = cases.passed, time.monotonic()
            try:
                in_time(lambda: group(cases, cases.folder()))
            except (Fault, OSError, HTTPException) as fault:
                cases.failed += 1
                print(f"FAILED {name}: {fault!r}")
            print(f"{name}: {cases.passed - before} passed, in {time.monotonic() - began:.0f} s", flush=True)
        print(f"{cases.passed} passed, {cases.failed} failed")
        return int(cases.failed > 0)

if __name__ == "__main__":
    sys.exit(main())
