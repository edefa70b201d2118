"""Types: whether mypy finds that all signatures of tools/ and deploy/ have them, and that they fit. It is not tried where mypy is not installed."""
import shutil
import subprocess
import unittest

from tests.asked import TOP


class Types(unittest.TestCase):
    """All of tools/ and deploy/, by tools/mypy.ini."""

    def test_types(self) -> None:
        """No line tells a fault."""
        if not shutil.which("mypy"):
            self.skipTest("mypy is not installed (Debian: mypy)")
        ran = subprocess.run(["mypy", "--config-file", "tools/mypy.ini", "tools", "deploy"], cwd=TOP, capture_output=True, text=True, check=False)
        print(f"types: {ran.stdout.strip()[-200:]}")
        self.assertEqual(0, ran.returncode, ran.stdout + ran.stderr)
