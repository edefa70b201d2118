"""What a run of the tests was asked for, by the words of tools/run.py; and the folders that they look into."""
import os
from dataclasses import dataclass
from typing import Optional

TOOLS = os.path.dirname(os.path.dirname(os.path.realpath(__file__)))
TOP = os.path.dirname(TOOLS)
BUILT = f"{TOP}/crates/tc_cli/out/tc_cli"  # what `rt` builds here
KEPT = f"{TOP}/dist/x86_64-linux-gnu/tcdesk"  # the program of these sources for machines without a toolchain


@dataclass
class Asked:
    """The program that is run; from which seed on, and how many: None where the entry decides, which then also looks whether its scripts met all that
    they have to meet; and whether each cell that was met is told."""
    program: str = BUILT
    seed: Optional[int] = None
    count: Optional[int] = None
    cells: bool = False

    @property
    def is_whole(self) -> bool:
        """Whether a test runs all that it has, so that it can look for what was hardly met."""
        return self.seed is None and self.count is None

    def seed_or(self, seed: int) -> int:
        """The seed that was asked for, or this one."""
        return seed if self.seed is None else self.seed

    def count_or(self, count: int) -> int:
        """How many were asked for, or so many."""
        return count if self.count is None else self.count


ASKED = Asked()
