"""The link: the FOP on the ground, the FARM on board, and what carries frames up, and reports and control words down. It is written from the
requirements, and asks the program nothing.
"""
from typing import Optional, Union

from model.board import Report
from model.carrier import Carrier
from model.facts import CHANNEL, FIRST_K, WINDOW, Refusal
from model.farm import Farm, Frame, Word
from model.fop import Fop, Indication
from model.refused import need

Item = Union[Word, Report]


class Link:
    """FOP and FARM with what is in flight; `is_clean` is the premise of the desk's promise: each start so far was a good one."""

    def __init__(self, window: int = WINDOW, channel: int = CHANNEL, ring: Optional[int] = None) -> None:
        """New, with this window of the FARM and this channel; two lists carry, or two rings of this size."""
        self.fop, self.farm = Fop(min(FIRST_K, window // 2)), Farm(window, channel)
        self.up: Carrier[Frame] = Carrier(ring)
        self.down: Carrier[Item] = Carrier(ring)
        self.is_clean = True

    def initiate(self, kind: str, value: int = 0) -> None:
        """The service is to begin: a start is good where nothing is in flight, and, where no check comes first, both sides agree."""
        is_good = not self.up and not self.down
        if kind == "none":
            is_good = is_good and self.fop.vs == self.farm.vr and not any(self.farm.flags.values())
        self.fop.initiate(kind, value)
        self.is_clean = self.is_clean and is_good

    def set_k(self, value: int) -> None:
        """The FOP's window: at most half of the FARM's."""
        need(value <= self.farm.window // 2, Refusal.BAD_DIRECTIVE)
        self.fop.k = value

    def told(self) -> list[Indication]:
        """What the FOP said since the last time; its frames go up."""
        said, frames = self.fop.take()
        self.up.puts(*frames)
        return said

    def lines(self) -> list[str]:
        """How FOP, FARM and link stand, as it is printed."""
        return [self.fop.line(), self.farm.line(), f"link up {len(self.up)} down {len(self.down)} premise {self.premise()}"]

    def premise(self) -> str:
        """The word for the premise."""
        return "kept" if self.is_clean else "broken"
