"""What carries frames, reports and control words: a list; or a ring, into which a put drops the oldest where it is full. It is written from the
requirements, and asks the program nothing.
"""
from typing import Optional, TypeVar

Item = TypeVar("Item")


class Carrier(list[Item]):
    """What is in flight, the oldest first: no more than `size`, where there is one. `dropped` counts what a put pushed out."""

    def __init__(self, size: Optional[int] = None) -> None:
        """Nothing is in flight."""
        super().__init__()
        self.size, self.dropped = size, 0

    def puts(self, *items: Item) -> None:
        """Each of these is put behind the others."""
        for item in items:
            if len(self) == self.size:
                del self[0]
                self.dropped += 1
            self.append(item)

    def takes(self) -> Item:
        """The oldest is taken, and no other leaves."""
        return self.pop(0)

    def loses(self, place: int) -> bool:
        """The item at this place is lost, and no other. Answers whether there was one."""
        is_there = place < len(self)
        if is_there:
            del self[place]
        return is_there
