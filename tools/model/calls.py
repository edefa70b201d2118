"""A plain desk that is asked under numbers: what a caller asks under a number is done once. The reply of an act or a load that was accepted is kept for good,
and is the answer to each later call of that person under that number, whatever that asks. A refusal is not kept, and neither is what a question is
answered. It is written from the definitions, and asks no server.
"""
from typing import Optional, Union

from model.desk import QUESTIONS, Desk
from model.http import Acts, Asked, Asks, Called, Refused, Shows, Tells, fault_of, page_response, refused_response, reply_response
from model.rows import Reply
from model.wall import board_page


class Calls:
    """A plain desk, and the replies that it keeps, each by its caller and the number."""

    def __init__(self, desk: Desk) -> None:
        """Goes on from the replies that the desk has kept by now."""
        self.desk, desk.replies = desk, list(desk.replies)
        self.kept = {(it.person, it.number): it.body for it in desk.replies}

    def kept_for(self, called: Called) -> Optional[list[str]]:
        """The lines that are kept for a caller under its number; none where nothing is."""
        body = self.kept.get((called.by, called.number))
        return body.split("\n")[:-1] if body else None

    def response(self, asked: Asked) -> bytes:
        """The bytes of the response to what is asked."""
        if isinstance(asked, Refused):
            return refused_response(asked)
        return page_response(board_page(self.desk, False)) if isinstance(asked, Shows) else reply_response(self.reply(asked))

    def reply(self, asked: Union[Asks, Tells, Called]) -> list[str]:
        """What the desk replies to what is asked."""
        if isinstance(asked, Tells):
            return [f"opening {self.desk.stood} at {self.desk.since}"]
        if isinstance(asked, Asks):
            return self.desk.acts("zed", 0, asked.act)
        return self.kept_for(asked) or self.anew(asked)

    def anew(self, called: Called) -> list[str]:
        """What the desk replies to a call for which nothing is kept. The reply is kept, where an act or a load was accepted."""
        fault = fault_of(called)
        if fault:
            return [fault.line]
        assert called.moment is not None, "a moment is there, where nothing is wrong of it"
        if isinstance(called, Acts):
            reply = self.desk.acts(called.by, called.moment, called.act)
        else:
            reply = self.desk.loads(called.by, called.moment, called.kind, called.name, called.csv.encode("utf-8"))
        if not reply[0].startswith("refused ") and self.desk.act not in QUESTIONS:
            self.keep(called, reply)
        return reply

    def keep(self, called: Called, reply: list[str]) -> None:
        """Keeps a reply: its lines, each ended by LF."""
        body = "".join(f"{it}\n" for it in reply)
        self.kept[called.by, called.number] = body
        self.desk.replies.append(Reply(called.by, called.number, body))
