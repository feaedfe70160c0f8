"""A conversation with a desk: requests as lines, each with its reply, over one connection or over several in turn."""
import math
import socket
import subprocess
from typing import Callable, List, Optional, Sequence, Type, TypeVar

from .channel import Channel, Deadline, connected
from .faults import BadWord, Denied, DeskError, Lost, NotADesk, NotSent, Refused, shortened
from .replies import count_of, role_of
from .values import Reply, Whoami
from .words import check_payload, is_visible, line_bytes

MOST_LINES = 4096  # that a desk answers on one connection
Kind = TypeVar("Kind", bound="Conversation")


class Conversation:
    """What `Desk` stands on. It isn't for several threads at once."""

    def __init__(
            self, channel: Channel, reply_limit: float, run_limit: float,
            new_channel: Optional[Callable[[], Channel]] = None):
        self.channel, self.reply_limit, self.run_limit = channel, reply_limit, run_limit
        self.answered, self.gone = 0, None
        self.new_channel, self.opened = new_channel, None

    @classmethod
    def connect(
            cls: Type[Kind], host: str, port: int, connect_limit: float = 10.0, reply_limit: float = 60.0,
            reconnects: bool = False) -> Kind:
        """Connects to `mpw serve`. The limits are in seconds; a reply has a second more for each 16 KiB of it. A desk
        answers MOST_LINES lines on one connection. With `reconnects` the next line then goes over a new one."""

        def channel():
            return Channel(connected(host, port, connect_limit))

        return cls(channel(), reply_limit, reply_limit, channel if reconnects else None)

    @classmethod
    def over(
            cls: Type[Kind], command: Sequence[str], reply_limit: float = 60.0, run_limit: float = 3600.0, **popen) -> Kind:
        """Starts `mpw script` by the words of its command line. It answers `run` when that is finished, which may take
        run_limit seconds."""
        ours, its = socket.socketpair()
        try:
            process = subprocess.Popen(command, stdin=its, stdout=its, **popen)
        except OSError as error:
            ours.close()
            raise Lost(f"{command[0]}: {error.strerror}") from None
        finally:
            its.close()
        return cls(Channel(ours, process), reply_limit, run_limit)

    def __enter__(self):
        return self

    def __exit__(self, *_):
        self.hang_up()

    def hang_up(self) -> None:
        """Ends the connection, and with it the session."""
        self.leave(Lost("the connection was ended here"))

    def leave(self, error):
        """Closes the connection for an error, which each later request raises too."""
        if self.gone is None:
            self.gone = error
            self.channel.close()
        return error

    # Asking.

    def tell(self, line: str, payload: Optional[bytes] = None, limit: Optional[float] = None) -> Reply:
        """Sends a line as it is; `submit CELL TOP` and `deck` with their payload's length, and then the payload. Returns the
        reply as it came."""
        check_payload(line, payload)
        data = line_bytes(line if payload is None else f"{line} {len(payload)}") + b"\n" + (payload or b"")
        if self.gone is not None:
            raise NotSent(str(self.gone))
        self.need_lines()
        try:
            reply = self.reply_to(data, limit or self.reply_limit)
        except BaseException as error:
            is_known = isinstance(error, DeskError)
            self.leave(error if is_known else Lost("the connection was left in the middle of a reply"))
            raise
        self.note_session(line, reply)
        return reply

    @property
    def lines_left(self):
        """How many more lines can be asked: as many as one likes if new connections are made for them."""
        return math.inf if self.new_channel is not None else MOST_LINES - self.answered

    def need_lines(self):
        """Goes over to a new connection if the desk answers no more lines on this one. The last line of a session asks for
        its roles."""
        if self.new_channel is not None and self.answered >= MOST_LINES - (self.opened is not None):
            self.reconnect()
        elif self.answered >= MOST_LINES:
            raise self.leave(NotSent(f"a desk answers {MOST_LINES} lines on one connection, and has answered them"))

    def note_session(self, line, reply):
        """Remembers how the session was opened, for a new connection."""
        words = line.split(" ")
        if reply.is_accepted and words[0] in ("open", "close"):
            self.opened = words if words[0] == "open" else None

    def reconnect(self):
        """Goes on over a new connection, with the session and its active roles. The old one is asked which these are, since
        somebody else may have ended the session or taken a role."""
        new_channel, self.new_channel = self.new_channel, None
        step = "whoami"
        try:
            lines = self.session_lines()
            self.channel.close()
            self.channel, self.answered, self.opened = new_channel(), 0, None
            for words in lines:
                step = " ".join(words[:2])
                self.done(*words)
        except (Lost, Denied, Refused) as error:
            fault = error if isinstance(error, Lost) else f"{step}: {error}"
            self.gone = NotSent(f"a desk answers {MOST_LINES} lines on one connection, and a new one failed: {fault}")
            raise self.gone from None
        except BaseException:
            self.leave(Lost("the connection was left before a new one was there"))
            raise
        finally:
            self.new_channel = new_channel
            if self.gone is not None:
                self.channel.close()

    def session_lines(self):
        """The words of the requests that open the present session again."""
        if self.opened is None:
            return []
        try:
            return [self.opened, *(["activate", role] for role in self.whoami().active)]
        except Denied:
            return []

    def reply_to(self, data, seconds):
        """Sends a request, and reads its reply."""
        channel = self.channel
        if channel.lines or channel.begun:
            raise NotADesk("the other end is no desk: it sent more than it was asked for")
        channel.send(data, seconds)
        deadline = Deadline(seconds)
        first_line = channel.line(deadline)
        try:
            follow = count_of(first_line)
        except (Denied, Refused):
            follow = 0
        self.answered += 1
        return Reply(first_line, [channel.line(deadline) for _ in range(follow)])

    def ask(self, *words: str, payload: Optional[bytes] = None, limit: Optional[float] = None) -> List[str]:
        """Sends a request by its words, and returns the lines of its reply. Raises Denied or Refused if it isn't accepted."""
        if not all(map(is_visible, words)):
            raise BadWord(f"{shortened(str(words[0]))}: the words of a request have visible ASCII characters alone")
        reply = self.tell(" ".join(words), payload, limit)
        count_of(reply.first_line)
        return reply.lines

    def listed(self, parser, *words, payload=None, limit=None):
        """What a parser reads in each line of a reply."""
        lines = self.ask(*words, payload=payload, limit=limit)
        try:
            return [parser(line) for line in lines]
        except ValueError as error:
            fault = f"the other end is no desk: it answered {words[0]} by {shortened(str(error))}"
            raise self.leave(NotADesk(fault)) from None

    def told(self, parser, *words, payload=None, limit=None):
        """What a parser reads in the one line of a reply."""
        found = self.listed(parser, *words, payload=payload, limit=limit)
        if len(found) != 1:
            raise self.leave(NotADesk(f"the other end is no desk: it answered {words[0]} by {len(found)} lines"))
        return found[0]

    def done(self, *words, payload=None):
        """Sends a request that is answered without lines."""
        lines = self.ask(*words, payload=payload)
        if lines:
            raise self.leave(NotADesk(f"the other end is no desk: it answered {words[0]} by {shortened(lines[0])}"))

    def whoami(self) -> Whoami:
        """The session's user with its roles."""
        (kind, user), *roles = self.listed(role_of, "whoami") or [("", "")]
        if kind != "user" or any(kind == "user" for kind, _ in roles):
            raise self.leave(NotADesk("the other end is no desk: whoami has one user in its reply"))
        active, authorized = (tuple(it for kind, it in roles if kind == wanted) for wanted in ("active", "authorized"))
        return Whoami(user, active, authorized)
