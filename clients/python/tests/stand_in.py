"""Other ends for the client: a desk made of the model, and ends that aren't desks, each on a port of loopback."""
import os
import socket
import sys
import threading
from contextlib import contextmanager, suppress

TOP = os.path.dirname(os.path.dirname(os.path.dirname(os.path.dirname(os.path.abspath(__file__)))))
sys.path.insert(0, os.path.join(TOP, "model"))

import desk as model  # noqa: E402
from forms import request_of  # noqa: E402
from policy import digest_of  # noqa: E402
from replies import Refused  # noqa: E402

OFFICER, TOKEN = "root", "abc"


class StandIn:
    """A desk that serves connections as the model answers them: line by line, each with its own session. A run is
    finished at once."""

    def __init__(self, officer=OFFICER, digest=digest_of(TOKEN.encode())):
        self.desk = model.Desk(officer, digest)
        self.lock = threading.Lock()

    def serve(self, end):
        """Answers the lines of a connection."""
        session = None
        with end, end.makefile("rb") as given, end.makefile("wb") as told:
            for _ in range(model.MOST_LINES):
                try:
                    reply, session = self.answer(given, session)
                except Refused as ending:
                    told.write(f"{ending.first_line}\n".encode())
                    break
                if reply is None:
                    break
                told.write("".join(f"{line}\n" for line in reply).encode("latin1"))
                told.flush()

    def answer(self, given, session):
        """The reply to the next line, and the session after it; a line that ends the connection raises its refusal."""
        line = given.readline(model.LONGEST_LINE + 1)
        if not line:
            return None, session
        if not line.endswith(b"\n") and len(line) > model.LONGEST_LINE:
            raise Refused("long")
        try:
            request = request_of(line.rstrip(b"\n"))
        except Refused as answer:
            if answer.word != "form":
                raise
            return [answer.first_line], session
        payload = None if request.length is None else given.read(request.length)
        if payload is not None and len(payload) < request.length:
            raise Refused("cut")
        with self.lock:
            policy = self.desk.policy
            policy.session = session
            policy.trim()  # what other connections changed
            return self.desk.ask(request, payload), policy.session


@contextmanager
def listening(serve):
    """A port on which each connection is served by a function of its socket."""
    server = socket.create_server(("127.0.0.1", 0))

    def accept():
        while True:
            try:
                end, _ = server.accept()
            except OSError:
                return
            threading.Thread(target=serve, args=(end,), daemon=True).start()

    threading.Thread(target=accept, daemon=True).start()
    try:
        yield server.getsockname()[1]
    finally:
        server.shutdown(socket.SHUT_RDWR)
        server.close()


def saying(*texts, then=lambda end: None):
    """An end that answers each line by the next of these bytes, whatever is asked, and at last does something."""

    def serve(end):
        with suppress(OSError), end, end.makefile("rb") as given:
            for text in texts:
                if not given.readline():
                    return
                end.sendall(text)
            then(end)

    return serve
