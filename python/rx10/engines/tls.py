"""TLS for places that come over a network. The process that made the handshake carries the bytes, since only it can open them.

The driver's process and each place have one thread that carries: between the encrypted connection and a socket pair, whose other end is the
line that a hub or a place has. A carrier reads no further than it can write, so a place that does not read holds up its own line alone.
"""

from __future__ import annotations

import selectors
import socket
import ssl
import threading
from typing import Optional, Tuple, Union

from .. import wire

CHUNK = 1 << 16                 # bytes that are carried at a time, in each direction
Tls = Union[ssl.SSLContext, Tuple[str, str]]


def driver_context(tls: Optional[Tls]) -> Optional[ssl.SSLContext]:
    """What `tls=` of a job means: a context, or the paths of a certificate (with its chain) and its key."""
    if tls is None or isinstance(tls, ssl.SSLContext):
        return tls
    certificate, key = tls
    context = ssl.SSLContext(ssl.PROTOCOL_TLS_SERVER)
    context.load_cert_chain(certificate, key)
    return context


def place_context(trusted: str) -> ssl.SSLContext:
    """For a place that trusts the certificates in this file alone. The driver may have any name and address."""
    context = ssl.SSLContext(ssl.PROTOCOL_TLS_CLIENT)
    context.check_hostname = False
    context.load_verify_locations(trusted)
    return context


class Waits(Exception):
    """Nothing can be read or written now."""


def receive(sock: socket.socket, size: int) -> bytes:
    """Reads what is there, of a socket that does not block. Raises Waits where nothing is."""
    try:
        return sock.recv(size)
    except (BlockingIOError, ssl.SSLWantReadError, ssl.SSLWantWriteError):
        raise Waits from None


def send(sock: socket.socket, data: bytes) -> int:
    """Writes what goes, to a socket that does not block. Raises Waits where nothing does."""
    try:
        return sock.send(data)
    except (BlockingIOError, ssl.SSLWantReadError, ssl.SSLWantWriteError):
        raise Waits from None


class Flow:
    """One direction: what was read and is not yet written."""

    def __init__(self, source: socket.socket, sink: socket.socket) -> None:
        self.source, self.sink, self.held, self.ended = source, sink, b"", False

    def move(self) -> bool:
        """Writes what is held, and reads more. False once the source has ended and all is written, or the sink takes no more."""
        try:
            while True:
                while self.held:
                    self.held = self.held[send(self.sink, self.held):]
                if self.ended:
                    return False
                self.held = receive(self.source, CHUNK)
                self.ended = not self.held
        except Waits:
            return True
        except OSError:
            if self.held:
                return False                                    # the sink has ended
            self.ended = True
            return False


class Carrier:
    """Carries the bytes of one encrypted connection, in a thread of its own."""

    def __init__(self, encrypted: ssl.SSLSocket) -> None:
        self.line, self._near = socket.socketpair()             # `line` is for the hub, or the place
        self._encrypted = encrypted
        for sock in (self._near, encrypted):
            sock.setblocking(False)
            wire.close_in_children(sock)
        self.thread = threading.Thread(target=self._carry, name="rx10 tls", daemon=True)
        self.thread.start()

    def _carry(self) -> None:
        out, back = Flow(self._near, self._encrypted), Flow(self._encrypted, self._near)
        with selectors.DefaultSelector() as selector:
            selector.register(self._near, selectors.EVENT_READ)
            selector.register(self._encrypted, selectors.EVENT_READ)
            while out.move() & back.move():
                # What TLS has opened already is read before this point, so each event is one of the two sockets.
                for sock, flow, other in ((self._near, out, back), (self._encrypted, back, out)):
                    events = (0 if flow.held else selectors.EVENT_READ) | (selectors.EVENT_WRITE if other.held else 0)
                    if sock in selector.get_map():
                        if events:
                            selector.modify(sock, events)
                        else:
                            selector.unregister(sock)
                    elif events:
                        selector.register(sock, events)
                selector.select()
        self._last(out)
        for sock in (self._near, self._encrypted):
            sock.close()

    def _last(self, out: Flow) -> None:
        """What was given to the line before its end still goes out, as far as the other end takes it at once."""
        try:
            self._encrypted.settimeout(2)
            if out.held:
                self._encrypted.sendall(out.held)
            while not out.ended:
                data = receive(self._near, CHUNK)
                if not data:
                    break
                self._encrypted.sendall(data)
            self._encrypted.unwrap()
        except (Waits, OSError, ValueError):
            pass
