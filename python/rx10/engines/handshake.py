"""How a place and the door of a job prove to each other that they know the job's token, before either believes anything that the other says.

    place                                   door
    hello, with a nonce       ------------>
                              <------------ challenge, with a nonce
    proof of the place        ------------>
                              <------------ verdict, with the proof of the door

A proof is an HMAC-SHA-256, keyed with the token, over the prover's role, the hello and the challenge. So the token is never sent, a proof is
good for one connection, and nobody can hand back the proof that he was given. The key of the session is made in the same way under a third
role, and seals all frames that follow (`wire.Seal`). All four messages have a fixed size, and none of them is pickled.
"""

from __future__ import annotations

import enum
import hmac
import os
import secrets
import socket
import struct
from typing import NamedTuple

from ..version import VERSION

TOKEN = 16                      # bytes
NONCE = 32
PROOF = 32
MAGIC = b"rx10-2\r\n"           # of this handshake; another version has another one
CHALLENGE = struct.Struct(f"!8s40s{NONCE}s")
VERDICT = struct.Struct(f"!B{PROOF}s")
NO_PROOF = bytes(PROOF)


class Kind(enum.IntEnum):
    """Which of a place's two connections it is."""

    LINE = 1                    # carries the job's messages
    LIFE = 2                    # carries nothing: the two kernels ask each other whether they are there


class Answer(enum.IntEnum):
    """What the door answers to a proof."""

    WELCOME = 0
    WRONG_TOKEN = 1
    NOT_WANTED = 2
    NO_TLS = 3


class Hello(NamedTuple):
    """What a newcomer says of itself. `session` names the line to which a LIFE belongs, and is zeros for a LINE."""

    kind: int
    number: int                 # by which the engine knows the place, where it gave it one
    process: int
    session: bytes
    host: bytes
    version: bytes              # of Python and rx10
    nonce: bytes

    def pack(self) -> bytes:
        """The hello as bytes."""
        return MAGIC + HELLO.pack(*self)


HELLO = struct.Struct(f"!BII16s64s40s{NONCE}s")     # without the magic
HELLO_SIZE = len(MAGIC) + HELLO.size


def read_hello(data: bytes) -> Hello:
    """The hello that these bytes are."""
    return Hello(*HELLO.unpack(data[len(MAGIC):]))


def make_hello(kind: Kind, number: int, session: bytes = bytes(16)) -> bytes:
    """The hello of this process, with a fresh nonce."""
    host = socket.gethostname().encode("utf-8", "replace")[:64]
    return Hello(kind, number, os.getpid(), session, host, VERSION.encode()[:40], secrets.token_bytes(NONCE)).pack()


def make_challenge() -> bytes:
    """The door's answer to a hello, with a fresh nonce."""
    return CHALLENGE.pack(MAGIC, VERSION.encode()[:40], secrets.token_bytes(NONCE))


class Talk:
    """What was said by both up to now, and what each has to prove over it."""

    def __init__(self, token: bytes, hello: bytes, challenge: bytes) -> None:
        self._token, self._said = token, hello + challenge

    def _mac(self, role: bytes) -> bytes:
        return hmac.digest(self._token, role + b"\0" + self._said, "sha256")

    def of_place(self) -> bytes:
        """The proof that the place gives."""
        return self._mac(b"rx10 place")

    def of_door(self) -> bytes:
        """The proof that the door gives."""
        return self._mac(b"rx10 door")

    def key(self) -> bytes:
        """The key of the session."""
        return self._mac(b"rx10 session")


def session_of(key: bytes) -> bytes:
    """The name of a session, which tells nothing of its key."""
    return hmac.digest(key, b"rx10 life", "sha256")[:16]


def text_of(field: bytes) -> str:
    """A field of a hello as text."""
    return field.rstrip(b"\0").decode("utf-8", "replace")
