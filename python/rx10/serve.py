"""A place that something else starts:  RX10_TOKEN=.. python -m rx10.serve HOST PORT

It ends with the job. `--help` tells the options and what each exit status means.
"""

from __future__ import annotations

import argparse
import enum
import os
import socket
import ssl
import sys
import traceback
from typing import NoReturn, Optional

from . import place
from .engines.door import Impostor, Knocked, NotLetIn, knock
from .engines.launched import token
from .engines.tls import place_context
from .version import VERSION

PATIENCE = 60                   # seconds in which the driver has to come, where `--wait` says nothing else


class Status(enum.IntEnum):
    """How a place ends."""

    OVER = 0
    FAULT = 1
    WORDS = 2
    NO_DRIVER = 3
    NOT_LET_IN = 4
    IMPOSTOR = 5
    TLS = 6
    VERSION = 7
    ENDED = 8
    CUT = 9
    FORGED = 10


MEANING = {
    Status.OVER: "the job is over",
    Status.FAULT: "rx10 has a fault: its traceback is on standard error",
    Status.WORDS: "the words, RX10_TOKEN or a file of --tls are wrong",
    Status.NO_DRIVER: "no driver answered at HOST PORT within the time of --wait",
    Status.NOT_LET_IN: "the driver did not let this place in: another token, or no TLS where it wants TLS",
    Status.IMPOSTOR: "who listens at HOST PORT does not prove that he knows the token",
    Status.TLS: "TLS was not agreed upon, such as where the driver has another certificate",
    Status.VERSION: "the driver has another version of Python or rx10",
    Status.ENDED: "the job was ended before its end: it failed, was interrupted, or needs no more places",
    Status.CUT: "the connection ended: the driver died, this place was reported dead, or the network was cut",
    Status.FORGED: "somebody changed what travels between the driver and this place"}


def tell(text: str) -> None:
    """Writes a line to standard error."""
    sys.stderr.write(f"rx10: {text}\n")
    sys.stderr.flush()


def leave(status: Status, text: str = "") -> NoReturn:
    """Ends this process, also where a task still runs."""
    if text:
        tell(text)
    sys.stdout.flush()
    sys.stderr.flush()
    os._exit(status)


def words() -> argparse.ArgumentParser:
    """What may stand on the command line."""
    table = "\n".join(f"  {status:2}  {MEANING[status]}" for status in Status)
    parser = argparse.ArgumentParser(
        prog="python -m rx10.serve", description="Is a place of the job whose driver listens at HOST PORT, until the job is over.",
        formatter_class=argparse.RawDescriptionHelpFormatter,
        epilog=f"RX10_TOKEN has the 32 hexadecimal digits that the driver's RX10_TOKEN has.\n\nexit status:\n{table}")
    parser.add_argument("host", metavar="HOST")
    parser.add_argument("port", metavar="PORT", type=int)
    parser.add_argument("-v", "--verbose", action="store_true", help="say on standard error what this place does")
    parser.add_argument("--tls", metavar="FILE", help="encrypt, and trust only the certificates in this file (PEM)")
    parser.add_argument("--wait", metavar="SECONDS", type=float, default=PATIENCE,
                        help="how long the driver may take to answer; %(default)s if left out")
    return parser


def let_in(host: str, port: int, secret: bytes, tls: Optional[ssl.SSLContext], wait: float) -> Knocked:
    """The line to the driver. Ends this process where there is none."""
    try:
        return knock(host, port, secret, tls=tls, wait=wait)
    except NotLetIn as fault:
        leave(Status.NOT_LET_IN, str(fault))
    except Impostor as fault:
        leave(Status.IMPOSTOR, f"{fault}: {host}:{port} is not believed")
    except ssl.SSLError as fault:
        leave(Status.TLS, f"TLS was not agreed upon with {host}:{port}: {fault}")
    except (OSError, OverflowError) as fault:
        leave(Status.NO_DRIVER, f"no driver answered at {host}:{port} ({fault}); this place waits {wait:g} s for one")


def serve(knocked: Knocked, verbose: bool) -> None:
    """Is a place, and ends this process."""
    here = place.serve(knocked.line, by_value=True, say=tell if verbose else None)
    other = f"; the driver runs {knocked.driver}, and this place {VERSION}" if knocked.driver != VERSION else ""
    if here.closed and not here.failed:
        leave(Status.OVER, str(here.closed) if verbose else "")
    if here.closed:
        leave(Status.VERSION if other else Status.ENDED, str(here.closed))
    if knocked.line.forged:
        leave(Status.FORGED, f"{MEANING[Status.FORGED]}: nothing more of it is read")
    leave(Status.CUT, f"the line to the driver ended{other}")


def main() -> None:
    """Serves one job."""
    said = words().parse_args()
    try:
        secret = token()
        tls = place_context(said.tls) if said.tls else None
    except (OSError, ValueError) as fault:
        leave(Status.WORDS, str(fault))
    if said.verbose:
        tell(f"process {os.getpid()} of {socket.gethostname()} asks the driver at {said.host}:{said.port}, for {said.wait:g} s at most")
    knocked = let_in(said.host, said.port, secret, tls, said.wait)
    if said.verbose:
        tell("the driver has proved that it knows the token, and has let this place in")
    serve(knocked, said.verbose)


if __name__ == "__main__":
    try:
        main()
    except Exception:
        traceback.print_exc()
        leave(Status.FAULT)
