"""Lines for the journal, and words to systemd: by a datagram to the socket that it names, the only one that is ever used."""

import os
import socket
import sys
from contextlib import suppress

from ..content.charset import printable

PRIORITIES = {"error": 3, "warning": 4, "notice": 5, "info": 6}


def say(priority: str, text: str) -> None:
    """A line on standard error. The journal takes the priority off its front."""
    mark = f"<{PRIORITIES[priority]}>" if "JOURNAL_STREAM" in os.environ else "rds-monitor watch: "
    with suppress(OSError):  # nobody reads it: the watch goes on
        print(f"{mark}{printable(text)}", file=sys.stderr, flush=True)


def notify(text: str) -> None:
    """Tells systemd, if it started us and wants to know."""
    address = os.environ.get("NOTIFY_SOCKET", "")
    if address[:1] not in ("/", "@"):
        return
    # Of a fault it will say itself that it heard nothing.
    with suppress(OSError), socket.socket(socket.AF_UNIX, socket.SOCK_DGRAM | socket.SOCK_CLOEXEC) as sock:
        sock.sendto(text.encode("ascii"), "\0" + address[1:] if address[0] == "@" else address)
