"""Headers of the PROXY protocol, as HAProxy sends them before the lines of a client with a certificate."""

from __future__ import annotations

import struct

SIGNATURE = b"\r\n\r\n\0\r\nQUIT\n"


def value(kind: int, content: bytes) -> bytes:
    return struct.pack("!BH", kind, len(content)) + content


def header(name: bytes, verify: int = 0, bits: int = 0x07, command: int = 0x21) -> bytes:
    """A PROXY header of version 2 of a client with a certificate of this name."""
    tls = value(0x20, struct.pack("!BI", bits, verify) + value(0x21, b"TLSv1.3") + value(0x22, name))
    rest = bytes(12) + tls
    return SIGNATURE + struct.pack("!BBH", command, 0x11, len(rest)) + rest
