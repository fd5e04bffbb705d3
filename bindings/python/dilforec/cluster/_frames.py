"""Numbered frames of bytes over a socket: what both ends of a connection beside Dask's have in common."""
from __future__ import annotations

import asyncio
import socket
import struct
from typing import Union, cast

Data = Union[bytes, memoryview]

# What comes before the bytes of a frame: its number, and how many they are.
HEAD = struct.Struct("<QI")
# The most bytes of a frame. What is longer goes by Dask's rpc.
LONGEST = 1 << 28
# A peer that is gone without a word is given up: seconds of silence before it is looked for, seconds between the looks,
# how many looks there are, and the milliseconds that it has to take what it is sent.
KEPT_ALIVE = {"TCP_KEEPIDLE": 10, "TCP_KEEPINTVL": 5, "TCP_KEEPCNT": 4, "TCP_USER_TIMEOUT": 30_000}


class Frames(asyncio.Protocol):
    """One end of a connection. `received` gets each frame whole, in the order in which they were sent.

    A frame of more than `limit` bytes ends the connection before they are read.
    """

    limit = LONGEST
    _transport: asyncio.Transport

    def __init__(self) -> None:
        self._is_open = False
        self._chunks: list[bytes] = []
        # Bytes that are here, and how many it takes for one more frame, as far as is known.
        self._size, self._wanted = 0, HEAD.size

    def connection_made(self, transport: asyncio.BaseTransport) -> None:
        self._transport, self._is_open = cast(asyncio.Transport, transport), True
        peer = transport.get_extra_info("socket")
        peer.setsockopt(socket.SOL_SOCKET, socket.SO_KEEPALIVE, 1)
        for name, value in KEPT_ALIVE.items():
            if hasattr(socket, name):
                peer.setsockopt(socket.IPPROTO_TCP, getattr(socket, name), value)

    @property
    def is_open(self) -> bool:
        """Whether it was made, and hasn't ended."""
        return self._is_open and not self._transport.is_closing()

    def close(self) -> None:
        """Ends it now. What wasn't sent yet is lost."""
        if self._is_open:
            self._is_open = False
            self._transport.abort()

    def send(self, number: int, data: bytes) -> None:
        self._transport.writelines([HEAD.pack(number, len(data)), data])

    def received(self, number: int, data: memoryview) -> None:
        """Takes a frame."""
        raise NotImplementedError

    def data_received(self, data: bytes) -> None:
        self._chunks.append(data)
        self._size += len(data)
        if self._size >= self._wanted:
            self._take(memoryview(b"".join(self._chunks)))

    def _take(self, data: memoryview) -> None:
        """Takes the frames that are whole, and keeps what comes after them."""
        begin, self._wanted = 0, HEAD.size
        while self._size - begin >= HEAD.size and self._is_open:
            number, length = HEAD.unpack_from(data, begin)
            end = begin + HEAD.size + length
            if length > self.limit:
                self.close()
            elif end > self._size:
                self._wanted = end - begin
                break
            else:
                self.received(number, data[begin + HEAD.size:end])
                begin = end
        self._size -= begin
        self._chunks = [bytes(data[begin:])] if self._size else []
