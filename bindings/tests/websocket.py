"""The part of a WebSocket's client (RFC 6455) that a test needs to talk with a browser of this
machine: texts, one after another."""
import base64
import os
import socket
import struct

TEXT, CLOSE, PING, PONG = 1, 8, 9, 10
#: What the frames of a client are masked by.
MASK = b"mask"


def _masked(data):
    mask = (MASK * (len(data) // 4 + 1))[:len(data)]
    return (int.from_bytes(data) ^ int.from_bytes(mask)).to_bytes(len(data))


class WebSocket:
    """A connection to a server of this machine."""

    def __init__(self, port, path, longest):
        self.socket = socket.create_connection(("127.0.0.1", port), timeout=longest)
        self.stream = self.socket.makefile("rb")
        key = base64.b64encode(os.urandom(16)).decode()
        lines = [f"GET {path} HTTP/1.1", f"Host: 127.0.0.1:{port}", "Upgrade: websocket",
                 "Connection: Upgrade", f"Sec-WebSocket-Key: {key}",
                 "Sec-WebSocket-Version: 13", "", ""]
        self.socket.sendall("\r\n".join(lines).encode())
        status = self.stream.readline()
        if b" 101 " not in status:
            raise RuntimeError(f"no WebSocket at {path}: {status}")
        while self.stream.readline().strip():
            pass

    def _read(self, length):
        found = self.stream.read(length)
        if len(found) < length:
            raise RuntimeError("the connection has ended")
        return found

    def _frame(self):
        """The next frame: whether its message ends with it, of what kind it is, and what it
        holds."""
        first, length = self._read(2)
        if length == 126:
            length, = struct.unpack(">H", self._read(2))
        elif length == 127:
            length, = struct.unpack(">Q", self._read(8))
        return first >= 128, first % 16, self._read(length)

    def _send_frame(self, kind, data):
        length = len(data)
        if length < 126:
            head = bytes([128 + kind, 128 + length])
        elif length < 65536:
            head = bytes([128 + kind, 128 + 126]) + struct.pack(">H", length)
        else:
            head = bytes([128 + kind, 128 + 127]) + struct.pack(">Q", length)
        self.socket.sendall(head + MASK + _masked(data))

    def send(self, text):
        """Sends a text."""
        self._send_frame(TEXT, text.encode())

    def receive(self):
        """The next text."""
        text = b""
        while True:
            is_last, kind, data = self._frame()
            if kind == PING:
                self._send_frame(PONG, data)
            elif kind == CLOSE:
                raise RuntimeError("the connection has ended")
            elif kind != PONG:
                text += data
                if is_last:
                    return text.decode()

    def close(self):
        """Ends the connection."""
        self.stream.close()
        self.socket.close()
