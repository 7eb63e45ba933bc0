"""Messages of the Debug Adapter Protocol, from a file descriptor and to a stream of bytes."""
import json
import os
import queue
import re
import threading


class Wire:
    """Reads the editor's messages in a thread of its own, so that they are seen while a run goes on."""

    def __init__(self, source, sink):
        self._source, self._sink, self._number, self._held = source, sink, 0, b""
        self._waiting = queue.Queue()
        threading.Thread(target=self._read_all, daemon=True).start()

    def _read_all(self):
        try:
            while (message := self._read()) is not None:
                self._waiting.put(message)
        except (OSError, ValueError, TypeError):
            pass
        self._waiting.put(None)

    def _read(self):
        """The next message, or nothing at the end."""
        while b"\r\n\r\n" not in self._held:
            if not self._more():
                return None
        head, _, self._held = self._held.partition(b"\r\n\r\n")
        length = int(re.search(rb"(?im)^content-length: *(\d+)", head)[1])
        while len(self._held) < length:
            if not self._more():
                return None
        text, self._held = self._held[:length], self._held[length:]
        return json.loads(text)

    def _more(self):
        """Reads what is there, past the buffers of Python, which a thread must not hold at the end."""
        more = os.read(self._source, 1 << 16)
        self._held += more
        return bool(more)

    def next(self, may_wait):
        """The next message, and whether there was one; the message is nothing at the end of the stream."""
        try:
            return self._waiting.get(may_wait), True
        except queue.Empty:
            return None, False

    def _write(self, message):
        self._number += 1
        text = json.dumps({"seq": self._number, **message}).encode()
        self._sink.write(b"Content-Length: %d\r\n\r\n" % len(text) + text)
        self._sink.flush()

    def respond(self, request, body=None):
        """The answer to a request that was done."""
        self._write({"type": "response", "request_seq": request["seq"], "command": request["command"], "success": True, "body": body or {}})

    def deny(self, request, reason):
        """The answer to a request that cannot be done."""
        body = {"error": {"id": 1, "format": reason.replace("{", "(").replace("}", ")"), "showUser": True}}
        self._write({"type": "response", "request_seq": request["seq"], "command": request["command"], "success": False,
                     "message": reason, "body": body})

    def event(self, name, **body):
        self._write({"type": "event", "event": name, "body": body})

    def output(self, text, category="console"):
        self.event("output", category=category, output=text)
