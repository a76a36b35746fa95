"""Connections that take too long: to send a request's head, or to take an answer; and too many of them."""

import asyncio
import json


class Guard(asyncio.Protocol):
    """A protocol round that of the HTTP server, which closes connections that are slow."""

    def __init__(self, inner, others, limits):
        self.inner, self.others, self.limits = inner, others, limits
        self.transport = self.timer = self.writing = None
        self.is_busy = False

    def connection_made(self, transport):
        """Takes the connection, if there are not too many."""
        self.transport = transport
        self.inner.connection_made(transport)
        if len(self.others) >= self.limits.connections:
            self.answer(503, "too many connections")
            return
        self.others[transport] = self
        self.start_timer()

    def connection_lost(self, exc):
        """Ends the timers."""
        self.others.pop(self.transport, None)
        self.stop_timer()
        self.resume_writing()
        self.inner.connection_lost(exc)

    def data_received(self, data):
        """Passes bytes on. From the first byte of a request's head on, the time counts."""
        if not self.is_busy and self.timer is None:
            self.start_timer()
        self.inner.data_received(data)

    def eof_received(self):
        """Passes the end of what the client sends on."""
        return self.inner.eof_received()

    def pause_writing(self):
        """From here on the client has to take what was sent."""
        self.inner.pause_writing()
        if self.writing is None:
            self.writing = asyncio.get_running_loop().call_later(self.limits.client_seconds, self.transport.abort)

    def resume_writing(self):
        """The client has taken what was sent."""
        if self.writing is not None:
            self.writing.cancel()
            self.writing = None
            self.inner.resume_writing()

    def begin(self):
        """A request's head is there."""
        self.is_busy = True
        self.stop_timer()

    def end(self):
        """A request is answered."""
        self.is_busy = False

    def start_timer(self):
        """Counts the time of a request's head."""
        loop = asyncio.get_running_loop()
        self.timer = loop.call_later(self.limits.client_seconds, self.answer, 408, "the request came too slowly")

    def stop_timer(self):
        """Ends the count."""
        if self.timer is not None:
            self.timer.cancel()
            self.timer = None

    def answer(self, status, text):
        """Answers before there is a request, and closes."""
        body = json.dumps({"error": {"status": status, "text": text}}).encode()
        head = f"HTTP/1.1 {status} Refused\r\nContent-Type: application/json\r\nContent-Length: {len(body)}\r\n"
        self.transport.write(head.encode() + b"Connection: close\r\n\r\n" + body)
        self.transport.close()
