"""The server: what is asked by HTTP, and the page, by aiohttp."""

import asyncio
import pathlib
import signal

from aiohttp import web

from . import api
from .connections import Guard
from .formula import Fault
from .kept import Kept
from .limits import Room
from .picture import Picture
from .waiting import Busy, Queue

STATIC = pathlib.Path(__file__).resolve().parent.parent / "static"
HEADERS = {
    "Content-Security-Policy": "default-src 'none'; script-src 'self'; style-src 'self'; img-src 'self' data: blob:; "
    "connect-src 'self'; base-uri 'none'; form-action 'none'; frame-ancestors 'none'",
    "X-Content-Type-Options": "nosniff",
    "Referrer-Policy": "no-referrer",
}
TOO_MANY = "too many requests are on their way; try again in a second"


class Service:
    """The answers of the server. `setter` sets what is asked."""

    def __init__(self, setter):
        self.setter, self.limits = setter, setter.limits
        self.queue = Queue(setter)
        self.kept = Kept(self.limits.kept_bytes)
        self.guards = {}
        self.way = Room(self.limits.way_bytes)

    def application(self):
        """The application, with its addresses."""
        application = web.Application(middlewares=[self.guarded])
        application.router.add_post("/svg", self.pictures)
        application.router.add_post("/dvi", self.dvi)
        application.router.add_post("/places", self.places)
        application.router.add_get("/health", self.health)
        if (STATIC / "index.html").exists():
            application.router.add_get("/", self.page)
            application.router.add_static("/static", STATIC)
        return application

    @web.middleware
    async def guarded(self, request, handler):
        """Answers each fault of a request in JSON, and counts the time of the connection's next request."""
        guard = self.guards.get(request.transport)
        if guard:
            guard.begin()
        try:
            return await self.send(request, await self.response(request, handler))
        finally:
            self.way.give_back(request.get("bytes", 0))
            if guard:
                guard.end()

    async def response(self, request, handler):
        """The answer of a request, or why there is none."""
        try:
            return await handler(request)
        except web.HTTPException as error:
            return refusal(error.status, error.reason)
        except api.Refused as error:
            return refusal(error.status, error.text)
        except Busy:
            return refusal(503, f"{self.limits.waiting} requests wait already; try again in a second")

    async def send(self, request, response):
        """Sends an answer, if not too many bytes are on their way. aiohttp itself sends files."""
        is_file = isinstance(response, web.FileResponse)
        size = 0 if is_file else len(response.body or b"")
        if not self.way.take(size):
            response, size = refusal(503, TOO_MANY), 0
        response.headers.update(HEADERS)
        if response.status in (408, 413, 503):
            response.force_close()
        try:
            if not is_file:
                await response.prepare(request)
                await response.write_eof()
        finally:
            self.way.give_back(size)
        return response

    async def body(self, request):
        """The bytes of a request, which are on their way until it is answered."""
        data = bytearray()
        async for chunk in request.content.iter_any():
            if len(data) + len(chunk) > self.limits.body_bytes:
                raise api.Refused(413, f"a request can have at most {self.limits.body_bytes} bytes")
            if not self.way.take(len(chunk)):
                raise api.Refused(503, TOO_MANY)
            data += chunk
            request["bytes"] = len(data)
        return data

    async def request(self, request):
        """What a request asks for, once it is there."""
        try:
            body = await asyncio.wait_for(self.body(request), self.limits.client_seconds)
        except asyncio.TimeoutError:
            raise api.Refused(408, "the request came too slowly") from None
        return api.request_of(body, self.limits)

    async def results(self, asked):
        """The results of the formulas of a request: those that are kept, and the others when they are set."""
        keys = [(formula, asked.latex, asked.definitions) for formula in asked.formulas]
        found = [self.kept.get(key) for key in keys]
        missing = [at for at, result in enumerate(found) if result is None]
        if missing:
            promise = self.queue.put(asked, [asked.formulas[at] for at in missing])
            for at, result in zip(missing, await asyncio.wrap_future(promise)):
                found[at] = result
                if isinstance(result, Picture) and not asked.definitions:
                    self.kept.put(keys[at], result)
        return found

    async def pictures(self, request):
        """POST /svg"""
        asked = await self.request(request)
        results = await self.results(asked)
        answers = [api.answer_of(result, asked.form) for result in results]
        return web.Response(body=api.text_of({"formulas": answers}), content_type="application/json")

    async def dvi(self, request):
        """POST /dvi"""
        return web.Response(body=await self.file("set", request), content_type="application/x-dvi")

    async def places(self, request):
        """POST /places"""
        return web.Response(body=await self.file("places", request), content_type="text/plain")

    async def file(self, command, request):
        """What the program writes of the formulas, which all have to be without a fault."""
        asked = await self.request(request)
        results = await self.results(asked)
        faults = [(at, result) for at, result in enumerate(results, 1) if isinstance(result, Fault)]
        if faults:
            at, fault = faults[0]
            raise api.Refused(422, f"formula {at}: line {fault.line}, column {fault.column}: {fault.text}")
        return await asyncio.wrap_future(self.queue.put(asked, asked.formulas, command))

    async def health(self, _):
        """GET /health"""
        return web.json_response({"status": "ok"})

    async def page(self, _):
        """GET /"""
        return web.FileResponse(STATIC / "index.html")


def refusal(status, text):
    """An answer that says why there is none."""
    return web.Response(
        status=status, body=api.text_of({"error": {"status": status, "text": text}}), content_type="application/json"
    )


async def serve(setter, host, port, ready):
    """Serves until the process is told to end. `ready` is called with the port when the server answers."""
    service = Service(setter)
    runner = web.AppRunner(service.application(), access_log=None, keepalive_timeout=setter.limits.idle_seconds)
    await runner.setup()
    loop = asyncio.get_running_loop()
    ended = asyncio.Event()
    for number in (signal.SIGINT, signal.SIGTERM):
        loop.add_signal_handler(number, ended.set)
    listener = await loop.create_server(lambda: Guard(runner.server(), service.guards, service.limits), host, port)
    ready(listener.sockets[0].getsockname()[1])
    try:
        await ended.wait()
    finally:
        listener.close()
        await runner.cleanup()
        service.queue.close()
