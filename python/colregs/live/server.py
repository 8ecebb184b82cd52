"""The server of the live page, built on aiohttp: the page, a web socket with its state, lists for other programs, and
the few requests that a page makes."""
import asyncio
import json
import os
import time
from collections.abc import Awaitable, Callable
from typing import Any

from aiohttp import web

from colregs.errors import Fault, report
from colregs.io.files import read_bytes
from colregs.live import answers
from colregs.live.access import COOKIE, COOKIE_DAYS, HEADERS, Access, Bucket
from colregs.live.cases import Cases, Wanted, policy_of
from colregs.live.changes import Changes
from colregs.live.history import History
from colregs.live.notes import LONGEST
from colregs.live.state import State, Values
from colregs.page.page import coast, leaflet

WEB = os.path.join(os.path.dirname(os.path.abspath(__file__)), "web")
TYPES = {".js": "text/javascript", ".css": "text/css", ".html": "text/html", ".svg": "image/svg+xml"}
TICK = 0.1                      # s between two changes
BEHIND = 50                     # a browser that is more changes behind gets a snapshot instead
SENDING, CLOSING = 30, 5        # s that a browser may take for one message, and for closing
IDLE = 15                       # s between two checks for connections without a request
MOST_BODY, MOST_MESSAGE = 8192, 1024
CONNECTIONS = 100               # in addition to those of browsers
OPEN = ("/login", "/web/login.css", "/web/login.js")
Handler = Callable[[web.Request], Awaitable[web.StreamResponse]]


class Site:
    """The files of the page, read once."""

    def __init__(self, chart: str | None) -> None:
        self.files = {
            "/web/" + name: (read_bytes(os.path.join(WEB, name)), TYPES[os.path.splitext(name)[1]])
            for name in sorted(os.listdir(WEB))
            if os.path.splitext(name)[1] in TYPES
        }
        script, style = leaflet()
        self.has_map = bool(script)
        self.files["/leaflet/leaflet.js"] = script.encode(), TYPES[".js"]
        self.files["/leaflet/leaflet.css"] = style.encode(), TYPES[".css"]
        self.chart = json.dumps(coast(chart)).encode() if chart else None


class Server:
    """Answers browsers and other programs from a state. `settings` is what the page needs to know once."""

    def __init__(self, state: State, access: Access, site: Site, history: History, cases: Cases, settings: Values,
                 most_browsers: int, quiet: int) -> None:
        self.state = state
        self.access = access
        self.site = site
        self.history = history
        self.cases = cases
        self.settings = settings
        self.most_browsers, self.quiet = most_browsers, quiet
        self.changes, self.news, self.snapshot = Changes(), asyncio.Event(), (-1, "")
        self.epoch = f"{time.time_ns():x}"
        # one rate limit per address; the users of a proxy on a socket have no address and share one
        self.browsers, self.peers = 0, {"": Bucket(500, 2000)}
        self.asked_once: set[asyncio.BaseProtocol] = set()      # connections that have already made a request
        self.heavy, self.heavy_rate = asyncio.Semaphore(1), Bucket(1, 8)
        self.restarts: Callable[[], int] = lambda: 0
        self.fault = ""
        self.wall = time.time()

    def application(self) -> web.Application:
        """Returns the application with its routes."""
        made = web.Application(middlewares=[self.guard], client_max_size=MOST_BODY)
        made.router.add_get("/", self.index)
        made.router.add_get("/login", self.login_page)
        made.router.add_post("/login", self.login)
        made.router.add_get("/settings", self.get_settings)
        made.router.add_get("/chart", self.get_chart)
        made.router.add_get("/ws", self.socket)
        made.router.add_get("/api/history", self.get_history)
        made.router.add_get("/api/{kind:vessels|encounters|alarms}", self.get_list)
        made.router.add_post("/api/alarms/{id}/acknowledgement", self.acknowledge)
        made.router.add_get("/api/alarms/{id}/meeting", self.get_meeting)
        made.router.add_get("/api/alarms/{id}/case", self.get_case)
        made.router.add_get("/metrics", self.get_metrics)
        made.router.add_get("/healthz", self.get_health)
        made.router.add_get("/{path:(web|leaflet)/.*}", self.get_file)
        made.on_response_prepare.append(self.add_headers)
        return made

    # for every request

    async def add_headers(self, request: web.Request, response: web.StreamResponse) -> None:
        """Adds the headers of every response. A case's page brings its own policy."""
        for name, value in HEADERS.items():
            response.headers.setdefault(name, value)
        response.headers.setdefault("Content-Security-Policy", self.access.policy())
        response.headers["Server"] = "colregs-live"

    @web.middleware
    async def guard(self, request: web.Request, handler: Handler) -> web.StreamResponse:
        """Refuses requests for another host, from another page, without the token, or over the rate limit."""
        self.asked_once.add(request.protocol)
        refusal = self.refusal(request)
        if refusal:
            self.access.refused += 1
            raise refusal
        try:
            if request.can_read_body:
                await asyncio.wait_for(request.read(), SENDING)
            return await handler(request)
        except asyncio.TimeoutError:
            raise web.HTTPRequestTimeout(text="timeout: the rest of the request did not arrive\n") from None
        except Fault as fault:
            return web.json_response({"fault": str(fault)}, status=500)

    def refusal(self, request: web.Request) -> web.HTTPException | None:
        """Returns why a request is refused, or None."""
        access, headers = self.access, request.headers
        if not access.is_host(request.host):
            return web.HTTPMisdirectedRequest(text="another host\n")
        if not self.bucket(request.remote or "").takes():
            return web.HTTPTooManyRequests(text="too many requests\n")
        if not access.is_origin(headers.get("Origin"), request.host):
            return web.HTTPForbidden(text="the request comes from a page of another origin\n")
        if request.path in OPEN or access.may(headers.get("Authorization", ""), request.cookies.get(COOKIE, "")):
            return None
        if request.path == "/":
            return web.HTTPSeeOther("/login")
        return web.HTTPUnauthorized(text="the request needs a token\n", headers={"WWW-Authenticate": "Bearer"})

    def bucket(self, peer: str) -> Bucket:
        """Returns the rate limit of an address. Beyond a number of addresses, all others share one."""
        if peer not in self.peers and len(self.peers) > 1000:
            self.peers = {
                "": self.peers[""],
                **{name: known for name, known in self.peers.items() if time.monotonic() - known.at < 60},
            }
        if len(self.peers) > 2000:
            return self.peers[""]
        return self.peers.setdefault(peer, Bucket(50, 200))

    # the page

    async def index(self, request: web.Request) -> web.StreamResponse:
        """Answers the page."""
        return self.file("/web/index.html")

    async def get_file(self, request: web.Request) -> web.StreamResponse:
        """Answers a file of the page."""
        return self.file(request.path)

    def file(self, path: str) -> web.StreamResponse:
        """Returns a file of the page."""
        if path not in self.site.files:
            raise web.HTTPNotFound()
        body, kind = self.site.files[path]
        return web.Response(body=body, content_type=kind, charset="utf-8")

    async def login_page(self, request: web.Request) -> web.StreamResponse:
        """Answers the form for the token."""
        return self.file("/web/login.html")

    async def login(self, request: web.Request) -> web.StreamResponse:
        """Takes the token, and gives the browser a cookie for it."""
        if not self.access.logins.takes():
            raise web.HTTPTooManyRequests(text="too many tries\n")
        given = (await request.post()).get("token", "")
        if not isinstance(given, str) or not self.access.is_token(given.strip()):
            self.access.refused += 1
            raise web.HTTPSeeOther("/login?wrong")
        answer = web.HTTPSeeOther("/")
        answer.set_cookie(COOKIE, self.access.cookie(), max_age=COOKIE_DAYS * 86400, httponly=True, samesite="Strict",
                          path="/", secure=request.headers.get("X-Forwarded-Proto", request.scheme) == "https")
        raise answer

    async def get_settings(self, request: web.Request) -> web.StreamResponse:
        """Answers the settings, which the page asks for once."""
        return web.json_response({
            **self.settings, "map": self.site.has_map, "chart": self.site.chart is not None, "tiles": self.access.tiles
        })

    async def get_chart(self, request: web.Request) -> web.StreamResponse:
        """Answers the chart of the user."""
        if self.site.chart is None:
            raise web.HTTPNotFound()
        return web.Response(body=self.site.chart, content_type="application/geo+json")

    # the state

    async def publish(self) -> None:
        """Makes one change of the state at each tick, for all browsers together."""
        seconds = 0.0
        while True:
            await asyncio.sleep(TICK)
            if time.monotonic() >= seconds + 1:
                seconds = time.monotonic()
                self.state.set_health(self.health())
            change = self.state.change()
            if change:
                self.changes.add(
                    json.dumps({"n": self.changes.number + 1, **change}, separators=(",", ":"), ensure_ascii=False))
                before, self.news = self.news, asyncio.Event()
                before.set()

    def health(self) -> Values:
        """Returns the health of the server and of the stream."""
        state, now = self.state, time.time()
        answered = state.answered
        with state.lock:
            hidden = sum(item.is_at_rest for item in state.alarms.items.values())
        return {
            "lines": state.lines_taken, "rows": state.rows_taken, "restarts": self.restarts(),
            "browsers": self.browsers, "lag": answers.lag(state.clock), "quiet": round(now - (state.came or self.wall)),
            "refused": self.access.refused, "first": state.first, "over": state.is_over, "fault": self.fault,
            "at_rest": hidden, "answered": answered.clock if answered else None,
            "answer_seconds": round(answered.seconds, 2) if answered else None,
            "answer_fault": answered.fault if answered else ""
        }

    def snapshot_text(self) -> tuple[int, str]:
        """Returns the number and text of a snapshot; browsers that need one at the same time share it."""
        if self.snapshot[0] != self.changes.number:
            text = json.dumps(
                {"kind": "snapshot", "epoch": self.epoch, "n": self.changes.number, **self.state.snapshot()},
                separators=(",", ":"), ensure_ascii=False)
            self.snapshot = self.changes.number, text
        return self.snapshot

    async def socket(self, request: web.Request) -> web.StreamResponse:
        """Sends a browser a snapshot or the changes that it missed, and then each new change. A slow browser gets a
        newer snapshot."""
        if self.browsers >= self.most_browsers:
            raise web.HTTPServiceUnavailable(text="too many browsers\n")
        answer = web.WebSocketResponse(heartbeat=20, max_msg_size=MOST_MESSAGE, compress=False)
        await answer.prepare(request)
        self.browsers += 1
        listener = asyncio.create_task(self.listen(answer))
        try:
            await self.send(answer, self.asked(request))
        except (ConnectionError, asyncio.TimeoutError, RuntimeError):
            pass                                        # the browser is gone, or does not read
        finally:
            self.browsers -= 1
            listener.cancel()
            await self.leave(request, answer)
        return answer

    @staticmethod
    async def leave(request: web.Request, answer: web.WebSocketResponse) -> None:
        """Ends the connection of a browser, even if the browser no longer reads."""
        try:
            await asyncio.wait_for(answer.close(), CLOSING)
        except (ConnectionError, asyncio.TimeoutError, RuntimeError):
            pass
        if request.transport:
            request.transport.abort()

    def asked(self, request: web.Request) -> int | None:
        """Returns the number of the last change that a browser has, or None."""
        since = request.query.get("since", "")
        return int(
            since) if request.query.get("epoch") == self.epoch and since.isdecimal() and len(since) < 16 else None

    async def listen(self, answer: web.WebSocketResponse) -> None:
        """Reads the browser's messages, which only show that it is still there, until it is gone."""
        async for _ in answer:
            pass
        await answer.close()

    async def send(self, answer: web.WebSocketResponse, sent: int | None) -> None:
        """Sends changes as they come, until the browser is gone."""
        most = len(self.changes.texts)                  # a browser that reconnects gets every missed change
        while not answer.closed:
            texts = None if sent is None else self.changes.after(sent, most)
            most = BEHIND
            if texts is None or sent is None:
                sent, text = self.snapshot_text()
                await asyncio.wait_for(answer.send_str(text), SENDING)
            elif texts:
                sent += len(texts)
                await asyncio.wait_for(answer.send_str(f'{{"kind":"changes","changes":[{",".join(texts)}]}}'), SENDING)
            else:
                await self.news.wait()

    async def end_idle(self, connections: Callable[[], list[web.RequestHandler]]) -> None:
        """Ends connections that two checks in a row find without a request."""
        before: set[asyncio.BaseProtocol] = set()
        while True:
            await asyncio.sleep(IDLE)
            there = connections()
            now: set[asyncio.BaseProtocol] = set(there)
            self.asked_once &= now
            for one in there:
                if one in before and one not in self.asked_once and isinstance(one.transport, asyncio.Transport):
                    one.transport.abort()
            before = now

    # lists and metrics

    async def get_list(self, request: web.Request) -> web.StreamResponse:
        """Answers vessels, encounters or alarms as JSON or GeoJSON."""
        kind = request.match_info["kind"]
        if request.query.get("format") == "geojson" or "application/geo+json" in request.headers.get("Accept", ""):
            return web.json_response(answers.geojson(kind, answers.LISTS[kind](self.state)),
                                     content_type="application/geo+json")
        return web.json_response(answers.as_json(self.state, kind))

    async def get_metrics(self, request: web.Request) -> web.StreamResponse:
        """Answers the metrics for Prometheus."""
        return web.Response(text=answers.metrics(self.state, self.health()), content_type="text/plain")

    async def get_health(self, request: web.Request) -> web.StreamResponse:
        """Answers whether lines arrive: with status 503 if none came for a while, or if nothing follows the stream any
        more."""
        health = self.health()
        why = self.fault or (f"no line arrived for {health['quiet']} s" if health["quiet"] > self.quiet else "")
        return web.json_response({"ok": not why, "why": why, **health}, status=503 if why else 200)

    # slow requests

    async def get_history(self, request: web.Request) -> web.StreamResponse:
        """Answers the state of an earlier moment, from the day files."""
        at = request.query.get("at", "")
        if not at.isdecimal() or len(at) > 11:
            raise web.HTTPBadRequest(text="write at=SECONDS, in seconds since the Unix epoch\n")
        return web.json_response(await self.alone(lambda: self.history.at(int(at))))

    def wanted(self, request: web.Request) -> Wanted:
        """Returns the alarm of a request in the form that cases need."""
        with self.state.lock:
            item = self.state.alarms.items.get(request.match_info["id"])
            if item is None:
                raise web.HTTPNotFound(text="no such alarm\n")
            names = [self.state.fleet.name(mmsi) for mmsi in item.key[:2]]
            return Wanted(item.key[:2], item.first, item.last, f"{names[0]} and {names[1]}: {item.key[2]}")

    async def get_meeting(self, request: web.Request) -> web.StreamResponse:
        """Answers the page of a case of an alarm's two vessels."""
        wanted = self.wanted(request)
        page = await self.alone(lambda: self.cases.page(wanted))
        return web.Response(text=page, content_type="text/html", headers={"Content-Security-Policy": policy_of(page)})

    async def get_case(self, request: web.Request) -> web.StreamResponse:
        """Answers a zip file of a case of an alarm, with all vessels around."""
        wanted = self.wanted(request)
        name = f"case-{wanted.pair[0]}-{wanted.pair[1]}-{wanted.first}"
        body = await self.alone(lambda: self.cases.archive(wanted, name))
        return web.Response(body=body, content_type="application/zip",
                            headers={"Content-Disposition": f'attachment; filename="{name}.zip"'})

    async def alone(self, work: Callable[[], Any]) -> Any:
        """Returns the result of slow work; only one such request runs at a time."""
        if not self.heavy_rate.takes():
            raise web.HTTPTooManyRequests(text="too many requests\n")
        async with self.heavy:
            return await asyncio.to_thread(work)

    async def acknowledge(self, request: web.Request) -> web.StreamResponse:
        """Stores an acknowledgement of an alarm with its note. No other request changes anything."""
        if request.content_type != "application/json":
            raise web.HTTPUnsupportedMediaType(text="send application/json\n")
        try:
            given = await request.json()
            acknowledged, words = given["acknowledged"], given.get("note", "")
        except (ValueError, KeyError, TypeError, AttributeError):
            raise web.HTTPBadRequest(text='send {"acknowledged": true, "note": ".."}\n') from None
        if not isinstance(acknowledged, bool) or not isinstance(words, str) or len(words) > LONGEST:
            raise web.HTTPBadRequest(text=f"acknowledged is true or false, and note a text of at most {LONGEST} "
                                          "letters\n")
        name = request.match_info["id"]
        found = await asyncio.to_thread(self.state.acknowledge, name, acknowledged, words, int(time.time()))
        if found is None:
            raise web.HTTPNotFound(text="no such alarm\n")
        return web.json_response(found)


class Refused(asyncio.Protocol):
    """A connection over the limit, which is closed at once."""

    def connection_made(self, transport: asyncio.BaseTransport) -> None:
        """Closes the connection."""
        assert isinstance(transport, asyncio.Transport)
        transport.abort()


async def listening(server: Server, runner: web.AppRunner) -> asyncio.base_events.Server:
    """Returns a listener at the server's address, with a limit of connections."""
    address, loop = server.access.address, asyncio.get_running_loop()
    assert runner.server is not None
    handlers: web.Server = runner.server

    def connection() -> asyncio.BaseProtocol:
        if len(handlers.connections) >= server.most_browsers + CONNECTIONS:
            return Refused()
        return handlers()

    try:
        if address.socket:
            if os.path.exists(address.socket):
                os.unlink(address.socket)
            return await loop.create_unix_server(connection, address.socket)
        return await loop.create_server(connection, address.host, address.port)
    except OSError as error:
        raise Fault(f"cannot listen on {address.socket or f'{address.host}:{address.port}'}: {error.strerror or error}"
                    ) from None


async def serve(server: Server, stop: asyncio.Event) -> None:
    """Serves until `stop` is set."""
    runner = web.AppRunner(server.application(), access_log=None)
    await runner.setup()
    listener = await listening(server, runner)
    places = [one.getsockname() for one in listener.sockets]
    urls = [
        place if isinstance(place, str) else f"http://{'[%s]' % place[0] if ':' in place[0] else place[0]}:{place[1]}/"
        for place in places
    ]
    report("live", f"listening on {', '.join(urls)}")
    assert runner.server is not None
    handlers: web.Server = runner.server
    tasks = [
        asyncio.create_task(work)
        for work in (server.publish(), server.end_idle(lambda: handlers.connections), stop.wait())
    ]
    done, _ = await asyncio.wait(tasks, return_when=asyncio.FIRST_COMPLETED)
    for task in done:
        task.result()                                   # a defect ends the server with its traceback
    for task in tasks:
        task.cancel()
    listener.close()
    await runner.cleanup()
