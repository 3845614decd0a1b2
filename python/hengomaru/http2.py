"""Calls over HTTP/2 whose two directions go side by side, by the library h2: one connection, many streams. A connection from which nothing
comes is asked whether it is there, and lost where it does not answer: a host may vanish without a word."""
import asyncio
from typing import Any, Dict, List, Optional, Sequence, Tuple
from urllib.parse import urlsplit

import h2.config
import h2.connection
import h2.errors
import h2.events
import h2.exceptions
import h2.settings

WINDOW = 2**24
# Seconds: to connect, until a silent connection is asked, and until it has to have answered.
CONNECTS, SILENT, ANSWERS = 5.0, 10.0, 10.0


class Lost(ConnectionError):
    """The connection is gone, or the stream was reset."""


class Stream:
    """One call: what is sent, and what comes."""

    def __init__(self, connection: "Connection", id: int) -> None:
        self.connection, self.id, self.address = connection, id, ""
        self.status, self.headers = 0, {}  # type: int, Dict[str, str]
        self.begun: "asyncio.Future[None]" = asyncio.get_running_loop().create_future()
        self.came: "asyncio.Queue[Optional[bytes]]" = asyncio.Queue()
        self.room, self.has_ended, self.error = asyncio.Event(), False, ""

    async def send(self, content: bytes) -> None:
        left = memoryview(content)
        while left:
            self.check()
            most = min(self.connection.h2.local_flow_control_window(self.id), self.connection.h2.max_outbound_frame_size)
            if most <= 0:
                self.room.clear()
                await self.room.wait()
                continue
            self.connection.h2.send_data(self.id, bytes(left[:most]))
            self.connection.flush()
            left = left[most:]

    def end(self) -> None:
        if not self.error and not self.has_ended:
            self.has_ended = True
            self.connection.h2.end_stream(self.id)
            self.connection.flush()

    def check(self) -> None:
        if self.error:
            raise Lost(self.error)

    async def receive(self) -> Optional[bytes]:
        """The next bytes; None in the end."""
        came = await self.came.get()
        if came is None:
            self.check()
        return came

    def lose(self, why: str) -> None:
        self.error = self.error or why
        self.room.set()
        self.came.put_nowait(None)
        if not self.begun.done():
            self.begun.set_exception(Lost(why))
            self.begun.exception()

    def close(self) -> None:
        """Lets the stream go, wherever it is."""
        self.connection.let_go(self)


class Connection(asyncio.Protocol):
    def __init__(self) -> None:
        self.h2 = h2.connection.H2Connection(h2.config.H2Configuration(client_side=True, header_encoding="utf-8"))
        self.streams: Dict[int, Stream] = {}
        self.is_lost = self.has_come = False
        self.timer: Optional[asyncio.TimerHandle] = None
        self.free = asyncio.Event()
        self.free.set()

    def connection_made(self, transport: Any) -> None:
        self.transport = transport
        self.h2.initiate_connection()
        self.h2.update_settings({h2.settings.SettingCodes.INITIAL_WINDOW_SIZE: WINDOW, h2.settings.SettingCodes.ENABLE_PUSH: 0})
        self.h2.increment_flow_control_window(WINDOW)
        self.flush()
        self.watch()

    def watch(self) -> None:
        self.has_come = False
        self.timer = asyncio.get_running_loop().call_later(SILENT, self.look)

    def look(self) -> None:
        """Asks a silent connection whether it is there, where somebody waits for it."""
        if self.has_come or not self.streams:
            return self.watch()
        self.h2.ping(b"are you?")
        self.flush()
        self.timer = asyncio.get_running_loop().call_later(ANSWERS, self.answered)

    def answered(self) -> None:
        if self.has_come:
            return self.watch()
        self.lose("the host is silent")

    def flush(self) -> None:
        told = self.h2.data_to_send()
        if told and not self.is_lost:
            self.transport.write(told)

    def data_received(self, came: bytes) -> None:
        self.has_come = True
        try:
            for event in self.h2.receive_data(came):
                self.take(event)
        except h2.exceptions.ProtocolError as error:
            return self.lose(f"the host does not speak HTTP/2 as it should: {error}")
        self.flush()

    def take(self, event: Any) -> None:
        stream = self.streams.get(getattr(event, "stream_id", 0))
        if isinstance(event, h2.events.DataReceived):
            self.h2.acknowledge_received_data(event.flow_controlled_length, event.stream_id)
            if stream:
                stream.came.put_nowait(event.data)
        elif isinstance(event, h2.events.ResponseReceived) and stream:
            stream.headers = dict(event.headers)
            stream.status = int(stream.headers.get(":status", 0))
            stream.begun.set_result(None)
        elif isinstance(event, h2.events.StreamEnded) and stream:
            stream.came.put_nowait(None)
        elif isinstance(event, h2.events.StreamReset) and stream:
            stream.lose(f"the stream was reset ({event.error_code})")
        elif isinstance(event, (h2.events.WindowUpdated, h2.events.RemoteSettingsChanged)):
            for it in self.streams.values():
                it.room.set()
        elif isinstance(event, h2.events.ConnectionTerminated):
            self.lose("the host goes away")

    def connection_lost(self, error: Optional[Exception]) -> None:
        self.lose("the connection is lost")

    def lose(self, why: str) -> None:
        if self.is_lost:
            return
        self.is_lost = True
        if self.timer:
            self.timer.cancel()
        for it in list(self.streams.values()):
            it.lose(why)
        self.free.set()
        self.transport.abort() if why == "the host is silent" else self.transport.close()

    def let_go(self, stream: Stream) -> None:
        if self.streams.pop(stream.id, None) and not self.is_lost:
            try:
                self.h2.reset_stream(stream.id, h2.errors.ErrorCodes.CANCEL)
                self.flush()
            except h2.exceptions.ProtocolError:
                pass  # it has ended on both sides
        self.free.set()


class Client:
    """Calls to one address, over one connection that is made anew where it is lost."""

    def __init__(self, address: str) -> None:
        self.address = address
        told = urlsplit(address if "://" in address else f"http://{address}")
        self.scheme, self.host, self.port, self.prefix = told.scheme, told.hostname or "", told.port or (443 if told.scheme == "https" else 80), told.path.rstrip("/")
        self.connection: Optional[Connection] = None
        self.turn = asyncio.Lock()

    async def connected(self) -> Connection:
        async with self.turn:
            if self.connection is None or self.connection.is_lost:
                context = None
                if self.scheme == "https":
                    import ssl

                    context = ssl.create_default_context()
                    context.set_alpn_protocols(["h2"])
                self.connection = await self.connect(context)
            return self.connection

    async def connect(self, context: Any) -> Connection:
        connecting = asyncio.ensure_future(asyncio.get_running_loop().create_connection(Connection, self.host, self.port, ssl=context))
        done, _ = await asyncio.wait({connecting}, timeout=CONNECTS)
        if not done:
            connecting.cancel()
            raise ConnectionError(f"no connection in {CONNECTS:.0f} seconds")
        return connecting.result()[1]

    async def ask(self, method: str, path: str, headers: Sequence[Tuple[str, str]] = ()) -> Stream:
        """Begins a call, whose body is sent then."""
        while True:
            connection = await self.connected()
            if connection.is_lost:
                continue
            if connection.h2.open_outbound_streams < connection.h2.remote_settings.max_concurrent_streams:
                break
            connection.free.clear()
            await connection.free.wait()
        stream = Stream(connection, connection.h2.get_next_available_stream_id())
        stream.address = self.address
        connection.streams[stream.id] = stream
        told = [(":method", method), (":scheme", self.scheme), (":authority", f"{self.host}:{self.port}"), (":path", self.prefix + path), *headers]
        connection.h2.send_headers(stream.id, told)
        connection.flush()
        return stream

    async def get(self, path: str, headers: Sequence[Tuple[str, str]] = ()) -> Tuple[int, Dict[str, str], bytes]:
        stream = await self.ask("GET", path, headers)
        stream.end()
        await stream.begun
        found: List[bytes] = []
        while (came := await stream.receive()) is not None:
            found.append(came)
        stream.close()
        return stream.status, stream.headers, b"".join(found)

    def close(self) -> None:
        if self.connection and not self.connection.is_lost:
            self.connection.h2.close_connection()
            self.connection.flush()
            self.connection.transport.close()
