"""Serves an ASGI application: by hypercorn; where that is not there and HTTP/2 is not needed, by uvicorn."""
import asyncio
from typing import Any


async def serve_http(app: Any, bind: str, until: asyncio.Event, http2: bool = False) -> None:
    """Until an event comes. ImportError where there is nothing to serve by, with what installs it."""
    try:
        from hypercorn.asyncio import serve
        from hypercorn.config import Config
    except ImportError:
        if http2:
            raise ImportError("an endpoint takes hypercorn: pip install 'hengomaru[endpoint]'") from None
        return await serve_by_uvicorn(app, bind, until)
    config = Config()
    config.bind, config.accesslog, config.errorlog, config.graceful_timeout = [bind], None, "-", 2
    config.h2_max_inbound_frame_size, config.h2_max_concurrent_streams = 2**20, 1000
    config.loglevel = "WARNING"

    async def stopped() -> None:
        await until.wait()

    await serve(app, config, shutdown_trigger=stopped)


async def serve_by_uvicorn(app: Any, bind: str, until: asyncio.Event) -> None:
    try:
        import uvicorn
    except ImportError:
        raise ImportError("HTTP takes hypercorn or uvicorn: pip install 'hengomaru[http]'") from None
    host, _, port = bind.rpartition(":")
    server = uvicorn.Server(uvicorn.Config(app, host=host.strip("[]"), port=int(port), log_level="warning", lifespan="off"))
    server.install_signal_handlers = lambda: None
    serving = asyncio.ensure_future(server.serve())
    await until.wait()
    server.should_exit = True
    await serving
