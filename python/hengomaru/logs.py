"""Loggers that are silent while a handler replays what is recorded, so that each line stands once."""
import logging

from .attempt import current


class ReplayFilter(logging.Filter):
    """Lets pass what is told outside of handlers, and in those that are past what is recorded."""

    def filter(self, record: logging.LogRecord) -> bool:
        attempt = current.get()
        return attempt is None or attempt.is_processing()


def get_logger(name: str) -> logging.Logger:
    """A logger for handlers: `log = hengomaru.get_logger(__name__)`."""
    logger = logging.getLogger(name)
    if not any(isinstance(it, ReplayFilter) for it in logger.filters):
        logger.addFilter(ReplayFilter())
    return logger
