"""A worker that runs, asked by its HTTP (`web.py`): the words of the command for one that has its file open."""
import json
import urllib.error
import urllib.request
from typing import Any, Dict, List, Optional
from urllib.parse import quote, urlencode

from .journal import Step
from .services import Target, target_of


class NotDone(Exception):
    """The worker refuses what it is asked, or cannot be reached."""


class Client:
    """A worker at an address, as http://127.0.0.1:8080. NotDone, with what it says, where it does not do what it is asked."""

    def __init__(self, address: str, token: Optional[str] = None) -> None:
        self.address, self.token = address.rstrip("/"), token

    def ask(self, method: str, path: str, body: Optional[bytes] = None, headers: Optional[Dict[str, str]] = None, seconds: float = 60) -> Any:
        told = {"content-type": "application/json", **({"authorization": f"Bearer {self.token}"} if self.token else {}), **(headers or {})}
        request = urllib.request.Request(self.address + path, body, told, method=method)
        try:
            with urllib.request.urlopen(request, timeout=seconds) as answer:
                content = answer.read()
        except urllib.error.HTTPError as error:
            raise NotDone(said_in(error.read()) or f"{error.code} {error.reason}") from None
        except OSError as error:
            raise NotDone(f"no worker answers at {self.address}: {getattr(error, 'reason', error)}") from None
        return json.loads(content) if content else None

    def post(self, *words: str, value: Any = None, headers: Optional[Dict[str, str]] = None) -> Any:
        return self.ask("POST", "/" + "/".join(quote(it, safe="") for it in words), json.dumps(value).encode(), headers)

    def submit(self, id: Optional[str], handler: str, value: Any = None) -> str:
        """Calls a handler, SERVICE/HANDLER or SERVICE/HANDLER/KEY, and does not wait. The call's id."""
        target: Target = target_of(handler)
        words = [target.service, *([target.key] if target.key else []), target.handler, "send"]
        told: str = self.post(*words, value=value, headers={"x-hengomaru-id": id} if id else None)["invocationId"]
        return told

    def resolve(self, awakeable: str, value: Any = None) -> None:
        self.post("restate", "awakeables", awakeable, "resolve", value=value)

    def signal(self, id: str, name: str, value: Any = None) -> None:
        self.post("restate", "invocation", id, "signal", name, value=value)

    def act(self, act: str, id: str, is_again: bool = False) -> None:
        """To `cancel`, `pause`, `resume` or `forget`."""
        self.ask("POST", f"/restate/invocation/{quote(id, safe='')}/{act}{'?again=true' if is_again else ''}", b"null")

    def purge(self) -> int:
        """Has all forgotten that has ended and is kept no longer; how many."""
        return int(self.ask("POST", "/restate/purge", b"null", seconds=86_400)["forgotten"])

    def show(self, id: str) -> Dict[str, Any]:
        """What the page shows of one; its steps are `Step`s."""
        told: Dict[str, Any] = self.ask("GET", f"/ui/api/one?{urlencode({'id': id})}")
        told["steps"] = [Step(**{name: it for name, it in step.items() if name in Step._fields}) for step in told["steps"]]
        return told

    def list(self) -> List[Dict[str, Any]]:
        rows: List[Dict[str, Any]] = []
        after: Optional[str] = ""
        while after is not None:
            page = self.ask("GET", f"/ui/api/list?{urlencode({'after': after})}")
            rows += page["rows"]
            after = page["next"]
        return rows


def said_in(body: bytes) -> str:
    try:
        return str(json.loads(body)["message"])
    except (ValueError, KeyError, TypeError):
        return body.decode(errors="replace").strip()[:500]
