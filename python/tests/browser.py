"""A headless Chromium, by its own protocol over two pipes, so that nothing has to be installed but Debian's `chromium`."""
import json
import os
import subprocess
import time
from typing import Any, List, Optional

OPTIONS = ("--headless=new", "--remote-debugging-pipe", "--no-sandbox", "--disable-gpu", "--disable-dev-shm-usage", "--no-first-run", "--disable-extensions", "--mute-audio")


class Browser:
    """One page. `problems` has what the page has thrown, and what its policy has refused."""

    def __init__(self, folder: str) -> None:
        asked, self.asks = os.pipe()
        self.answers, answered = os.pipe()
        words = ["chromium", *OPTIONS, f"--user-data-dir={folder}"]
        shell = ["bash", "-c", f'exec "$@" 3<&{asked} 4>&{answered}', "bash", *words]
        self.process = subprocess.Popen(shell, pass_fds=(asked, answered), stdout=subprocess.DEVNULL, stderr=subprocess.DEVNULL)
        os.close(asked)
        os.close(answered)
        self.kept, self.number, self.session = b"", 0, None  # type: bytes, int, Optional[str]
        self.problems: List[str] = []
        target = self.call("Target.createTarget", url="about:blank")["targetId"]
        self.session = self.call("Target.attachToTarget", targetId=target, flatten=True)["sessionId"]
        for domain in ("Page", "Runtime", "Log"):
            self.call(f"{domain}.enable")

    def read(self) -> Any:
        while b"\0" not in self.kept:
            came = os.read(self.answers, 2**16)
            if not came:
                raise EOFError("the browser has ended")
            self.kept += came
        told, self.kept = self.kept.split(b"\0", 1)
        return json.loads(told)

    def send(self, method: str, given: Any) -> int:
        self.number += 1
        asked = {"id": self.number, "method": method, "params": given, **({"sessionId": self.session} if self.session else {})}
        os.write(self.asks, json.dumps(asked).encode() + b"\0")
        return self.number

    def call(self, method: str, **given: Any) -> Any:
        number = self.send(method, given)
        while True:
            came = self.read()
            if came.get("id") == number:
                if "error" in came:
                    raise RuntimeError(came["error"])
                return came["result"]
            self.take(came)

    def take(self, event: Any) -> None:
        """What comes by itself: a question is answered with yes."""
        told = event.get("params", {})
        if event.get("method") == "Page.javascriptDialogOpening":
            self.send("Page.handleJavaScriptDialog", {"accept": True})
        elif event.get("method") == "Runtime.exceptionThrown":
            self.problems.append(str(told["exceptionDetails"].get("exception", told)))
        elif event.get("method") == "Log.entryAdded" and told["entry"]["source"] == "security":
            self.problems.append(told["entry"]["text"])

    def open(self, url: str) -> None:
        self.call("Page.navigate", url=url)

    def value(self, script: str) -> Any:
        """What a script comes to on the page, as JSON has it."""
        told = self.call("Runtime.evaluate", expression=script, returnByValue=True, awaitPromise=True)
        if "exceptionDetails" in told:
            raise RuntimeError(told["exceptionDetails"])
        return told["result"].get("value")

    def wait(self, script: str, seconds: float = 60) -> None:
        """Waits until a script comes to something that is true."""
        ends = time.monotonic() + seconds
        while not self.value(f"!!({script})"):
            if time.monotonic() > ends:
                raise AssertionError(f"{script} does not come; the page says:\n{self.value('document.body.innerText')}")
            time.sleep(0.1)

    def click(self, name: str) -> None:
        """A button or a link by its text."""
        found = f"[...document.querySelectorAll('button, a')].find(it => it.textContent.trim() === {json.dumps(name)})"
        self.wait(found)
        # A click that opens a question ends with its answer, so it is not waited for.
        self.value(f"setTimeout(() => {found}.click(), 0), true")

    def close(self) -> None:
        self.process.kill()
        self.process.wait()
        os.close(self.asks)
        os.close(self.answers)
