"""Pages in headless Chromium, driven through DevTools by a pipe: `peers.html`, which sends itself messages over a relay, the page
of `examples/web`, and `call.html`, a side of a call.
"""

import contextlib
import fcntl
import json
import os
import pathlib
import select
import subprocess
import sys
import tempfile
import time

PAGE = pathlib.Path(__file__).with_name("peers.html")
FLAGS = ["--headless=new", "--no-sandbox", "--disable-gpu", "--remote-debugging-pipe", "--allow-loopback-in-peer-connection",
         "--autoplay-policy=no-user-gesture-required", "--disable-background-timer-throttling",
         "--disable-backgrounding-occluded-windows", "--disable-renderer-backgrounding"]
SECONDS = 60  # how long an answer is waited for, that of the page after all its messages too
ABOVE = 10  # the pipe's ends are moved here before they become the descriptors 3 and 4


class Browser:
    """A running browser. Its DevTools read requests from descriptor 3 and write answers to 4, each ended by a zero."""

    def __init__(self, words, profile):
        read_requests, self.requests = os.pipe()
        self.answers, write_answers = os.pipe()

        def set_descriptors():
            ends = [fcntl.fcntl(end, fcntl.F_DUPFD, ABOVE) for end in (read_requests, write_answers)]
            for end, descriptor in zip(ends, (3, 4)):
                os.dup2(end, descriptor)

        self.process = subprocess.Popen(
            [*words, *FLAGS, f"--user-data-dir={profile}", "about:blank"], preexec_fn=set_descriptors, close_fds=False,
            stdout=subprocess.DEVNULL, stderr=subprocess.DEVNULL)
        os.close(read_requests)
        os.close(write_answers)
        self.rest, self.count = b"", 0

    def piece(self, end):
        """What comes from the browser next, before a moment of the clock that is never set back."""
        readable, _, _ = select.select([self.answers], [], [], max(0, end - time.monotonic()))
        if not readable:
            raise TimeoutError("the browser doesn't answer")
        found = os.read(self.answers, 1 << 16)
        if not found:
            raise EOFError("the browser ended")
        return found

    def ask(self, method, session=None, **params):
        """Sends a request, and returns its result. Events that come before it are passed over."""
        end = time.monotonic() + SECONDS
        self.count += 1
        request = {"id": self.count, "method": method, "params": params}
        if session:
            request["sessionId"] = session
        os.write(self.requests, json.dumps(request).encode() + b"\0")
        while True:
            while b"\0" not in self.rest:
                self.rest += self.piece(end)
            line, _, self.rest = self.rest.partition(b"\0")
            answer = json.loads(line)
            if answer.get("id") == self.count:
                return answer["result"]


class Page:
    """A page of a browser."""

    def __init__(self, browser, url):
        self.browser = browser
        target = browser.ask("Target.createTarget", url="about:blank")["targetId"]
        self.session = browser.ask("Target.attachToTarget", targetId=target, flatten=True)["sessionId"]
        browser.ask("Page.enable", self.session)
        browser.ask("Page.navigate", self.session, url=url)

    def evaluate(self, name, expression):
        """Returns the value of an expression, once the page has defined a name."""
        loaded = f'while (typeof {name} === "undefined") await new Promise((go) => setTimeout(go, 10));'
        call = f"(async () => {{ {loaded} return {expression}; }})()"
        found = self.browser.ask("Runtime.evaluate", self.session, expression=call, awaitPromise=True, returnByValue=True)
        return found["result"].get("value")


@contextlib.contextmanager
def started(*words):
    """A browser that these words start, with a profile of its own."""
    with tempfile.TemporaryDirectory(ignore_cleanup_errors=True) as profile:
        browser = Browser(words, profile)
        try:
            yield browser
        finally:
            browser.process.terminate()
            browser.process.wait(10)


@contextlib.contextmanager
def opened(program, url):
    """A page in a browser of its own: what evaluates an expression in it, once the page has defined a name."""
    with started(program) as browser:
        yield Page(browser, url).evaluate


def exchange(program, url, username, password, count):
    """Returns what `peers.html` saw of messages over the relay with this URL, of a user."""
    with opened(program, PAGE.as_uri()) as evaluate:
        return evaluate("exchange", f'exchange("{url}", "{username}", "{password}", {count})')


def shown(program, url):
    """Returns what the page of `examples/web` at a URL shows once it is done: its outcome, and the rows of each table."""
    rows = 'Array.from(document.getElementById(name).rows, (row) => Array.from(row.cells, (cell) => cell.textContent))'
    tables = f'["candidates", "errors"].map((name) => {rows})'
    with opened(program, url) as evaluate:
        return evaluate("trial", f'trial.then(() => [document.getElementById("outcome").textContent, ...{tables}])')


if __name__ == "__main__":
    print(json.dumps(exchange(*sys.argv[1:5], int(sys.argv[5]))))
