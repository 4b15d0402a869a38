"""The programs that a script can be run in: domrun itself, and Chromium, Firefox and jsdom with the adapter.

`answers(engine, scripts, fixes)` gives for each script what the engine writes and the names of the fixes that were met.
"""
import base64
import json
import os
import re
import shutil
import socket
import subprocess
import sys
import tempfile
import time
from concurrent.futures import ThreadPoolExecutor

HERE = os.path.dirname(os.path.abspath(__file__))
sys.path.append(os.path.join(HERE, "..", "tools"))
import unproved  # noqa: E402

PROGRAM = os.path.normpath(os.path.join(HERE, "..", "crates", "domrun", "out", "domrun"))
# Seconds after which an engine is taken to give no answer to a batch of scripts.
PATIENCE = 600
SOURCES = ("lines.js", "commands.js", "lasting.js", "slots.js", "fixes.js", "queue.js", "faults.js", "adapter.js", "endless.js")


class Missing(Exception):
    """A program that is not on this machine, in one line."""


class NoAnswer(ConnectionError):
    """An engine that ended, or gave no answer in its time, in one line."""


def find(*names):
    """The path of the first of these programs that is there."""
    for name in names:
        path = shutil.which(name)
        if path:
            return path
    raise Missing(f"{names[0]} is not on this machine: harness/README.md says how to get it")


def run_within(words, **options):
    """Runs an engine's process to its end; what it wrote comes as text."""
    try:
        return subprocess.run(words, capture_output=True, text=True, check=False, timeout=PATIENCE, **options)
    except subprocess.TimeoutExpired:
        raise NoAnswer(f"no answer in {PATIENCE} seconds") from None


def end_of(text):
    """The end of what a process told, in one line."""
    return " ".join(text.split())[-300:]


class Program:
    """A built domrun."""

    def __init__(self, path: str) -> None:
        self.path = find(path)

    def run_one(self, script: str) -> str:
        done = subprocess.run([self.path, "-"], input=script.encode("latin-1"), capture_output=True, check=False)
        if done.returncode or done.stderr:
            raise SystemExit(f"{self.path}: status {done.returncode}: {done.stderr.decode()}")
        return done.stdout.decode("latin-1")

    def run(self, scripts: list[str]) -> list[str]:
        """What domrun writes for each script."""
        with ThreadPoolExecutor(os.cpu_count() or 1) as pool:
            return list(pool.map(self.run_one, scripts))


class Unproved:
    """The program as `rt try` builds it, without a proof: once, in about two minutes. It is not kept."""

    def __init__(self) -> None:
        find("rt")
        self.program = unproved.Program(lambda text: print(f"harness: {text}", file=sys.stderr, flush=True))

    def run_one(self, script: str) -> str:
        answer = self.program.answer(unproved.Case("", script.encode("latin-1")))
        if answer.fault:
            raise SystemExit(f"rt try: {answer.fault}\n{script}")
        return answer.output.decode("latin-1")

    def run(self, scripts: list[str]) -> list[str]:
        """What domrun writes for each script."""
        try:
            return [self.run_one(script) for script in scripts]
        except unproved.Fault as fault:
            raise SystemExit(str(fault)) from None


def page_of(given):
    """A page that runs what is given, and leaves a JSON list of the answers, in base 64, as its text."""
    sources = "\n".join(f"<script>{open(os.path.join(HERE, name)).read()}</script>" for name in SOURCES)
    given = json.dumps(given).replace("<", "\\u003c")
    return f"""<!DOCTYPE html><meta charset="utf-8"><pre id="out"></pre>{sources}<script>
      owlantimony.runAll(window, {given}).then((answers) => {{
        document.getElementById("out").textContent = btoa(unescape(encodeURIComponent(JSON.stringify(answers))));
      }});</script>"""


def answers_of(text):
    """The answers in what `runAll` of adapter.js gave, as JSON."""
    return [(answer["output"], set(answer["met"])) for answer in json.loads(text)]


class Chromium:
    """Headless Chromium: each batch of scripts is a page of its own, and its text is taken from the dumped DOM."""

    name = "chromium"
    batch = 250
    at_once = 1

    def __init__(self):
        self.path = find("chromium", "chromium-browser", "google-chrome")
        self.version = subprocess.run([self.path, "--version"], capture_output=True, text=True, check=True).stdout.strip()
        self.version = self.version.split(" built")[0]

    def run(self, given):
        with tempfile.TemporaryDirectory(ignore_cleanup_errors=True) as room:
            with open(os.path.join(room, "page.html"), "w", encoding="ascii", errors="xmlcharrefreplace") as page:
                page.write(page_of(given))
            words = [self.path, "--headless=new", "--no-sandbox", "--disable-gpu", f"--user-data-dir={room}/profile",
                     "--dump-dom", f"file://{room}/page.html"]
            done = run_within(words)
        found = re.search(r'<pre id="out">([^<]+)</pre>', done.stdout)
        if not found:
            raise NoAnswer(f"no answer: {end_of(done.stderr)}")
        return answers_of(base64.b64decode(found[1]))

    def close(self):
        pass


class Firefox:
    """Headless Firefox, driven over loopback by its remote protocol (Marionette: a length, a colon, and JSON)."""

    name = "firefox"
    batch = 250
    at_once = 1

    def __init__(self):
        self.path = find("firefox-esr", "firefox")
        version = subprocess.run([self.path, "--version"], capture_output=True, text=True, check=True).stdout
        self.version = version.strip().splitlines()[-1]
        self.start()

    def start(self):
        """Starts a process with a profile of its own, and a session in it."""
        self.room = tempfile.mkdtemp()
        with socket.socket() as free:
            free.bind(("127.0.0.1", 0))
            port = free.getsockname()[1]
        with open(os.path.join(self.room, "user.js"), "w", encoding="ascii") as prefs:
            prefs.write(f'user_pref("marionette.port", {port});\nuser_pref("dom.max_script_run_time", 0);\n')
        self.process = subprocess.Popen([self.path, "--headless", "--no-remote", "--marionette", "--profile", self.room],
                                        stdout=subprocess.DEVNULL, stderr=subprocess.DEVNULL)
        try:
            self.wire, self.last = self.connect(port), 0
            self.receive()
            self.send("WebDriver:NewSession", {"timeouts": {"script": 1000 * PATIENCE, "pageLoad": 1000 * PATIENCE}})
        except OSError as fault:
            self.close()
            raise SystemExit(f"firefox did not start: {fault}") from None

    def connect(self, port):
        end = time.monotonic() + PATIENCE
        while time.monotonic() < end and self.process.poll() is None:
            try:
                return socket.create_connection(("127.0.0.1", port), PATIENCE)
            except ConnectionRefusedError:
                time.sleep(0.2)
        raise NoAnswer("it opened no port")

    def receive(self):
        size = b""
        while not size.endswith(b":"):
            size += self.read(1)
        text = b""
        while len(text) < int(size[:-1]):
            text += self.read(1 << 20)
        return json.loads(text)

    def read(self, most):
        found = self.wire.recv(most)
        if not found:
            raise NoAnswer("it ended")
        return found

    def send(self, name, words):
        self.last += 1
        text = json.dumps([0, self.last, name, words]).encode()
        self.wire.sendall(str(len(text)).encode() + b":" + text)
        _, _, error, value = self.receive()
        if error:
            raise NoAnswer(f"{error['error']}: {error['message']}")
        return value

    def run(self, given):
        """Where there is no answer, another process is started for the scripts to come."""
        path = os.path.join(self.room, "page.html")
        with open(path, "w", encoding="ascii", errors="xmlcharrefreplace") as page:
            page.write(page_of(given))
        try:
            return answers_of(base64.b64decode(self.text_of(path)))
        except OSError as fault:
            self.close()
            self.start()
            raise NoAnswer(str(fault)) from fault

    def text_of(self, path):
        """The text that the page of this path leaves."""
        end = time.monotonic() + PATIENCE
        self.send("WebDriver:Navigate", {"url": f"file://{path}"})
        while time.monotonic() < end:
            words = {"script": 'return document.getElementById("out").textContent', "args": []}
            text = self.send("WebDriver:ExecuteScript", words)["value"]
            if text:
                return text
            time.sleep(0.1)
        raise NoAnswer(f"no answer in {PATIENCE} seconds")

    def close(self):
        self.process.terminate()
        try:
            self.process.wait(20)
        except subprocess.TimeoutExpired:
            self.process.kill()
            self.process.wait()
        shutil.rmtree(self.room, ignore_errors=True)


class Jsdom:
    """jsdom in node: each batch of scripts is a process of its own, with a bound on its heap, and at most two run at once."""

    name = "jsdom"
    batch = 20
    at_once = 2
    heap = 512

    def __init__(self):
        self.path = find("node", "nodejs")
        self.environment = {**os.environ, "NODE_PATH": os.environ.get("NODE_PATH", "/usr/share/nodejs")}
        words = [self.path, "-p", "'jsdom ' + require('jsdom/package.json').version + ', node ' + process.versions.node"]
        done = subprocess.run(words, capture_output=True, text=True, check=False, env=self.environment)
        if done.returncode:
            raise Missing("jsdom is not on this machine: harness/README.md says how to get it")
        self.version = done.stdout.strip()

    def run(self, given):
        words = [self.path, "--stack-size=4000", f"--max-old-space-size={self.heap}", os.path.join(HERE, "run_in_jsdom.js")]
        done = run_within(words, input=json.dumps(given), env=self.environment)
        if done.returncode:
            raise NoAnswer(f"node ended with status {done.returncode}: {end_of(done.stderr)}")
        return answers_of(done.stdout)

    def close(self):
        pass


ENGINES = {"chromium": Chromium, "firefox": Firefox, "jsdom": Jsdom}


def answers_of_batch(engine, given):
    """What the engine writes for each script of a batch. Where it gives no answer, each half is run as a batch; a script alone on which
    it gives none has that for its answer."""
    scripts, faults = given["scripts"], given["faults"]
    try:
        return engine.run(given)
    except NoAnswer as fault:
        if len(scripts) == 1:
            return [(f"harness: {engine.name}: {fault}\n", set())]
    half = len(scripts) // 2
    parts = [(scripts[:half], faults[:half]), (scripts[half:], faults[half:])]
    return [answer for part, of in parts for answer in answers_of_batch(engine, {**given, "scripts": part, "faults": of})]


def answers(engine, scripts, fixes=(), faults=()):
    """What the engine writes for each script, and which of the fixes were met, batch by batch. `faults` are planted, one for each."""
    batches = [{"scripts": scripts[start:start + engine.batch], "fixes": list(fixes), "faults": list(faults[start:start + engine.batch])}
               for start in range(0, len(scripts), engine.batch)]
    with ThreadPoolExecutor(engine.at_once) as pool:
        return [answer for found in pool.map(lambda batch: answers_of_batch(engine, batch), batches) for answer in found]
