"""Engines of JavaScript that run the package's checks."""

import functools, http.server, json, os, pathlib, shutil, subprocess, tempfile, threading

SECONDS = 300
TASKS = pathlib.Path(__file__).resolve().parents[3] / "examples/tasks/compare"
# The options that Node needs for memories of 64 bits: later versions have these memories by default, and Node 20 on request.
NODE_WORDS = ([], ["--experimental-wasm-memory64"])


class Skipped(Exception):
    """Why an engine runs nothing."""


class Node:
    name = "Node"

    def checks(self, room):
        """What all checks came to, over the package in a folder."""
        if not shutil.which("node"):
            raise Skipped("there is no node (Debian's package nodejs)")
        module = room / "node_modules/timefd/timefd.wasm"
        words = next((it for it in NODE_WORDS if self.takes(it, module)), None)
        if words is None:
            raise Skipped("this Node doesn't take the module")
        ran = subprocess.run(["node", *words, room / "tests/node.mjs", room / "rows"], capture_output=True, text=True, timeout=SECONDS)
        if ran.returncode:
            return [{"name": "node", "differs": ran.stderr}]
        return json.loads(ran.stdout) + [self.example(words, it) for it in sorted((room / "examples").glob("*.mjs"))]

    def example(self, words, script):
        """Runs an example over the text that is beside it, and compares what it writes."""
        given, wanted = (script.with_suffix(it) for it in (".in", ".out"))
        if not wanted.exists():
            return self.tasks(words, script)
        text = given.read_text() if given.exists() else ""
        ran = subprocess.run(["node", *words, script], input=text, capture_output=True, text=True, timeout=SECONDS)
        return {"name": script.name, "differs": None if ran.stdout == wanted.read_text() else ran.stdout + ran.stderr}

    def tasks(self, words, script):
        """Runs the example that does what one in each language does, over the files of all of them."""
        ran = subprocess.run([TASKS, "node", *words, script], capture_output=True, text=True, timeout=SECONDS)
        return {"name": script.name, "differs": ran.stdout + ran.stderr if ran.returncode else None}

    def takes(self, words, module):
        script = "process.exit(WebAssembly.validate(require('node:fs').readFileSync(process.argv[1])) ? 0 : 1)"
        return subprocess.run(["node", *words, "-e", script, module], stderr=subprocess.DEVNULL).returncode == 0


class TypeScript:
    name = "TypeScript"

    def checks(self, room):
        """What the compiler says of a program that takes all types of the package."""
        if not shutil.which("tsc"):
            raise Skipped("there is no tsc (Debian's package node-typescript)")
        words = ["--noEmit", "--strict", "--target", "es2022", "--lib", "es2022,dom", "--module", "nodenext", "--moduleResolution", "nodenext"]
        (room / "package.json").write_text('{ "type": "module" }')
        ran = subprocess.run(["tsc", *words, room / "tests/types.ts"], capture_output=True, text=True, timeout=SECONDS)
        return [{"name": "types.ts", "differs": ran.stdout + ran.stderr if ran.returncode else None}]


class Handler(http.server.SimpleHTTPRequestHandler):
    """Gives the files of a folder, and takes what the page posts."""

    extensions_map = {**http.server.SimpleHTTPRequestHandler.extensions_map, ".mjs": "text/javascript", ".wasm": "application/wasm"}

    def do_POST(self):
        self.server.posted = json.loads(self.rfile.read(int(self.headers["Content-Length"])))
        self.send_response(204)
        self.end_headers()
        self.server.answered.set()

    def log_message(self, *_):
        pass


class Browser:
    """A browser that opens the page of checks, without a window."""

    def checks(self, room):
        program = next(filter(None, map(shutil.which, self.commands)), None)
        if program is None:
            raise Skipped(f"there is no {self.commands[0]} (Debian's package {self.package})")
        server = http.server.ThreadingHTTPServer(("127.0.0.1", 0), functools.partial(Handler, directory=room))
        server.answered = threading.Event()
        threading.Thread(target=server.serve_forever, daemon=True).start()
        try:
            return self.posted(program, server)
        finally:
            server.shutdown()
            server.server_close()

    def posted(self, program, server):
        home = tempfile.mkdtemp(prefix="browser-")
        page = f"http://127.0.0.1:{server.server_port}/tests/page.html"
        how = {"env": {**os.environ, "HOME": home, "TMPDIR": home}, "stdout": subprocess.DEVNULL, "stderr": subprocess.DEVNULL}
        process = subprocess.Popen([program, *self.words(home), page], **how)
        try:
            if server.answered.wait(SECONDS):
                return server.posted
            return [{"name": "the page", "differs": f"the browser said nothing in {SECONDS} seconds"}]
        finally:
            process.terminate()
            process.wait()
            shutil.rmtree(home, ignore_errors=True)


class Chromium(Browser):
    name, commands, package = "Chromium", ("chromium",), "chromium"

    def words(self, home):
        return ["--headless=new", "--no-sandbox", "--disable-gpu", "--disable-dev-shm-usage", f"--user-data-dir={home}/profile"]


class Firefox(Browser):
    name, commands, package = "Firefox", ("firefox-esr", "firefox"), "firefox-esr"

    def words(self, home):
        profile = pathlib.Path(home, "profile")
        profile.mkdir()
        return ["--headless", "--no-remote", "--profile", str(profile)]
