"""What the scripts of the desk share: the office on a port, Caddy in front of it as in deploy/Caddyfile, and a client with a password.

LDAR_PROGRAM in the environment names the program, if it is not the built one."""
import base64
import contextlib
import http.client
import json
import os
import shutil
import signal
import socket
import ssl
import struct
import subprocess
import sys
import time

from cases import HERE
from cases import PROGRAM as BUILT

PROGRAM = os.environ.get("LDAR_PROGRAM", BUILT)
DEPLOY = f"{HERE}/deploy"
USER, PASSWORD = "desk", "leak definition 500"
WORKERS = 8
DAY = "2024-02-21"
LONG = 5_000  # valves of unit 2


def free_port():
    with socket.create_server(("127.0.0.1", 0)) as it:
        return it.getsockname()[1]


def basic(password):
    """The field by which a client sends a password."""
    return b"Basic " + base64.b64encode(f"{USER}:{password}".encode())


def ask_office(port, batch):
    """Sends a batch to the office itself; its status and its line."""
    it = http.client.HTTPConnection("127.0.0.1", port, timeout=60)
    it.request("POST", "/sync", json.dumps(batch), {"Connection": "close"})
    answer = it.getresponse()
    said = answer.status, answer.read().decode()
    it.close()
    return said


def needs(*tools):
    """Ends the script with a word if a tool is missing."""
    if missing := [it for it in tools if not shutil.which(it)]:
        sys.exit(f"not here: {', '.join(missing)} (apt-get install caddy chromium chromium-driver python3-selenium)")


class Office:
    """The program, serving a journal on a port."""

    def __init__(self, journal, port, workers=WORKERS, before=()):
        self.journal, self.port, self.workers, self.before = journal, port, workers, before
        self.start()

    def start(self):
        command = [*self.before, PROGRAM, self.journal, "serve", str(self.port), str(self.workers)]
        self.process = subprocess.Popen(command, stdin=subprocess.DEVNULL, stdout=subprocess.DEVNULL, stderr=subprocess.PIPE)
        line = self.process.stderr.readline().decode()
        if not line.startswith("listening on"):
            sys.exit(f"the office does not listen: {line}")

    def stop(self):
        self.process.send_signal(signal.SIGTERM)
        self.process.wait(30)
        self.process.stderr.close()


class Front:
    """Caddy with the repository's Caddyfile, on a free port of 127.0.0.1."""

    def __init__(self, folder, office_port, page=f"{DEPLOY}/page", before=()):
        self.port, self.data = free_port(), f"{folder}/caddy"
        hashed = subprocess.run(["caddy", "hash-password", "--plaintext", PASSWORD], capture_output=True, text=True, check=True).stdout
        with open(f"{folder}/users", "w", encoding="utf-8") as it:
            it.write(f"{USER} {hashed}")
        env = {**os.environ, "LDAR_SITE": f"https://localhost:{self.port}", "LDAR_TLS": "internal", "LDAR_PORT": str(office_port),
               "LDAR_PAGE": page, "LDAR_USERS": f"{folder}/users", "XDG_DATA_HOME": self.data, "XDG_CONFIG_HOME": self.data, "HOME": folder}
        self.log = open(f"{folder}/caddy.log", "ab")
        command = [*before, "caddy", "run", "--config", f"{DEPLOY}/Caddyfile", "--adapter", "caddyfile"]
        self.process = subprocess.Popen(command, env=env, stdin=subprocess.DEVNULL, stdout=self.log, stderr=self.log, cwd=folder)
        self.root = f"{self.data}/caddy/pki/authorities/local/root.crt"
        until = time.time() + 60
        while True:
            try:
                with self.connected():
                    return
            except OSError:
                if time.time() > until or self.process.poll() is not None:
                    sys.exit(f"caddy does not listen: {folder}/caddy.log says why")
                time.sleep(0.1)

    def context(self):
        it = ssl.create_default_context(cafile=self.root)
        it.set_alpn_protocols(["h2", "http/1.1"])
        return it

    @contextlib.contextmanager
    def connected(self):
        """A TLS connection, as a socket."""
        with socket.create_connection(("127.0.0.1", self.port), timeout=200) as raw:
            with self.context().wrap_socket(raw, server_hostname="localhost") as it:
                yield it

    def client(self):
        context = ssl.create_default_context(cafile=self.root)
        return http.client.HTTPSConnection("localhost", self.port, context=context, timeout=200)

    def ask(self, path, body=None, password=PASSWORD, client=None, **fields):
        """The status, the fields and the body of a response."""
        it = client or self.client()
        head = {name.replace("_", "-"): value for name, value in fields.items()}
        if password is not None:
            head["Authorization"] = basic(password).decode()
        for is_last in (client is None, True):
            try:
                it.request("GET" if body is None else "POST", path, body=body, headers=head)
                answer = it.getresponse()
                break
            except http.client.RemoteDisconnected:
                # A connection that was kept open may have ended since; as a browser, it is made anew once.
                it.close()
                if is_last:
                    raise
        said = answer.read()
        if client is None:
            it.close()
        return answer.status, answer.headers, said

    def stop(self):
        self.process.send_signal(signal.SIGTERM)
        self.process.wait(30)
        self.log.close()


def shown(journal, *words):
    """What `ldar JOURNAL show` prints. Only one process can have a journal open, so this reads a copy."""
    copy = f"{journal}.copy"
    shutil.copyfile(journal, copy)
    return subprocess.run([PROGRAM, copy, "show", *map(str, words)], capture_output=True, text=True).stdout


def init(journal):
    if os.path.exists(journal):
        os.remove(journal)
    subprocess.run([PROGRAM, journal, "init"], check=True)


def dock(journal, batches):
    ran = subprocess.run([PROGRAM, journal, "dock"], input=b"".join(batches), capture_output=True, check=True)
    refused = [it for it in ran.stdout.decode().splitlines() if not it.startswith("receipt")]
    if refused:
        sys.exit(f"not kept: {refused[:3]}")


def batch(handheld, number, facts):
    return struct.pack(">BHIH", 0x42, handheld, number, len(facts)) + b"".join(facts)


def batches(handheld, facts, first=1):
    """Facts as batches of at most 512, numbered from the first on."""
    return [batch(handheld, first + at // 512, facts[at : at + 512]) for at in range(0, len(facts), 512)]


def unit_fact(unit, day, name):
    return struct.pack(">BHHBB12s", 1, day, 0, unit, 0, name.encode())


def valve_fact(component, unit, day):
    """A valve in gas service."""
    return struct.pack(">BHHH8B", 2, day, 0, component, unit, 1, 0, 0, 1, 0, 0, 1)


def long_unit(journal):
    """Unit 2 with 5,000 valves that nobody reads, since 2024-01-15; and unit 3 with none."""
    start = 19_737
    facts = [unit_fact(2, start, "COKER-2"), unit_fact(3, start, "FLARE"), *(valve_fact(10_000 + it, 2, start) for it in range(LONG))]
    dock(journal, batches(0, facts, first=100))


def working_day(journal):
    """The working day of ./demo: 1,200 valves of unit 1, each read on 2024-02-20, three of them leaking."""
    init(journal)
    units = '[[unit]]\nnumber = 1\nname = "CRUDE"\nstartup = "2024-01-15"\nolder = false\n'
    valves = "component,unit,kind,service,designation,plan,month,monomer,replaces,begin\n"
    valves += "".join(f"{it},1,valve,gas,none,0,1,0,0,2024-01-15\n" for it in range(1, 1_201))
    for number, what, text in ((1, "units", units), (2, "components", valves)):
        subprocess.run([PROGRAM, journal, "import", str(number), what], input=text.encode(), check=True, capture_output=True)
    sent = []
    for handheld in (1, 2, 3):
        of = [(400 * (handheld - 1) + it, 700 if it == 7 else 20) for it in range(1, 401)]
        sent.append(batch(handheld, 1, [struct.pack(">BHHHHHBII", 10, 19_773, 600, it, handheld, handheld, 1, ppm, 0) for it, ppm in of]))
        sent.append(batch(handheld, 2, [struct.pack(">BHHHIIII", 8, 19_754, 60, handheld, *[500] * 4),
                                        struct.pack(">BHHHI", 7, 19_773, 300, handheld, 500),
                                        struct.pack(">BHHHIIII", 9, 19_773, 900, handheld, *[500] * 4)]))
    dock(journal, sent)
