#!/usr/bin/python3
"""The office on a desk: installed, served behind Caddy, backed up and restored. bench/page.py is about the page itself.

install   deploy/install over a copy of /usr/local, /etc and /var/lib that is thrown away: files, services, the user, the journal; the
          program without the toolchain; what `systemd-analyze` says of the services; --prefix; --uninstall
calls     the system calls that the program and Caddy make, beside those that the services allow
front     passwords, limits, slow clients, connections kept open, 512 readings, handhelds that sync while the page loads
backup    the two lines of the page's help: a copy under load, restored, with each batch that was receipted before the copy

usage: bench/desk.py [install] [calls] [front] [backup]     (without words: all)
It needs Debian's caddy, and `install` needs root."""
import contextlib
import itertools
import json
import os
import re
import shutil
import socket
import subprocess
import sys
import tempfile
import threading
import time

import desk_kit as kit
from cases import HERE, IS_ROOT, case, ended, pass_over
from desk_kit import DAY, DEPLOY, Front, Office, PROGRAM, WORKERS

SERVICES = ("ldar", "ldar-front")
NONE = f"/due/9/{DAY}"  # a view that the office answers by 404 at once: there is no unit 9
FILES = ["bin/ldar", "share/man/man1/ldar.1", "share/ldar/Caddyfile", "share/ldar/settings",
         *(f"share/ldar/page/{it}" for it in ("index.html", "office.js", "page.css", "page.js"))]


def run(*words, **more):
    return subprocess.run(words, capture_output=True, text=True, **more)


# ---- install

def below(folder):
    """The files below a folder."""
    return sorted(os.path.relpath(os.path.join(at, it), folder) for at, _, names in os.walk(folder) for it in names)


def with_prefix(folder):
    """Files only, in a folder of one's own."""
    it, env = f"{folder}/prefix", {**os.environ, "LDAR_PROGRAM": PROGRAM}
    said = run(f"{DEPLOY}/install", "--prefix", it, env=env)
    wanted = sorted([*FILES, *(f"lib/systemd/system/{name}.service" for name in SERVICES)])
    case("--prefix: status and files", (said.returncode, below(it)), (0, wanted))
    case("--prefix: the program is the built one", kit_bytes(f"{it}/bin/ldar") == kit_bytes(PROGRAM), True)
    for name in SERVICES:
        unit = f"{it}/lib/systemd/system/{name}.service"
        with open(unit, encoding="utf-8") as text:
            case(f"{name}: names files below the folder", "/usr/local" in text.read(), False)
        verified = run("systemd-analyze", "verify", "--man=no", unit)
        case(f"{name}: systemd-analyze verify", (verified.returncode, verified.stderr), (0, ""))
        said = run("systemd-analyze", "security", "--offline=true", "--no-pager", unit).stdout
        exposure = float(re.search(r"Overall exposure level for \S+: (\S+)", said)[1])
        case(f"{name}: exposure of {exposure}, at most 2.0", exposure <= 2.0, True)
    case("again, over itself", (run(f"{DEPLOY}/install", "--prefix", it, env=env).returncode, below(it)), (0, wanted))
    case("--uninstall leaves no file", (run(f"{DEPLOY}/install", "--prefix", it, "--uninstall").returncode, below(it)), (0, []))
    case("words that are none", run(f"{DEPLOY}/install", "--prefx").returncode, 2)


def kit_bytes(path):
    with open(path, "rb") as it:
        return it.read()


# Runs as root in a mount namespace of its own, where /usr/local, /etc and /var/lib are copies that are thrown away.
WHOLE = r"""
set -e
mount -t tmpfs tmpfs "$FOLDER"
for it in usr/local etc var/lib; do
    mkdir -p "$FOLDER/$it.up" "$FOLDER/$it.work"
    mount -t overlay overlay -o "lowerdir=/$it,upperdir=$FOLDER/$it.up,workdir=$FOLDER/$it.work" "/$it"
done
"$DEPLOY/install"
echo "--- installed"
(cd "$FOLDER" && find usr/local.up etc.up/ldar etc.up/systemd var/lib.up/ldar -type f | sort)
stat -c '%U %a %n' /var/lib/ldar /var/lib/ldar/unit.journal /etc/ldar/users
systemd-analyze verify --man=no ldar.service ldar-front.service && echo verified
# no toolchain from here on
for it in $TOOLCHAIN; do if [ -d "$it" ]; then mount -t tmpfs tmpfs "$it"; else mount --bind /dev/null "$it"; fi; done
env -i /usr/local/bin/ldar /var/lib/ldar/unit.journal check
# an upgrade keeps what is there
before=$(cat /etc/ldar/* /var/lib/ldar/unit.journal | sha256sum)
"$DEPLOY/install" >/dev/null
[ "$before" = "$(cat /etc/ldar/* /var/lib/ldar/unit.journal | sha256sum)" ] && echo kept
# the two services by hand, as the units start them
runuser -u ldar -- /usr/local/bin/ldar /var/lib/ldar/unit.journal serve 18041 8 2>/dev/null & office=$!
LDAR_SITE=https://localhost:18441 LDAR_PORT=18041 LDAR_PAGE=/usr/local/share/ldar/page XDG_DATA_HOME=/var/lib/ldar-front HOME=/var/lib/ldar-front \
    caddy run --config /usr/local/share/ldar/Caddyfile --adapter caddyfile 2>/var/lib/caddy.log & front=$!
for it in $(seq 100); do sleep 0.2; if curl -ks https://localhost:18441 >/dev/null; then break; fi; done
curl -ks -u "desk:$(sed -n 's/.*only now: //p' "$FOLDER/../install.out")" https://localhost:18441/ | grep -o '<title>.*</title>'
kill $office $front
{ wait $office $front || true; } 2>/dev/null
"$DEPLOY/install" --uninstall >/dev/null
echo "--- left"
(cd "$FOLDER" && find usr/local.up etc.up/systemd etc.up/ldar var/lib.up/ldar -type f | sort)
"""


def whole(folder):
    """The installation of a machine, over copies of its folders."""
    if not IS_ROOT or run("unshare", "--mount", "true").returncode:
        pass_over("no root, or no mount namespace: the whole installation")
        return
    os.mkdir(f"{folder}/over")
    toolchain = " ".join(it for it in ("/opt/rattle", f"{HERE}/crates") if os.path.isdir(it))
    program = shutil.copy(PROGRAM, f"{folder}/program")
    with open(f"{folder}/install.out", "w", encoding="utf-8") as out:
        ran = subprocess.run(["unshare", "--mount", "sh", "-c", WHOLE], stdout=out, stderr=subprocess.PIPE, text=True, stdin=subprocess.DEVNULL,
                             env={**os.environ, "FOLDER": f"{folder}/over", "DEPLOY": DEPLOY, "LDAR_PROGRAM": program, "TOOLCHAIN": toolchain})
    with open(f"{folder}/install.out", encoding="utf-8") as it:
        said = it.read()
    steps, _, rest = said.partition("--- installed\n")
    rest, _, left = rest.partition("--- left\n")
    case("install: ends well", (ran.returncode, ran.stderr), (0, ""))
    print("       " + "\n       ".join(re.sub("only now: .*", "only now: ...", steps).splitlines()))
    kept = ["etc.up/ldar/settings", "etc.up/ldar/users", "var/lib.up/ldar/unit.journal"]
    files = sorted([*kept, *(f"usr/local.up/{it}" for it in FILES), *(f"etc.up/systemd/system/{it}.service" for it in SERVICES)])
    lines = rest.splitlines()
    case("install: its files", lines[: len(files)], files)
    case("install: who owns them", lines[len(files) :][:3], ["ldar 750 /var/lib/ldar", "ldar 600 /var/lib/ldar/unit.journal", "root 600 /etc/ldar/users"])
    case("install: verified, runs without the toolchain, keeps what is there, shows the page",
         lines[len(files) + 3 :], ["verified", "journal 0 batches 0 facts", "kept", "<title>LDAR office</title>"])
    case("--uninstall: what is left", left.splitlines(), kept)


def install(folder):
    with_prefix(folder)
    whole(folder)


# ---- system calls

def allowed(unit):
    """The system calls that a service allows."""
    def members(name):
        said = run("systemd-analyze", "syscall-filter", "--no-pager", name).stdout
        words = {it.split()[0] for it in said.splitlines()[1:] if it.strip() and not it.strip().startswith("#")}
        return {it for it in words if it[0] != "@"}.union(*(members(it) for it in words if it[0] == "@"))
    names = set()
    with open(f"{DEPLOY}/{unit}.service", encoding="utf-8") as it:
        for line in it:
            if line.startswith("SystemCallFilter="):
                words = line.strip().partition("=")[2]
                listed = set().union(*(members(it) for it in words.lstrip("~").split()))
                names = names - listed if words[0] == "~" else names | listed
    return names


def made(trace):
    """The names of the system calls in a trace, and the families of its sockets."""
    with open(trace, encoding="utf-8", errors="replace") as it:
        text = it.read()
    return set(re.findall(r"^\d+ +(\w+)\(", text, re.M)), set(re.findall(r"\bsocket\((\w+)", text))


def calls(folder):
    if not shutil.which("strace"):
        pass_over("no strace here: the system calls")
        return
    journal = f"{folder}/calls.journal"
    kit.init(journal)
    port = kit.free_port()
    traced = lambda name: ["strace", "-D", "-f", "-qq", "-s", "0", "-o", f"{folder}/{name}.trace"]
    office = Office(journal, port, before=traced("ldar"))
    front = Front(folder, port, before=traced("caddy"))
    for number in range(3):
        front.ask("/sync", json.dumps({"handheld": 7, "number": number, "facts": [calibration(number)]}))
        front.ask(f"/due/1/{DAY}")
        front.ask("/")
    front.stop()
    office.stop()
    # Go asks for more open files than LimitNOFILE gives, and goes on without them.
    for name, unit, families, spare in (("ldar", "ldar", {"AF_INET"}, set()),
                                        ("caddy", "ldar-front", {"AF_INET", "AF_INET6", "AF_UNIX", "AF_NETLINK"}, {"prlimit64", "setrlimit"})):
        names, sockets = made(f"{folder}/{name}.trace")
        # (what runs the program first is the service manager's)
        case(f"{name}: {len(names)} calls; those that {unit}.service does not allow", sorted(names - allowed(unit) - spare - {"execve"}), [])
        case(f"{name}: families of sockets beside those allowed", sorted(sockets - families), [])


# ---- the front

def calibration(minute):
    return {"kind": "calibration", "day": DAY, "minute": minute % 1_440, "instrument": 1, "gas": 500}


def readings():
    return [{"kind": "reading", "day": DAY, "minute": 700, "component": it, "instrument": 1, "operator": 3, "purpose": "routine", "ppm": 20,
             "background": 2} for it in range(1, 513)]


def connections(port):
    """How many connections the office has."""
    wanted = f":{port:04X}"
    with open("/proc/net/tcp", encoding="ascii") as it:
        return sum(line.split()[1].endswith(wanted) and line.split()[3] == "01" for line in it.readlines()[1:])


def passwords(front, journal):
    for path in ("/", "/page.js", f"/due/1/{DAY}", "/nothing"):
        for what, password in (("no password", None), ("a wrong password", "x")):
            status, fields, body = front.ask(path, password=password)
            case(f"{what} at {path}: it is asked for", (status, "WWW-Authenticate" in fields, body), (401, True, b"401 Unauthorized"))
    before = checked(journal)
    status, _, _ = front.ask("/sync", json.dumps({"handheld": 7, "number": 99, "facts": [calibration(1)]}), password="x")
    case("a batch with a wrong password is not kept", (status, checked(journal)), (401, before))
    status, fields, body = front.ask("/")
    case("the page with the password", (status, b"LDAR office" in body, "default-src 'none'" in fields["Content-Security-Policy"]), (200, True, True))
    case("a path that leads out of the page's folder", front.ask("/../Caddyfile")[0] in (400, 404), True)
    case("other paths are the page's, and not the office's", front.ask("/drain")[0], 404)
    for site, wanted in (("cross-site", 403), ("same-site", 403), ("same-origin", 200)):
        body = json.dumps({"handheld": 7, "number": 98, "facts": [calibration(2)]})
        case(f"a batch that a browser sends for a page of the {site} kind", front.ask("/sync", body, Sec_Fetch_Site=site)[0], wanted)


def limits(front):
    batch = json.dumps({"handheld": 8, "number": 1, "facts": readings()})
    status, _, body = front.ask("/sync", batch)
    case("a batch of 512 readings", (status, body[:12]), (200, b"receipt 8 1 "))
    padded = batch + " " * (262_144 - len(batch))
    case("262,144 bytes", front.ask("/sync", padded)[::2], (200, body))
    case("262,145 bytes", front.ask("/sync", padded + " ")[::2], (413, b"413 Request Entity Too Large"))
    case("as many in chunks", front.ask("/sync", iter([padded.encode(), b" "]))[0] >= 400, True)
    case("a small batch in chunks: the office wants its length", front.ask("/sync", iter([batch.encode()]))[0], 501)
    case("a head of more than 8 kB", front.ask("/", X_Long="x" * 20_000)[0], 431)
    with front.connected() as it:
        case("HTTP/2 is not offered", it.selected_alpn_protocol(), "http/1.1")
    case("a method that the office does not know", front.ask("/sync")[0], 405)


class Slow(threading.Thread):
    """A client that sends a byte a second. How long it was listened to."""

    def __init__(self, front, head):
        super().__init__(daemon=True)
        self.front, self.head, self.seconds, self.said = front, head, None, b""
        self.start()

    def run(self):
        with self.front.connected() as it:
            began = time.monotonic()
            it.sendall(self.head)
            it.settimeout(1)
            while time.monotonic() - began < 150:
                try:
                    it.sendall(b"x")
                    piece = it.recv(4_096)
                    self.said += piece
                    if not piece:
                        break
                except TimeoutError:
                    pass
                except OSError:
                    break
            self.seconds = time.monotonic() - began


def not_taking(front, request):
    """A client that sends a request, has little room for the response, and takes nothing of it."""
    it = socket.socket()
    it.setsockopt(socket.SOL_SOCKET, socket.SO_RCVBUF, 4_096)
    it.connect(("127.0.0.1", front.port))
    it = front.context().wrap_socket(it, server_hostname="localhost")
    it.sendall(request)
    return it


def all_of(client):
    """What a client gets until the end."""
    with client:
        client.settimeout(200)
        return b"".join(iter(lambda: client.recv(65_536), b""))


def slow_clients(front, office):
    token = kit.basic(kit.PASSWORD)
    heads = [Slow(front, b"GET / HTTP/1.1\r\nHost: localhost\r\nX-Slow: ") for _ in range(2)]
    bodies = [Slow(front, b"POST /sync HTTP/1.1\r\nHost: localhost\r\nAuthorization: %s\r\nContent-Length: 1000\r\n\r\n{" % token) for _ in range(2 * WORKERS)]
    time.sleep(4)
    case(f"{2 * WORKERS} slow bodies are with Caddy: connections of the office", connections(office.port), 0)
    began = time.monotonic()
    case("another client is answered meanwhile", front.ask(NONE)[0], 404)
    case("long before they are cut off", time.monotonic() - began < 25, True)
    for what, slow, least, most in (("head", heads, 8, 25), ("body", bodies, 50, 90)):
        for it in slow:
            it.join(160)
        case(f"a client that is slow in its {what} is cut off within {most} seconds", all(it.seconds and least < it.seconds < most for it in slow), True)
    case("no batch came of it", front.ask("/sync", "{")[0], 400)


class Stand:
    """In the office's place: two workers, each serves a connection to its end, with one long list to every request."""

    def __init__(self, text):
        self.head, self.text = b"HTTP/1.1 200 OK\r\nContent-Type: text/plain\r\nContent-Length: %d\r\n\r\n" % len(text), text
        self.listener = socket.create_server(("127.0.0.1", 0))
        self.port = self.listener.getsockname()[1]
        for _ in range(2):
            threading.Thread(target=self.work, daemon=True).start()

    def work(self):
        while True:
            with self.listener.accept()[0] as client:
                came = b""
                while b"\r\n\r\n" not in came:
                    came += client.recv(4_096)
                with contextlib.suppress(OSError):
                    client.sendall(self.head + self.text)


def untaken(folder):
    """Clients that do not take what they asked for hold no worker, and get all of it later."""
    office = Stand(b"".join(b"%d monthly 2024-03-31 open\n" % it for it in range(400_000)))
    it = Front(folder, office.port)
    try:
        request = f"GET /due/1/{DAY} HTTP/1.1\r\nHost: localhost\r\nConnection: close\r\nAuthorization: ".encode() + kit.basic(kit.PASSWORD) + b"\r\n\r\n"
        # (the first answer takes longer, since a hashed password is dear to compare, and is kept from then on)
        case("a client that takes it", it.ask(f"/due/1/{DAY}")[2] == office.text, True)
        lazy = [not_taking(it, request) for _ in range(8)]
        time.sleep(10)
        # (Caddy gives them up after 120 seconds; a busy machine takes longer than 10 to hand them over)
        until = time.monotonic() + 60
        while connections(office.port) and time.monotonic() < until:
            time.sleep(0.2)
        case("eight answers that nobody takes are with Caddy: connections of two workers", connections(office.port), 0)
        case("another client is answered meanwhile", it.ask(f"/due/1/{DAY}")[2] == office.text, True)
        came = [all_of(one).partition(b"\r\n\r\n")[2] for one in lazy]
        case(f"each of {len(office.text):,} bytes comes whole, once it is taken", [one == office.text for one in came], [True] * 8)
    finally:
        it.stop()


def kept_open(front, office):
    """Clients that keep their connections open hold no worker; those of the office itself would."""
    clients = [front.client() for _ in range(2 * WORKERS)]
    for _ in range(2):
        said = []
        asking = [threading.Thread(target=lambda it=it: said.append(front.ask(NONE, client=it)[0])) for it in clients]
        for it in asking:
            it.start()
        for it in asking:
            it.join()
        case(f"{2 * WORKERS} clients that stay are answered", said, [404] * 2 * WORKERS)
        case("connections of the office while they stay", connections(office.port), 0)
        case("one more is answered", front.ask(NONE)[0], 404)
    for it in clients:
        it.close()
    direct = [socket.create_connection(("127.0.0.1", office.port)) for _ in range(WORKERS)]
    waiting = threading.Thread(target=front.ask, args=(NONE,))
    time.sleep(0.5)
    waiting.start()
    waiting.join(3)
    case("(without a server in front, silent clients do hold them: a request waits)", waiting.is_alive(), True)
    for it in direct:
        it.close()
    waiting.join(60)
    case("(and is answered once they leave)", waiting.is_alive(), False)


def together(front, journal):
    """Two handhelds sync while the page and its lists are loaded, again and again."""
    wrong, positions, going = [], [], [True]

    def handheld(name):
        client = front.client()
        for number in range(1, 21):
            status, _, body = front.ask("/sync", json.dumps({"handheld": name, "number": number, "facts": [calibration(number)]}), client=client)
            words = body.decode().split()
            if status != 200 or words[:3] != ["receipt", str(name), str(number)]:
                wrong.append((name, number, status, body))
            else:
                positions.append(int(words[3]))

    def page():
        client = front.client()
        for path in itertools.cycle(["/", "/page.css", "/office.js", "/page.js", f"/due/1/{DAY}", f"/tags/1/{DAY}", f"/route/1/{DAY}/25"]):
            status, _, body = front.ask(path, client=client)
            if status != 200 or not body:
                wrong.append((path, status))
            if not going[0]:
                return

    handhelds = [threading.Thread(target=handheld, args=(it,)) for it in (21, 22)]
    pages = [threading.Thread(target=page) for _ in range(2)]
    for it in [*handhelds, *pages]:
        it.start()
    for it in handhelds:
        it.join()
    going[0] = False
    for it in pages:
        it.join()
    case("two handhelds sync while the page loads: what went wrong", wrong, [])
    case("40 batches at 40 positions", len(set(positions)), 40)
    case("and all are in the journal", int(checked(journal).split()[1]) >= max(positions), True)


def checked(journal):
    """What `check` says of a copy of a journal."""
    shutil.copyfile(journal, f"{journal}.copy")
    return run(PROGRAM, f"{journal}.copy", "check").stdout


def down(front, office):
    office.stop()
    case("an office that is down", front.ask(NONE)[0], 502)
    case("the page is there all the same", front.ask("/")[0], 200)
    office.start()
    case("an office that is back", front.ask(NONE)[0], 404)


def front(folder):
    untaken(folder)
    journal = f"{folder}/front.journal"
    kit.working_day(journal)
    office = Office(journal, kit.free_port())
    it = Front(folder, office.port)
    try:
        passwords(it, journal)
        limits(it)
        kept_open(it, office)
        slow_clients(it, office)
        down(it, office)
        together(it, journal)
        with open(f"{folder}/caddy.log", encoding="utf-8") as log:
            text = log.read()
        case("the log has the user's name, and no password", ("desk" in text, kit.basic(kit.PASSWORD).decode() in text), (True, False))
    finally:
        it.stop()
        office.stop()


# ---- backup

def help_lines():
    """The lines of the page's help for backup and restore."""
    with open(f"{DEPLOY}/page/index.html", encoding="utf-8") as it:
        text = re.search(r'<pre id="backup">(.*?)</pre>', it.read(), re.S)[1]
    return text.replace("&amp;", "&").splitlines()


def backup(folder):
    """The journal is copied while handhelds sync, and put back later; `systemctl` is this script's."""
    save, restore = help_lines()
    for page in ("docs/DESK.md", "README.md"):
        case(f"the lines are those of {page}", f"{save}\n{restore}\n".encode() in kit_bytes(f"{HERE}/{page}"), True)
    journal, port = f"{folder}/unit.journal", kit.free_port()
    kit.init(journal)
    office = Office(journal, port)
    receipts, going = {}, [True]

    def handheld(name):
        number = 0
        while going[0]:
            number += 1
            status, body = kit.ask_office(port, {"handheld": name, "number": number, "facts": [calibration(number)]})
            if status == 200:
                receipts[name, number] = int(body.split()[3])

    def shell(line):
        line = line.replace("/var/lib/ldar/unit.journal", journal)
        parts = [it.strip() for it in line.split("&&")]
        for it in parts:
            if it == "systemctl stop ldar":
                office.stop()
            elif it == "systemctl start ldar":
                office.start()
            else:
                subprocess.run(["sh", "-c", it], check=True, cwd=folder)

    syncing = [threading.Thread(target=handheld, args=(it,)) for it in (31, 32)]
    for it in syncing:
        it.start()
    opened, backups = [], 20
    for number in range(backups):
        time.sleep(0.2)
        before = max(receipts.values(), default=0)
        shell(save)
        said = run(PROGRAM, f"{folder}/unit.backup", "check").stdout
        opened.append(bool(said) and int(said.split()[1]) >= before)
        if number < backups - 1:
            os.remove(f"{folder}/unit.backup")
    case(f"{backups} copies under load open, each with what was receipted before", opened, [True] * backups)
    last = dict(receipts)
    while len(receipts) < len(last) + 40:
        time.sleep(0.05)
    going[0] = False
    for it in syncing:
        it.join()
    kept = int(run(PROGRAM, f"{folder}/unit.backup", "check").stdout.split()[1])
    shell(restore)
    case("after the restore the office has what the copy had", int(checked(journal).split()[1]), kept)
    again = []
    for (name, number), position in sorted(receipts.items(), key=lambda it: it[1]):
        status, body = kit.ask_office(port, {"handheld": name, "number": number, "facts": [calibration(number)]})
        again.append(status == 200 and (position > kept or int(body.split()[3]) == position))
    case("a batch of the copy gets its old receipt, and a later one is kept when it is sent again", all(again), True)
    case("then nothing is missing", int(checked(journal).split()[1]) >= len(receipts), True)
    office.stop()


def main():
    kit.needs("caddy", "systemd-analyze")
    parts = {"install": install, "calls": calls, "front": front, "backup": backup}
    for name in sys.argv[1:] or parts:
        with tempfile.TemporaryDirectory() as folder:
            parts[name](folder)
    ended()


main()
