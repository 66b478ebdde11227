#!/usr/bin/env python3
"""Sends the requests of docs/HANDHELDS.md to `ldar JOURNAL drain`, and compares the responses with those of the page.

- each request of the page, in order, over one pipe, and the responses byte for byte
- each kind of fact of its tables, in a batch of its own
- the batch in bytes, through `dock`
- requests by Python's http.client and by curl over real sockets, one connection after another

usage: bench/handhelds.py [--write]     (--write puts the actual responses into the page)"""
import http.client
import json
import os
import re
import shutil
import socket
import subprocess
import sys
import tempfile

HERE = os.path.dirname(os.path.dirname(os.path.abspath(__file__)))
LDAR = f"{HERE}/ldar"
PAGE = f"{HERE}/docs/HANDHELDS.md"
FAILED = []


def check(what, is_so, *shown):
    print(f"{'ok  ' if is_so else 'NOT '} {what}", *(shown if not is_so else ()))
    if not is_so:
        FAILED.append(what)


def on_the_wire(block):
    """The bytes of a request or response of the page: lines of its head end with CR LF, its body is as shown."""
    head, _, body = block.partition("\n\n")
    return (head.rstrip("\n") + "\n\n").replace("\n", "\r\n").encode() + body.encode()


def blocks(text):
    """The page's requests and responses, in order: the kind, and the text."""
    return re.findall(r"^```(request|response|bytes)\n(.*?)^```$", text, re.M | re.S)


def request_of(block):
    """A request with the length of its body."""
    head, _, body = block.partition("\n\n")
    body = body.rstrip("\n")
    if body:
        stated = int(re.search(r"Content-Length: (\d+)", head)[1])
        check(f"the length that the page states, {stated}", stated == len(body), len(body))
    return on_the_wire(f"{head}\n\n{body}")


def drained(journal, sent):
    ran = subprocess.run([LDAR, journal, "drain"], input=sent, capture_output=True)
    return ran.returncode, ran.stdout, ran.stderr.decode()


def over_a_socket(journal, talk):
    """Serves one connection by a process of its own, as a listener would, while talk is the client."""
    with socket.create_server(("127.0.0.1", 0)) as listener:
        port = listener.getsockname()[1]
        child = os.fork()
        if child == 0:
            peer, _ = listener.accept()
            os.dup2(peer.fileno(), 0)
            os.dup2(peer.fileno(), 1)
            os.execv(LDAR, [LDAR, journal, "drain"])
        listener.close()
        try:
            return talk(port)
        finally:
            os.waitpid(child, 0)


def the_page(folder):
    with open(PAGE, encoding="utf-8") as it:
        text = it.read()
    journal = f"{folder}/page.journal"
    subprocess.run([LDAR, journal, "init"], check=True)
    shown = [it for it in blocks(text) if it[0] != "bytes"]
    sent = b"".join(request_of(body) for kind, body in shown if kind == "request")
    status, came, notes = drained(journal, sent)
    check("drain ends well", status == 0, status, notes)
    wanted = [on_the_wire(body) for kind, body in shown if kind == "response"]
    for number, one in enumerate(wanted, 1):
        check(f"response {number}", came.startswith(one), came[: len(one) + 80], one)
        came = came[len(one) :]
    check("no further bytes come", came == b"", came)
    return journal, text


def kinds(folder, text):
    """Each kind of the tables, alone in a batch, in an office that has what it refers to."""
    journal = f"{folder}/kinds.journal"
    subprocess.run([LDAR, journal, "init"], check=True)
    examples = [(kind, json.loads(fact)) for kind, fact in re.findall(r"^\| `(\w+)` \| `(\{.*?\})` \|", text, re.M)]
    check("fifteen kinds", len(examples) == 15, len(examples))
    desk = "unit component class retire election shutdown".split()
    before = [
        {"kind": "unit", "day": "2020-01-15", "minute": 0, "unit": 1, "older": False, "name": "CRUDE"},
        *({"kind": "component", "day": "2024-01-01", "minute": 0, "component": number, "unit": 1, "type": kind, "monomer": False, "replaces": False,
           "service": service, "designation": "none", "plan": 0, "month": 1}
          for number, kind, service in ((1, "valve", "light"), (3, "relief", "gas"), (4, "compressor", "gas"))),
    ]
    batches = [{"handheld": 0, "number": 1, "facts": before}]
    batches += [{"handheld": 0 if kind in desk else 7, "number": number, "facts": [fact]} for number, (kind, fact) in enumerate(examples, 2)]
    sent = b"".join(post(json.dumps(it).encode()) for it in batches)
    status, came, _ = drained(journal, sent)
    bodies = re.findall(rb"\r\n\r\n(.*?)\n", came)
    for (kind, _), body in zip([("register", 0), *examples], bodies):
        check(f"kind {kind}", body.startswith(b"receipt"), body)
    check("as many answers", len(bodies) == 16 and status == 0, len(bodies), status)


def post(body):
    return b"POST /sync HTTP/1.1\r\nHost: office\r\nContent-Length: %d\r\n\r\n%s" % (len(body), body)


def in_bytes(journal, text):
    sent = bytes.fromhex("".join(body for kind, body in blocks(text) if kind == "bytes"))
    ran = subprocess.run([LDAR, journal, "dock"], input=sent, capture_output=True)
    check("the batch in bytes is the one that was kept", (ran.returncode, ran.stdout) == (0, b"receipt 7 1 2\n"), ran.returncode, ran.stdout)


def by_client(journal):
    def talk(port):
        asked = http.client.HTTPConnection("127.0.0.1", port)
        said = []
        for path in ("/tags/1/2024-02-21", "/due/1/2024-02-21", "/percent/1/16/2024-02-21", "/nothing"):
            asked.request("GET", path)
            answer = asked.getresponse()
            said.append((answer.status, answer.getheader("Content-Type"), answer.read()))
        asked.request("POST", "/sync", json.dumps({"handheld": 9, "number": 1, "facts": [
            {"kind": "reading", "day": "2024-02-22", "minute": 700, "component": 1, "instrument": 1, "operator": 3, "purpose": "follow", "ppm": 90, "background": 1}]}))
        answer = asked.getresponse()
        said.append((answer.status, answer.getheader("Content-Type"), answer.read()))
        asked.close()
        return said

    said = over_a_socket(journal, talk)
    check("http.client reads each answer", [it[0] for it in said] == [200, 200, 200, 404, 200], said)
    check("and what each is", all(it[1] == "text/plain" for it in said) and said[-1][2] == b"receipt 9 1 3\n", said)


def by_curl(journal):
    if not shutil.which("curl"):
        print("-    curl is not here: passed over")
        return
    def talk(port):
        where = f"http://127.0.0.1:{port}"
        batch = json.dumps({"handheld": 9, "number": 2, "facts": [{"kind": "attempt", "day": "2024-02-23", "minute": 700, "component": 1, "complete": False}]})
        words = ["curl", "--http1.1", "-sS", f"{where}/tags/1/2024-02-23", "--next", "--http1.1", "-sS", "-H", "Content-Type: application/json", "-d", batch, f"{where}/sync"]
        return subprocess.run(words, capture_output=True, timeout=60)

    ran = over_a_socket(journal, talk)
    check("curl is answered, twice over one connection", ran.returncode == 0 and ran.stdout.endswith(b"receipt 9 2 4\n"), ran)


def write_page():
    """Puts the actual responses into the page."""
    with open(PAGE, encoding="utf-8") as it:
        text = it.read()
    def framed(match):
        head, _, body = match[1].partition("\n\n")
        body = body.rstrip("\n")
        return "```request\n" + re.sub(r"Content-Length: \d+", f"Content-Length: {len(body)}", head) + f"\n\n{body}" + "\n" * bool(body) + "```"
    text = re.sub(r"^```request\n(.*?)^```$", framed, text, flags=re.M | re.S)
    with tempfile.TemporaryDirectory() as folder:
        journal = f"{folder}/page.journal"
        subprocess.run([LDAR, journal, "init"], check=True)
        parts, at = [], 0
        for match in re.finditer(r"^```request\n(.*?)^```\n(?:```response\n.*?^```\n)?", text, re.M | re.S):
            head, _, body = match[1].partition("\n\n")
            _, came, _ = drained(journal, on_the_wire(f"{head}\n\n" + body.rstrip("\n")))
            parts += [text[at : match.start()], f"```request\n{match[1]}```\n```response\n{came.decode().replace(chr(13), '')}```\n"]
            at = match.end()
        text = "".join([*parts, text[at:]])
    with open(PAGE, "w", encoding="utf-8") as it:
        it.write(text)


def main():
    if sys.argv[1:] == ["--write"]:
        write_page()
        return
    with tempfile.TemporaryDirectory() as folder:
        journal, text = the_page(folder)
        in_bytes(journal, text)
        kinds(folder, text)
        by_client(journal)
        by_curl(journal)
    print(f"{len(FAILED)} failed")
    sys.exit(bool(FAILED))


main()
