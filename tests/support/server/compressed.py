"""What is asked of pages and how a reply of nginx is that of the index, and an index whose pages fail."""
from __future__ import annotations

import gzip
import http.server
import random
from collections.abc import Iterator

from support.proxy import InThread
from support.server.farm import PIP
from support.server.front import Front
from support.serving import JSON_PAGE

# what a client may say that takes gzip, and one that does not
PACKED = ("gzip", "gzip, deflate", "deflate, gzip;q=0.5", "GZIP", "br , gzip ; q=1.0, x", "gzip;q=0.001")
PLAIN = ("identity", "gzip;q=0", "gzip; q=0.000, deflate", "x-gzip", "deflate", "gzipped", "")
HTML_PAGE = "application/vnd.pypi.simple.v1+html"
PATHS = ("/simple/", "/simple/frob/", "/simple/frob", "/simple/FROB/", "/simple/ham/", "/simple/none/", "/simple//",
         "/simple/frob/?x=1", "/simple/%66rob/", "/simple/x/../frob/", "/simple/frob/x", "/simple/-/")
TYPES = (PIP, JSON_PAGE, HTML_PAGE, "text/html", "*/*", "image/png", "", "application/*", f"{JSON_PAGE};q=0, */*")


def drawn(chance: random.Random) -> tuple[str, str, dict[str, str]]:
    """A method, a path and headers at random."""
    types = ", ".join(chance.sample(TYPES, chance.choice([1, 1, 1, 2])))
    headers = {"Accept": types, "Accept_Encoding": chance.choice(PACKED + PLAIN)}
    headers.update({"Via": "1.1 elsewhere"} if chance.random() < 0.2 else {})
    headers.update({"Range": "bytes=3-9"} if chance.random() < 0.2 else {})
    return chance.choice(["GET", "GET", "HEAD"]), chance.choice(PATHS), headers


def unpacked(reply: tuple) -> bytes:
    """The body as it was before it was compressed."""
    return gzip.decompress(reply[2]) if reply[1]["Content-Encoding"] == "gzip" and reply[2] else reply[2]


def differences(reply: tuple, of_index: tuple, accept_encoding: str) -> Iterator[str]:
    """In what a reply of nginx is not that of the index, as a client gets it that says this."""
    status, headers, _ = reply
    kind = of_index[1]["Content-Type"]
    charset = "; charset=utf-8" if kind in ("text/html", HTML_PAGE) else ""
    is_packed = accept_encoding in PACKED and kind in ("text/html", JSON_PAGE, HTML_PAGE)
    wanted = {"Content-Type": f"{kind}{charset}" if kind else None, "Location": of_index[1]["Location"],
              "Vary": "Accept, Accept-Encoding",
              "Content-Encoding": "gzip" if is_packed else None,
              "Content-Length": None if is_packed else of_index[1]["Content-Length"]}
    if status != of_index[0]:
        yield f"status {status} in place of {of_index[0]}"
    for name, value in wanted.items():
        if headers.get_all(name, [None]) != [value]:
            yield f"{name} {headers.get_all(name)} in place of {value}"
    if unpacked(reply) != of_index[2]:
        yield f"{unpacked(reply)[:200]!r} in place of {of_index[2][:200]!r}"


class FailingIndex(InThread):
    """Stands for an index that gives a page to each path, or fails as `fault` says: `status` answers 500, and `cut`
    ends each connection within the page. A POST is told the length of its body."""
    PAGE = b'{"files":[' + b'{"filename":"frob-1.0.tar.gz"},' * 3000 + b"]}"
    FAULT = b'{"answer":"fault","name":"Store"}'

    def __init__(self) -> None:
        self.fault, failing = "", self

        class Handler(http.server.BaseHTTPRequestHandler):
            def do_GET(self) -> None:
                is_fault = failing.fault == "status"
                body = failing.FAULT if is_fault else failing.PAGE
                self.send_response_only(500 if is_fault else 200)
                self.send_header("Content-Type", "application/json" if is_fault else JSON_PAGE)
                self.send_header("Content-Length", str(len(body)))
                self.end_headers()
                self.wfile.write(body[:len(body) // 2] if failing.fault == "cut" else body)

            def do_POST(self) -> None:
                read = self.rfile.read(int(self.headers["Content-Length"]))
                # (a 405 is answered by nginx, with a body of its own)
                self.send_response_only(400)
                self.end_headers()
                self.wfile.write(b"%d" % len(read))

            def log_message(self, *_: object) -> None:
                pass

        self.server = http.server.ThreadingHTTPServer(("127.0.0.1", 0), Handler)
        self.port = self.server.server_port


class CountingFront(Front):
    """It keeps a page for an hour, and counts what each of the two servers compressed. nginx.conf has gzip_vary, as
    many have it."""

    def __init__(self, folder: str, certificate: str, port: int):
        super().__init__(folder, certificate, port)
        self.put("conf.d/a.conf", "gzip_vary on; log_format ratios '$gzip_ratio';\n")
        self.put("index/server.d/ratios.conf", f"access_log {folder}/sent.log ratios;\n")
        place = f"listen 127.0.0.1:{self.compressing};\n    access_log "
        for path, old, new in (("conf.d/packages.conf", f"{place}off;", f"{place}{folder}/compressed.log ratios;"),
                               ("index/kept-pages.conf", "404 406 1s;", "404 406 1h;")):
            with open(f"{folder}/{path}") as conf:
                self.put(path, conf.read(), **{old: new})

    def ratios(self, log: str) -> list[str]:
        """For each reply that was sent, or that was fetched of the index, how much shorter it was made, or `-`."""
        with open(f"{self.folder}/{log}.log") as lines:
            return lines.read().split()
