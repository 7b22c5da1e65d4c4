"""An index as you might write it yourself, with Python's http.server and sqlite3: it takes uploads and gives them back.
An upload is committed and synced before it is answered. The arguments are a port of loopback and the path of the
database; the one token is `office`."""
import hashlib
import json
import re
import sqlite3
import sys
from http.server import BaseHTTPRequestHandler, HTTPServer

SCHEMA = """
PRAGMA journal_mode = WAL;
PRAGMA synchronous = FULL;
CREATE TABLE users (token_sha256 TEXT PRIMARY KEY, name TEXT NOT NULL);
CREATE TABLE names (name TEXT PRIMARY KEY, owner TEXT NOT NULL);
CREATE TABLE files (file TEXT PRIMARY KEY, name TEXT REFERENCES names, digest TEXT NOT NULL, body BLOB NOT NULL);
"""
FILE = re.compile(r"/files/([a-z0-9-]+)/(\1-[0-9][A-Za-z0-9.+_-]*\.(?:tar\.gz|whl))")


class Handler(BaseHTTPRequestHandler):
    protocol_version = "HTTP/1.1"

    def user(self):
        token = hashlib.sha256(self.headers.get("X-Index-Token", "").encode()).hexdigest()
        found = database.execute("SELECT name FROM users WHERE token_sha256 = ?", (token,)).fetchone()
        return found and found[0]

    def body(self):
        return self.rfile.read(int(self.headers["Content-Length"]))

    def answer(self, status, body):
        self.send_response(status)
        self.send_header("Content-Length", str(len(body)))
        self.send_header("Connection", "close")
        self.end_headers()
        self.wfile.write(body)

    def do_POST(self):
        request, user = json.loads(self.body()), self.user()
        if user is None or request["do"] != "claim":
            return self.answer(403, b'{"answer":"refused"}')
        with database:
            database.execute("INSERT OR IGNORE INTO names VALUES (?, ?)", (request["name"], user))
        self.answer(200, b'{"answer":"accepted"}')

    def do_PUT(self):
        path, user, body = FILE.fullmatch(self.path), self.user(), self.body()
        digest = hashlib.sha256(body).hexdigest()
        owner = path and database.execute("SELECT owner FROM names WHERE name = ?", (path[1],)).fetchone()
        if user is None or owner != (user,) or digest != self.headers["X-Index-SHA256"]:
            return self.answer(403, b'{"answer":"refused"}')
        try:
            with database:
                database.execute("INSERT INTO files VALUES (?, ?, ?, ?)", (path[2], path[1], digest, body))
        except sqlite3.IntegrityError:
            return self.answer(409, b'{"answer":"refused"}')
        self.answer(201, b'{"answer":"accepted"}')

    def do_GET(self):
        path = FILE.fullmatch(self.path)
        found = path and database.execute("SELECT body FROM files WHERE file = ?", (path[2],)).fetchone()
        self.answer(200 if found else 404, found[0] if found else b"")

    def log_message(self, *_):
        pass


database = sqlite3.connect(sys.argv[2])
database.executescript(SCHEMA)
database.execute("INSERT INTO users VALUES (?, 'office')", (hashlib.sha256(b"office").hexdigest(),))
database.commit()
HTTPServer(("127.0.0.1", int(sys.argv[1])), Handler).serve_forever()
