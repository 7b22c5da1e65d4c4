"""What bench and bench-behind-nginx share: what is installed here, other servers, and bytes that all have to give."""
import gzip
import subprocess
import sys
import urllib.request

from support.places import is_program
from support.server.front import Nginx
from support.serving import JSON_PAGE, Running, free_port, listens

FILES = "server {{ listen 127.0.0.1:{port}; root {root}; gzip_static on; }}\n"


def want_program(path):
    """Ends the run if the built program is missing."""
    if not is_program(path):
        raise SystemExit(f"no program is at {path}: `tools/build` builds it; --program PATH names another")


def first_line_of(*words):
    """The first line that a command prints, on either stream."""
    ended = subprocess.run(words, stdout=subprocess.PIPE, stderr=subprocess.STDOUT, timeout=10, text=True)
    return ended.stdout.splitlines()[0].strip() if ended.stdout else "unknown"


def fetched(url, encoding="identity"):
    """The bytes at an address, past any proxy. The run ends if they do not come in this encoding."""
    request = urllib.request.Request(url, headers={"Accept": JSON_PAGE, "Accept-Encoding": encoding})
    with urllib.request.build_opener(urllib.request.ProxyHandler({})).open(request, timeout=30) as reply:
        if reply.headers.get("Content-Encoding", "identity") != encoding:
            raise SystemExit(f"{url} does not come as {encoding}: {reply.headers}")
        return gzip.decompress(reply.read()) if encoding == "gzip" else reply.read()


def check_same(addresses, wanted, encoding="identity"):
    """Ends the run if one of these addresses, by name, gives other bytes."""
    for name, url in addresses.items():
        if fetched(url, encoding) != wanted:
            raise SystemExit(f"the bytes of {name} at {url} are not those of the index")


class Files(Nginx):
    """nginx alone, with plain files, and pages compressed beforehand."""

    def __init__(self, folder, root):
        super().__init__(folder)
        self.put("conf.d/files.conf", FILES.format(port=self.port, root=root))


class Python(Running):
    """`python3 -m http.server`, with the same files."""

    def __init__(self, root):
        self.port = free_port()
        command = [sys.executable, "-m", "http.server", str(self.port), "--bind", "127.0.0.1", "--directory", root]
        super().__init__(command, stdout=subprocess.DEVNULL, stderr=subprocess.DEVNULL)

    def __enter__(self):
        super().__enter__()
        if not listens(self.port):
            self.__exit__()
            raise SystemExit("http.server does not listen")
        return self
