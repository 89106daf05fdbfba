"""An nginx of a test's own, with a shipped configuration."""

from __future__ import annotations

import contextlib
import os
import re
import shutil
import signal
import socket
import ssl
import subprocess
import tempfile

from .sharing import PYTHON, wait_for

PROGRAM = shutil.which("nginx", path=f"{os.environ.get('PATH', '')}:/usr/sbin")
MODULES = "/usr/lib/nginx/modules"
CONFIGURATIONS = os.path.join(os.path.dirname(PYTHON), "share")


def has(*modules: str) -> bool:
    """Whether nginx is installed, with these modules."""
    return bool(PROGRAM) and all(os.path.exists(f"{MODULES}/ngx_{module}_module.so") for module in modules)


def free_port() -> int:
    """A port of the loopback that nobody has."""
    with socket.create_server(("127.0.0.1", 0)) as sock:
        return sock.getsockname()[1]


def is_taken(port: int) -> bool:
    """Whether somebody listens at a port of the loopback."""
    with socket.socket() as sock:
        return not sock.connect_ex(("127.0.0.1", port))


class Nginx:
    """nginx, from a shipped file. Its folders are replaced by one, and its port by a free one."""

    def __init__(self, name: str, is_plain: bool = False, **changes: str) -> None:
        self.folder = tempfile.mkdtemp(prefix="nginx-")
        os.chmod(self.folder, 0o755)
        self.port = free_port()
        with open(f"{CONFIGURATIONS}/{name}", encoding="utf-8") as file:
            text = file.read()
        folders = ("/run/share", "/etc/share", "/usr/local/lib/jeihpal/python")
        for before, after in zip(folders, (self.folder, self.folder, PYTHON)):
            text = text.replace(before, after)
        text = re.sub(r"listen (443|8443)( ssl( http2)?)", rf"listen 127.0.0.1:{self.port}\2", text)
        if is_plain:
            text = text.replace(" ssl http2", "")
        self._is_plain = is_plain
        for before, after in changes.items():
            assert before in text, before
            text = text.replace(before, after)
        self._path = f"{self.folder}/nginx.conf"
        with open(self._path, "w", encoding="utf-8") as file:
            file.write(text)
        self.write("tokens.conf", "")
        self._certify()
        self._run: subprocess.Popen[bytes] | None = None

    def _certify(self) -> None:
        """A certificate for localhost."""
        key, certificate = f"{self.folder}/key.pem", f"{self.folder}/cert.pem"
        made = ["-newkey", "ec", "-pkeyopt", "ec_paramgen_curve:P-256", "-nodes", "-keyout", key, "-out", certificate]
        name = ["-days", "2", "-subj", "/CN=localhost", "-addext", "subjectAltName=DNS:localhost,IP:127.0.0.1"]
        subprocess.run(["openssl", "req", "-x509", *made, *name], check=True, stderr=subprocess.DEVNULL)

    def write(self, name: str, text: str) -> None:
        """Writes a file that the configuration names."""
        with open(f"{self.folder}/{name}", "w", encoding="utf-8") as file:
            file.write(text)

    def read(self, name: str) -> str:
        """What a file says."""
        with open(f"{self.folder}/{name}", encoding="utf-8", errors="replace") as file:
            return file.read()

    def start(self) -> None:
        """Starts it."""
        words = [str(PROGRAM), "-c", self._path, "-e", f"{self.folder}/start.log", "-g", "daemon off;"]
        self._run = subprocess.Popen(words, stdin=subprocess.DEVNULL, stderr=subprocess.DEVNULL)
        wait_for(self.is_there, 20)

    def is_there(self) -> bool:
        """Whether it takes connections."""
        assert self._run
        if self._run.poll() is not None:
            raise AssertionError(self.read("start.log"))
        with contextlib.suppress(OSError), self.connect():
            return True
        return False

    def stop(self) -> None:
        """Ends it, and every connection."""
        if self._run:
            self._run.send_signal(signal.SIGTERM)
            self._run.wait(20)
            self._run = None

    def reload(self) -> None:
        """Has it read its files again."""
        assert self._run
        self._run.send_signal(signal.SIGHUP)

    def connect(self) -> socket.socket:
        """A connection over TLS, with its certificate checked, or a plain one."""
        context = ssl.create_default_context(cafile=f"{self.folder}/cert.pem")
        sock = socket.create_connection(("127.0.0.1", self.port), timeout=20)
        if self._is_plain:
            return sock
        try:
            return context.wrap_socket(sock, server_hostname="localhost")
        except OSError:
            sock.close()
            raise

    def asked(self, path: str, *fields: str, method: str = "GET") -> bytes:
        """The head of what a request is answered, and what comes with it."""
        with self.connect() as sock:
            sock.sendall("\r\n".join([f"{method} {path} HTTP/1.0", "Host: localhost", *fields, "", ""]).encode())
            answer = b""
            while b"\r\n\r\n" not in answer and (data := sock.recv(65536)):
                answer += data
            return answer

    def __enter__(self) -> Nginx:
        return self

    def __exit__(self, *_: object) -> None:
        self.stop()
        shutil.rmtree(self.folder, ignore_errors=True)
