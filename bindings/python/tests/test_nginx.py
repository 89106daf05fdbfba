"""share behind nginx, by the shipped configurations: nchan, a front for the page, and terminals over TLS."""

from __future__ import annotations

import os
import re
import shutil
import socket
import subprocess
import sys
import time
import unittest

from . import chromium
from .nginx import Nginx, free_port, has, is_taken
from .sharing import Shared, Watching, wait_for
from .test_page import Page

TOKEN, OTHER = "KzT4h0u2bGx7mWq1RjYc", "aaaaaaaaaaaaaaaaaaaa"
PUBLISHED = f"/demo/events?token={TOKEN}"
COUNTING = """
import itertools, os, sys, time
for n in itertools.takewhile(lambda n: n < %d and not os.path.exists('%s'), itertools.count()):
    print('\\x1b[H' + '\\n'.join(f'{n} ' * 9 for _ in range(9))); time.sleep(.05)
print('\\x1b[H\\x1b[Jthe end'); time.sleep(.3); sys.exit(3)
"""


class Published(Page):
    """A page that nginx serves. It comes back where the connection ends, as browsers do."""

    def __init__(self, nginx: Nginx, path: str = PUBLISHED, room: int | None = None) -> None:
        self.nginx, self.path, self.joins = nginx, path, 0
        self.sock = self.join()
        self.said, self.rows, self.messages, self.ended, self.lost = b"", [], [], None, 0
        if room:
            self.sock.setsockopt(socket.SOL_SOCKET, socket.SO_RCVBUF, room)

    def join(self) -> socket.socket:
        """A new connection."""
        self.joins += 1
        sock = self.nginx.connect()
        try:
            sock.sendall(f"GET {self.path} HTTP/1.0\r\nHost: localhost\r\n\r\n".encode())
        except OSError:
            sock.close()
            raise
        return sock

    def take(self, moment: dict) -> None:
        """Takes a message, unless it leads from one that was left out while it joined."""
        before = self.messages[-1] if self.messages else {}
        if moment.get("run") == before.get("run") and moment["n"] <= before["n"]:
            return
        super().take(moment)

    def read_to_the_end(self, seconds: float = 60.0) -> None:
        """Reads until it has been sent the end."""
        end = time.monotonic() + seconds
        while self.ended is None:
            if time.monotonic() > end:
                raise AssertionError(f"the end didn't come; {len(self.messages)} messages did")
            try:
                if self.read():
                    continue
            except OSError:
                pass
            self.sock.close()
            self.said = b""
            time.sleep(0.2)
            try:
                self.sock = self.join()
            except OSError:
                pass


@unittest.skipUnless(has("nchan") and shutil.which("openssl"), "there is no nginx, nchan or openssl")
class WithNchan(unittest.TestCase):
    def start(self, **changes: str) -> Nginx:
        nginx = Nginx("nginx.conf", **changes)
        self.addCleanup(nginx.__exit__)
        nginx.write("tokens.conf", f'"demo:{TOKEN}" 1;\n"other:{OTHER}" 1;\n')
        nginx.start()
        return nginx

    def publish(self, nginx: Nginx, program: str, *options: str) -> Shared:
        words = ("--publish", f"{nginx.folder}/pub.sock", "--as", "demo", "--http", "127.0.0.1:0", *options)
        shared = Shared(program, *words)
        self.addCleanup(shared.__exit__)
        return shared

    def watch(self, nginx: Nginx, room: int | None = None) -> Published:
        page = Published(nginx, PUBLISHED, room)
        self.addCleanup(lambda: page.sock.close())
        return page

    def test_who_may_watch(self):
        nginx = self.start()
        self.publish(nginx, "print('ready'); input()")
        for path in ("/demo/", "/demo/events"):
            for query in ("", "?token=", f"?token={OTHER}", f"?token={TOKEN}x", f"?x={TOKEN}", f"?token={TOKEN[:-1]}"):
                with self.subTest(path + query):
                    self.assertEqual(nginx.asked(path + query)[:12], b"HTTP/1.1 403")
            self.assertEqual(nginx.asked(f"{path}?token={TOKEN}")[:12], b"HTTP/1.1 200")
        self.assertEqual(nginx.asked(f"/other/?token={TOKEN}")[:12], b"HTTP/1.1 403")
        for method, path in (
            ("POST", f"/demo/events?token={TOKEN}"),
            ("DELETE", f"/demo/?token={TOKEN}"),
            ("POST", "/pub/demo"),
            ("GET", "/pub/demo"),
            ("GET", "/"),
            ("GET", f"/../demo/page.py?token={TOKEN}"),
            ("GET", f"/demo/page.py?token={TOKEN}"),
        ):
            with self.subTest(f"{method} {path}"):
                self.assertIn(nginx.asked(path, method=method)[9:12], (b"400", b"403", b"404", b"405"))
        for log in os.listdir(nginx.folder):
            if log.endswith(".log"):
                self.assertNotIn(TOKEN, nginx.read(log))

    def test_the_page(self):
        nginx = self.start()
        head, _, page = self.whole(nginx, f"/demo/?token={TOKEN}").partition(b"\r\n\r\n")
        nonce = re.search(rb"script-src 'nonce-(\w{32})'", head)[1]
        self.assertEqual(page.count(b'nonce="' + nonce), 2)
        self.assertNotIn(b"RANDOM-WORD", page)
        self.assertIn(b"text/html; charset=utf-8", head)
        self.assertIn(b"form-action 'none'", head)

    @staticmethod
    def whole(nginx: Nginx, path: str) -> bytes:
        with nginx.connect() as sock:
            sock.sendall(f"GET {path} HTTP/1.0\r\nHost: localhost\r\n\r\n".encode())
            answer = b""
            while data := sock.recv(65536):
                answer += data
            return answer

    def test_who_comes_late(self):
        nginx = self.start()
        shared = self.publish(nginx, COUNTING % (100, ''))
        for _ in range(5):
            page = self.watch(nginx)
            page.read_until("0")
            self.assertIn("size", page.messages[0])
            for _ in range(5):
                page.read()
            self.assertEqual(page.lost, 0)
            page.sock.close()
        last = self.watch(nginx)
        last.read_to_the_end()
        self.assertEqual((last.rows[0], last.ended, shared.end()), ("the end", 3, 3))
        late = self.watch(nginx)  # also after the end
        late.read_to_the_end()
        self.assertEqual((late.rows[0], late.ended), ("the end", 3))

    def test_restarted_in_mid_stream(self):
        nginx = self.start()
        shared = self.publish(nginx, COUNTING % (120, ''))
        page = self.watch(nginx)
        page.read_until("1")
        nginx.stop()
        time.sleep(1)
        nginx.start()
        page.read_to_the_end()
        self.assertGreater(page.joins, 1)
        self.assertEqual((page.lost, page.rows[0], page.ended, shared.end()), (0, "the end", 3, 3))
        self.assertIn("a message wasn't published", shared.said)
        self.assertNotIn("Traceback", shared.said)

    def test_nginx_comes_later(self):
        nginx = self.start()
        nginx.stop()
        shared = self.publish(nginx, "print('ready'); input()")
        wait_for(lambda: "a message wasn't published" in shared.said)
        nginx.start()
        page = self.watch(nginx)
        page.read_until("ready")

    def test_reloaded_with_other_tokens(self):
        nginx = self.start()
        shared = self.publish(nginx, COUNTING % (160, ''))
        page = self.watch(nginx)
        page.read_until("1")
        nginx.write("tokens.conf", f'"demo:{OTHER}" 1;\n')
        nginx.reload()
        wait_for(lambda: nginx.asked(f"/demo/?token={OTHER}")[:12] == b"HTTP/1.1 200")
        self.assertEqual(nginx.asked(f"/demo/?token={TOKEN}")[:12], b"HTTP/1.1 403")
        page.path = f"/demo/events?token={OTHER}"
        page.read_to_the_end()
        self.assertEqual((page.lost, page.rows[0], page.ended, shared.end()), (0, "the end", 3, 3))

    def test_limits(self):
        nginx = self.start()
        self.publish(nginx, "print('ready'); input()")
        pages = [self.watch(nginx) for _ in range(70)]
        answers = [page.sock.recv(12) for page in pages]
        for page in pages:
            page.sock.close()
        self.assertLessEqual(answers.count(b"HTTP/1.1 200"), 50)
        self.assertGreater(answers.count(b"HTTP/1.1 200"), 25)
        self.assertEqual(answers.count(b"HTTP/1.1 200") + answers.count(b"HTTP/1.1 429"), 70)

    def test_one_that_reads_nothing(self):
        """It is cut off, and one beside it loses nothing."""
        nginx = self.start(**{"send_timeout 10s": "send_timeout 3s", "sndbuf=32k": "sndbuf=8k"})
        rows = "'\\r\\n'.join(''.join(f'\\x1b[3{(n + k) % 8}m{(n + k) % 9}' for k in range(79)) for _ in range(23))"
        shared = self.publish(nginx, f"import time\nfor n in range(200): print('\\x1b[H' + {rows}); time.sleep(.05)")
        still, page = self.watch(nginx, 4096), self.watch(nginx)
        page.read_to_the_end()
        self.assertEqual((page.lost, page.ended, shared.end()), (0, 0, 0))
        still.sock.settimeout(5)
        with self.assertRaises(OSError):
            while still.sock.recv(65536):
                pass
            raise ConnectionError  # it was ended
        still.sock.close()

    @unittest.skipUnless(chromium.PROGRAM, "there is no Chromium")
    def test_in_chromium(self):
        nginx = self.start()
        shared = self.publish(nginx, COUNTING % (9999, f"{nginx.folder}/stop"))
        url = f"https://127.0.0.1:{nginx.port}/demo/?token={TOKEN}"
        with chromium.Chromium(url, "--ignore-certificate-errors") as browser:
            value = lambda name: browser.value(f"document.getElementById('{name}')?.textContent") or ""
            wait_for(lambda: value("state") == "live" and re.match(r"\d+ ", value("text")), 30)
            nginx.stop()
            wait_for(lambda: value("state") == "connecting again", 20)
            nginx.start()
            wait_for(lambda: value("state") == "live", 30)
            nginx.write("stop", "")
            wait_for(lambda: value("state") == "ended with status 3", 60)
            self.assertEqual(value("text").strip(), "the end")
            self.assertEqual(browser.value("document.title"), os.path.basename(sys.executable) + " - share")
            shared.end()
            self.publish(nginx, "print('another run'); input()")
            wait_for(lambda: value("state") == "live" and value("text").strip() == "another run", 30)


@unittest.skipUnless(has("nchan") and shutil.which("redis-server"), "there is no nginx with nchan, or no redis")
class WithRedis(unittest.TestCase):
    def test_two_servers(self):
        """What is posted to one is read from both, from the last whole message on."""
        port = free_port()
        words = ["redis-server", "--port", str(port), "--bind", "127.0.0.1", "--save", "", "--appendonly", "no"]
        redis = subprocess.Popen(words, stdin=subprocess.DEVNULL, stdout=subprocess.DEVNULL)
        self.addCleanup(redis.wait)
        self.addCleanup(redis.terminate)
        wait_for(lambda: is_taken(port))
        store = {"# upstream": "upstream", "# nchan_redis_pass": "nchan_redis_pass", ":6379": f":{port}"}
        with Nginx("nginx.conf", **store) as one, Nginx("nginx.conf", **store) as other:
            for nginx in (one, other):
                nginx.write("tokens.conf", f'"demo:{TOKEN}" 1;\n')
                nginx.start()
            words = ("--publish", f"{one.folder}/pub.sock", "--as", "demo")
            with Shared(COUNTING % (120, ""), *words) as shared:
                pages = [Published(one), Published(other)]
                pages[0].read_until("1")
                pages.append(Published(other))  # it comes late
                for page in pages:
                    page.read_to_the_end()
                    page.sock.close()
                    self.assertEqual((page.lost, page.rows[0], page.ended), (0, "the end", 3))
                    self.assertIn("size", page.messages[0])
                self.assertEqual(shared.end(), 3)


@unittest.skipUnless(has() and shutil.which("openssl"), "there is no nginx or openssl")
class Front(unittest.TestCase):
    def test_names_and_passwords(self):
        with Shared("print('ready'); input()", "--http", "127.0.0.1:0") as shared:
            with Nginx("front.conf", **{"127.0.0.1:8000": "%s:%d" % shared.place("browsers")}) as nginx:
                nginx.write("users", "ann:{PLAIN}secret\n")
                nginx.start()
                right, wrong = "Authorization: Basic YW5uOnNlY3JldA==", "Authorization: Basic YW5uOnNpY3JldA=="
                for path in ("/", "/events"):
                    self.assertEqual(nginx.asked(path)[:12], b"HTTP/1.1 401")
                    self.assertEqual(nginx.asked(path, wrong)[:12], b"HTTP/1.1 401")
                    self.assertEqual(nginx.asked(path, right)[:12], b"HTTP/1.1 200")
                self.assertEqual(nginx.asked("/", right, method="POST")[:12], b"HTTP/1.1 403")


@unittest.skipUnless(has("stream") and shutil.which("socat"), "there is no nginx with its stream module, or no socat")
class Stream(unittest.TestCase):
    def test_terminals_over_two_shares(self):
        program = "import time\nprint('begin'); time.sleep(4)\nprint('the end'); time.sleep(.5)"
        with Shared(program) as first:
            host, port = first.place()
            command = f"import os; os.execvp('socat', ['socat', '-u', 'tcp:{host}:{port}', '-'])"
            with Shared(command) as second:
                places = {"127.0.0.1:7001": "%s:%d" % first.place(), "127.0.0.1:7002": "%s:%d" % second.place()}
                with Nginx("stream.conf", **places) as nginx:
                    nginx.start()
                    watchers = [Watching(first, sock=nginx.connect()) for _ in range(6)]
                    for watcher in watchers:
                        watcher.read_until("the end", 20)
                        watcher.__exit__()


if __name__ == "__main__":
    unittest.main()
