"""The server: what it serves, what it refuses, and what it bears."""
import concurrent.futures
import http.client
import json
import os
import signal
import socket
import subprocess
import sys
import tempfile
import threading
import unittest
from pathlib import Path

import programs
import serving

TOP = Path(__file__).resolve().parent.parent
DF1 = os.environ.get("DF1", str(TOP / "crates/df1/out/df1"))


class Served(unittest.TestCase):
    """A server over the built program, and one that asks it."""

    program = programs.Program([DF1], seconds=60)

    def setUp(self):
        self.server = serving.Server(self.program, b"# mine\nend\n")
        threading.Thread(target=self.server.serve_forever, args=(0.05,), daemon=True).start()
        self.addCleanup(self.server.server_close)
        self.addCleanup(self.server.shutdown)

    def ask(self, method, path, body=None, headers=None):
        """The status, the body and the headers of an answer."""
        talk = http.client.HTTPConnection("127.0.0.1", self.server.server_port, timeout=60)
        talk.request(method, path, body, headers or {})
        answer = talk.getresponse()
        found = answer.status, answer.read(), answer.headers
        talk.close()
        return found

    def raw(self, data):
        """What is answered to these bytes."""
        with socket.create_connection(("127.0.0.1", self.server.server_port), timeout=60) as talk:
            talk.sendall(data)
            talk.shutdown(socket.SHUT_WR)
            found = b""
            while piece := talk.recv(65536):
                found += piece
            return found


class Answers(Served):
    def test_the_page_and_its_parts_are_served_and_nothing_else(self):
        for path in ("/", "/page.js", "/page.css", "/picture.css", "/examples", "/script"):
            self.assertEqual(self.ask("GET", path)[0], 200, path)
        self.assertEqual(self.ask("GET", "/script")[1], b"# mine\nend\n")
        for path in ("/index.html", "/../serving.py", "/..%2fserving.py", "/shown/page.js", "/page.js/", "/%2e%2e/df1", "/etc/passwd"):
            self.assertEqual(self.ask("GET", path)[0], 404, path)
        for path in ("/", "/script", "/check", "/serve"):
            self.assertEqual(self.ask("POST", path, b"end\n")[0], 404, path)
        self.assertEqual(self.ask("PUT", "/script", b"x")[0], 501)

    def test_nothing_from_outside_is_named(self):
        for path, (_, body) in self.server.files.items():
            if path not in ("/examples", "/script"):
                self.assertNotRegex(body.decode().replace("http://www.w3.org/", ""), r"https?://|@import|//[a-z]+\.[a-z]", path)

    def test_a_script_and_a_capture_are_answered(self):
        status, body, headers = self.ask("POST", "/replay", b"ai 0603\nak 99\nend\n")
        self.assertEqual((status, headers["Content-Type"]), (200, "application/json"))
        self.assertEqual(json.loads(body)["report"], "a sent 100201000600010003100" + "3F5\ndeceived 0\n")
        self.assertEqual(json.loads(self.ask("POST", "/dissect?side=full&check=bcc", b"10 06")[1])["heard"], 1)

    def test_it_listens_here_alone(self):
        self.assertEqual(self.server.socket.getsockname()[0], "127.0.0.1")

    def test_no_other_page_may_frame_script_or_read_it(self):
        headers = self.ask("GET", "/")[2]
        policy = headers["Content-Security-Policy"]
        for rule in ("default-src 'none'", "script-src 'self'", "connect-src 'self'", "frame-ancestors 'none'"):
            self.assertIn(rule, policy)
        self.assertNotIn("unsafe", policy)
        self.assertEqual((headers["Cross-Origin-Resource-Policy"], headers["X-Content-Type-Options"]), ("same-origin", "nosniff"))


class Refusals(Served):
    def test_requests_of_other_origins_are_refused(self):
        own = f"http://127.0.0.1:{self.server.server_port}"
        self.assertEqual(self.ask("POST", "/replay", b"end\n", {"Origin": own})[0], 200)
        for origin in ("http://example.org", "null", f"{own}0", "http://127.0.0.1", own.replace("http", "https")):
            self.assertEqual(self.ask("POST", "/replay", b"end\n", {"Origin": origin})[0], 403, origin)
        self.assertEqual(self.ask("GET", "/script", headers={"Sec-Fetch-Site": "cross-site"})[0], 403)
        for host in ("example.org", f"example.org:{self.server.server_port}", "127.0.0.1", ""):
            self.assertEqual(self.ask("GET", "/script", headers={"Host": host})[0], 403, host)

    def test_a_body_over_the_limit_is_refused_unread(self):
        port = self.server.server_port
        head = f"POST /replay HTTP/1.1\r\nHost: 127.0.0.1:{port}\r\n"
        for length, status in ((17 * 2**20 + 1, b"413"), (10**30, b"413"), ("-1", b"411"), ("x", b"411"), ("²", b"411")):
            answer = self.raw(f"{head}Content-Length: {length}\r\n\r\n".encode())
            self.assertEqual(answer.split(b" ")[1], status, length)
        self.assertEqual(self.raw(f"{head}\r\n".encode()).split(b" ")[1], b"411")
        self.assertEqual(self.raw(f"{head}Content-Length: 9\r\n\r\nend".encode()).split(b" ")[1], b"400")

    def test_words_that_are_none_are_refused(self):
        self.assertEqual(self.ask("POST", "/replay?from=x", b"end\n")[0], 400)
        for words in ("", "?side=full", "?side=full&check=bcc%20x", "?side=--help&check=bcc", "?side=full&check=bcc&way=UP"):
            self.assertEqual(self.ask("POST", f"/dissect{words}", b"1006")[0], 400, words)

    def test_html_in_a_comment_is_text(self):
        script = b"# </svg><script>alert(1)</script><img src=x onerror=alert(1)>\nai 0603\n# \"' onload=alert(1) <b>\nak 99\nend\n"
        picture = json.loads(self.ask("POST", "/replay", script)[1])["picture"]
        self.assertNotRegex(picture, "<script|<img|<b>")
        self.assertIn("&lt;script&gt;", picture)
        self.assertNotRegex(picture, r"<[^>]*\sonload")

    def test_what_is_no_text_is_answered(self):
        for body in (b"\xff\xfe\x00", b"\x00" * 3000, "ai ä\n".encode(), b"# \xf0\x9f\x98\x80 \x1b\nend\n", b"\r\r\n\x0b\x0cend\n"):
            self.assertEqual(self.ask("POST", "/replay", body)[0], 200, body[:10])


class Crowds(Served):
    def test_a_hundred_requests_at_once_are_answered(self):
        with concurrent.futures.ThreadPoolExecutor(100) as crowd:
            found = list(crowd.map(lambda _: self.ask("POST", "/replay", b"end\n")[0], range(100)))
        self.assertEqual(found, [200] * 100)

    def test_no_more_programs_run_at_once_than_the_bound(self):
        clock = "import time; print(time.time()); time.sleep(0.3); print(time.time())"
        program = programs.Program([sys.executable, "-c", clock], seconds=60, at_once=2)
        with concurrent.futures.ThreadPoolExecutor(6) as crowd:
            spans = [tuple(map(float, run.output.split())) for run in crowd.map(lambda _: program.run([], b"", 99), range(6))]
        self.assertEqual(max(sum(begun <= one < ended for begun, ended in spans) for one, _ in spans), 2)

    def test_one_that_says_nothing_holds_up_nobody(self):
        with socket.create_connection(("127.0.0.1", self.server.server_port)):
            self.assertEqual(self.ask("GET", "/")[0], 200)

    def test_a_program_that_takes_too_long_is_ended(self):
        program = programs.Program([sys.executable, "-c", "import time; time.sleep(60)"], seconds=0.5)
        self.assertRaises(programs.Late, program.run, [], b"", 10)

    def test_of_a_long_output_the_head_is_kept(self):
        program = programs.Program([sys.executable, "-c", "print('x' * 1000000 + 'y')"], seconds=60)
        run = program.run([], b"", 10)
        self.assertEqual((run.output, run.size, run.is_whole, run.end[-2:]), (b"x" * 10, 1000002, False, b"y\n"))


class Gone(Served):
    program = programs.Program(["/nowhere/df1"])

    def test_a_program_that_can_not_be_run(self):
        status, body, _ = self.ask("POST", "/replay", b"end\n")
        self.assertEqual((status, body), (500, b"df1 can't be run: No such file or directory\n"))


class Failing(Served):
    program = programs.Program([sys.executable, "-c", "raise SystemExit(1)"])

    def test_a_program_that_fails(self):
        self.assertEqual(json.loads(self.ask("POST", "/replay", b"end\n")[1])["why"], "The program ended with status 1.")


def setUpModule():
    # Where these run in the background of a shell Ctrl-C is ignored, and so it would be in what they start.
    signal.signal(signal.SIGINT, signal.default_int_handler)


class Command(unittest.TestCase):
    def page(self, *words):
        """A run of the command."""
        return subprocess.Popen([sys.executable, "-B", TOP / "page", DF1, *words], stdout=subprocess.PIPE, stderr=subprocess.PIPE, text=True)

    def test_it_prints_its_address_and_ends_with_ctrl_c(self):
        with tempfile.NamedTemporaryFile(suffix=".df1") as script:
            script.write(b"# from a file\nend\n")
            script.flush()
            page = self.page(script.name, "--no-browser")
            address = page.stdout.readline()
            self.assertRegex(address, r"^df1-page: http://127\.0\.0\.1:[0-9]+/ \(Ctrl-C ends it\)$")
            talk = http.client.HTTPConnection("127.0.0.1", int(address.split(":")[-1].split("/")[0]), timeout=60)
            talk.request("GET", "/script")
            self.assertEqual(talk.getresponse().read(), b"# from a file\nend\n")
            talk.close()
            page.send_signal(signal.SIGINT)
            self.assertEqual((page.communicate(timeout=30)[1], page.returncode), ("", 0))

    def test_what_can_not_be_read_or_served(self):
        page = self.page("/nowhere/script")
        self.assertEqual((page.communicate(timeout=30)[1], page.returncode), ("df1-page: /nowhere/script can't be read: No such file or directory\n", 4))
        with socket.create_server(("127.0.0.1", 0)) as taken:
            page = self.page("--port", str(taken.getsockname()[1]))
            note = page.communicate(timeout=30)[1]
            self.assertEqual((note.startswith("df1-page: port "), page.returncode), (True, 5))
        page = self.page("one", "two")
        self.assertEqual((page.communicate(timeout=30)[1].startswith("usage: df1-page"), page.returncode), (True, 2))


if __name__ == "__main__":
    unittest.main()
