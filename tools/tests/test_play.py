"""play: who is served, within which bounds; and the page in a browser, where one is there."""

import base64
import http.client
import json
import os
import signal
import socket
import subprocess
import sys

import chromium
from support import PATIENCE, ROOT, TOOLS, Case, program, tool, with_signals
from r2u2tools.common.cli import ToolError
from r2u2tools.play import runs
from r2u2tools.play.examples import examples
from r2u2tools.play.server import CALLS, LARGEST

GRANT = (ROOT / "examples/grant.c2po").read_text()
TRACE = (ROOT / "examples/grant.csv").read_text()
WHY = "granted is F at 2: request holds at row 2"


class Served(Case):
    """A case with its server."""

    words = ()

    def setUp(self):
        super().setUp()
        program("c2po")
        program("r2u2")
        words = [sys.executable, str(TOOLS / "play"), "--no-browser", *map(str, self.words)]
        self.child = subprocess.Popen(words, stdout=subprocess.PIPE, stderr=subprocess.PIPE, encoding="utf-8", preexec_fn=with_signals)
        self.addCleanup(self.end)
        self.url = self.child.stdout.readline().strip()
        self.port = int(self.url.split(":")[2].partition("/")[0])
        self.token = self.url.split("/")[3]

    def end(self):
        if self.child.poll() is None:
            self.child.send_signal(signal.SIGTERM)
        self.child.communicate(timeout=PATIENCE)

    def request(self, method, path, body=None, **heads):
        """The status, the body and the headers of a response."""
        line = http.client.HTTPConnection("127.0.0.1", self.port, timeout=PATIENCE)
        heads = {key.replace("_", "-"): value for key, value in heads.items()}
        line.request(method, path, body, {"Content-Type": "application/json", **heads} if method == "POST" else heads)
        found = line.getresponse()
        body = found.read()
        line.close()
        return found.status, body, dict(found.getheaders())

    def call(self, path, /, **given):
        status, body, _ = self.request("POST", f"/{self.token}/{path}", json.dumps(given))
        self.assertEqual(status, 200)
        return json.loads(body)


class Server(Served):
    def test_a_run(self):
        found = self.call("run", spec=GRANT, trace=TRACE)
        self.assertEqual((found["accepted"], found["faults"], found["message"]), (True, [], ""))
        word = found["words"].index
        self.assertEqual(found["lanes"], [{"name": "granted", "runs": [[1, word("T")], [2, word("F")], [5, word("T")]]}])
        self.assertEqual([(it["name"], it["kind"]) for it in found["signals"]], [("request", "bool"), ("grant", "bool")])
        self.assertTrue(self.call("why", spec=GRANT, trace=TRACE, name="granted", time=2)["text"].startswith(WHY))
        costs = self.call("cost", spec=GRANT)
        self.assertEqual((costs["outputs"][0]["name"], costs["outputs"][0]["delay"]), ("granted", 3))
        self.assertEqual(self.call("format", spec="INPUT p:bool;")["spec"], "INPUT p: bool;\n")

    def test_signals_have_the_values_that_r2u2_reads(self):
        spec = "INPUT x, z: int;\nFTSPEC f: x > z;\n"
        found = self.call("run", spec=spec, trace='#"speed, m/s",x,z\n1, 50,3\n\n1,2,3\r\n')
        self.assertEqual([it["runs"] for it in found["signals"]], [[[0, "50"], [1, "2"]], [[1, "3"]]])
        self.assertEqual((found["times"], found["message"]), (2, ""))
        found = self.call("run", spec=spec, trace="# x,z\n@0,7,8\n@5,9,8\n", timed=True)
        self.assertEqual((found["signals"][0]["runs"], found["times"]), ([[4, "7"], [5, "9"]], 6))
        found = self.call("run", spec=spec, trace="1,2\n3,true\n5,6\n")
        self.assertEqual([it["runs"] for it in found["signals"]], [[[0, "1"]], [[0, "2"]]])
        self.assertTrue(found["message"].startswith("trace line 2:"))
        found = self.call("run", spec=spec, trace="# x\n1\n")
        self.assertEqual(([it["runs"] for it in found["signals"]], found["times"]), ([[], []], 0))

    def test_faults(self):
        found = self.call("run", spec=GRANT.replace("grant;", "grnt;"), trace=TRACE)
        self.assertFalse(found["accepted"])
        fault = found["faults"][0]
        self.assertEqual((fault["line"], fault["message"]), (3, "unknown name 'grnt' (did you mean 'grant'?)"))
        found = self.call("run", spec=GRANT, trace="1,0\n1,x\n")
        self.assertEqual(found["message"], "trace line 2: not a whole number in column 2")
        found = self.call("run", spec=GRANT, trace="# request,grant\n1,true\n")
        self.assertEqual(found["hints"], ["line 2, column 3: grant is 0 or 1, and not true; a truth is a number: `1,1`"])
        self.assertIn("no output none", self.call("why", spec=GRANT, trace=TRACE, name="none", time=2)["trouble"])
        self.assertIn("trouble", self.call("why", spec=GRANT, trace=TRACE, name="--html=/tmp/x", time="--"))
        self.assertIn("trouble", self.call("cost", spec="FTSPEC f: p;"))
        self.assertIn("trouble", self.call("run", spec="MLTL\x02\x00"))
        self.assertEqual(self.call("run", spec=7, trace=[])["accepted"], False)
        self.assertEqual(self.call("run")["accepted"], True)
        timed = self.call("run", spec=GRANT, trace="@0,1,0\n@9,0,1\n", timed=True)
        self.assertEqual(timed["lanes"][0]["runs"][0], [5, timed["words"].index("F")])

    def test_nobody_else(self):
        own = f"/{self.token}/"
        refused = [
            *(("GET", path, {}) for path in ("/", "/favicon.ico", own[:-1], f"{own}run", f"{own}../../etc/passwd", f"/{'x' * 32}/", f"{own[:-2]}/")),
            *(("GET", own, {"Host": host}) for host in ("evil.example", f"evil.example:{self.port}", "127.0.0.1")),
            *(("GET", own, {"Origin": origin}) for origin in ("http://evil.example", "null")),
            *(("POST", path, {}) for path in ("/run", f"{own}none", own)), ("POST", f"{own}run", {"Origin": "http://evil.example"}),
        ]
        for method, path, heads in refused:
            status, body, told = self.request(method, path, "{}" if method == "POST" else None, **heads)
            self.assertEqual((status, body), (404, b""), (method, path, heads))
            self.assertNotIn("Server", told)
        for method in ("PUT", "DELETE", "OPTIONS", "HEAD", "TRACE", "NONE"):
            status, body, _ = self.request(method, own)
            self.assertIn((status, body), ((501, b""), (404, b"")), method)
        self.assertEqual(self.request("POST", f"{own}run", "{", )[0], 400)
        self.assertEqual(self.request("POST", f"{own}run", "{}", Content_Type="text/plain")[0], 400)
        self.assertEqual(self.request("POST", f"{own}run", b"", Content_Length=str(LARGEST + 1))[0], 413)
        self.assertEqual(self.request("POST", f"{own}run", b"", Content_Length="-1")[0], 400)
        self.assertEqual(self.request("POST", f"{own}run", "[" * 100_000)[0], 400)
        self.assertEqual(self.request("GET", own)[0], 200)

    def test_it_listens_on_this_machine_alone(self):
        for address in {it[4][0] for it in socket.getaddrinfo(socket.gethostname(), None, socket.AF_INET)} - {"127.0.0.1"}:
            with socket.socket() as line:
                line.settimeout(5)
                self.assertNotEqual(line.connect_ex((address, self.port)), 0, address)

    def test_headers(self):
        status, body, heads = self.request("GET", f"/{self.token}/")
        self.assertEqual(status, 200)
        self.assertIn("default-src 'none'", heads["Content-Security-Policy"])
        wanted = {"Cache-Control": "no-store", "Referrer-Policy": "no-referrer", "X-Content-Type-Options": "nosniff"}
        self.assertEqual({name: heads[name] for name in wanted}, wanted)
        self.assertNotIn(b"$", body.partition(b"<script")[0])
        self.assertNotRegex(body.decode(), r"https?://")

    def test_a_token_for_each_start(self):
        other = subprocess.Popen([sys.executable, str(TOOLS / "play"), "--no-browser"], stdout=subprocess.PIPE, encoding="utf-8")
        self.addCleanup(other.communicate)
        self.addCleanup(other.kill)
        self.assertNotIn(self.token, other.stdout.readline())

    def test_it_ends(self):
        self.child.send_signal(signal.SIGINT)
        out, errors = self.child.communicate(timeout=PATIENCE)
        self.assertEqual((self.child.returncode, errors), (0, ""))

    def test_a_taken_port(self):
        status, out, errors = tool("play", "--no-browser", "--port", self.port)
        self.assertEqual((status, out), (2, ""))
        self.one_line(errors)


class Bounds(Case):
    def test_seconds(self):
        before, runs.CLOCK = runs.CLOCK, 1
        self.addCleanup(setattr, runs, "CLOCK", before)
        with self.assertRaisesRegex(ToolError, "more than 1 seconds"):
            runs.bounded(["sleep", "30"])

    def test_output(self):
        before, runs.MOST_OUTPUT = runs.MOST_OUTPUT, 1000
        self.addCleanup(setattr, runs, "MOST_OUTPUT", before)
        self.assertEqual(len(runs.bounded(["head", "-c", "5000", "/dev/zero"]).out), 1000)

    def test_memory(self):
        found = runs.bounded([sys.executable, "-c", "x = bytearray(3_000_000_000); print(len(x))"])
        self.assertNotEqual((found.status, found.out), (0, b"3000000000\n"))

    def test_calls_are_few(self):
        self.assertEqual(set(CALLS), {"run", "cost", "why", "format"})


class Words(Case):
    def test_faults(self):
        program("c2po")
        for words in (["/nowhere"], [ROOT / "examples/grant.c2po", "/nowhere"], ["--port", "70000"], ["a", "b", "c"]):
            status, out, errors = tool("play", "--no-browser", *words)
            self.assertEqual((status, out), (2, ""))
            self.one_line(errors)
        self.assertEqual(tool("play", "--no-browser", env={"C2PO": "/nowhere"})[0], 2)

    def test_examples(self):
        found = examples()
        self.assertGreater(len(found), 20)
        self.assertEqual({it["group"] for it in found}, {"Examples", "Patterns", "Missions"})
        self.assertEqual(examples(self.folder), [])


# What the page's script is asked for.
WORDS = "[...document.querySelectorAll('button.v')].map((it) => it.textContent).join('')"
CHOSEN = """(() => {
  const it = document.querySelector("#spec");
  return it.value.slice(it.selectionStart, it.selectionEnd);
})()"""
ALIKE = """(() => {
  const [one, other] = ["#spec", "#marks"].map((place) => getComputedStyle(document.querySelector(place)));
  return ["fontSize", "lineHeight", "padding", "fontFamily"].map((name) => one[name] === other[name]);
})()"""
POWER = """(() => {
  const it = document.querySelector("#menu");
  it.value = [...it.options].find((one) => one.textContent.startsWith("power")).value;
  it.dispatchEvent(new Event("change"));
})()"""
DROP = """(() => {
  const data = new DataTransfer();
  data.items.add(new File(["# request,grant\\n1,1\\n"], "x.csv"));
  const event = new DragEvent("drop", { dataTransfer: data, bubbles: true, cancelable: true });
  document.querySelector("#trace").parentNode.dispatchEvent(event);
})()"""
COLOURS = """(() => {
  const style = getComputedStyle(document.querySelector(".legend .%s"));
  return [style.color, style.backgroundColor];
})()"""


class Browser(Served):
    """What a user does: types, sees a verdict, clicks it, reads the reason."""

    words = (ROOT / "examples/grant.c2po", ROOT / "examples/grant.csv")

    def open(self, dark=False, fragment=""):
        ready = "document.readyState === 'complete' && document.querySelectorAll('button.v').length > 0"
        return chromium.Page(self, self.url + fragment, 1300, 1000, "dark" if dark else "light", ready)

    def picture(self, page, name):
        """A picture of the page, where the variable PICTURES names a folder for them."""
        if os.environ.get("PICTURES"):
            page.picture(os.path.join(os.environ["PICTURES"], f"{name}.png"))

    def test_types_sees_clicks_reads(self):
        page = self.open()
        self.assertEqual(page.value(WORDS), "TTFTTT")
        page.until("document.querySelector('#costs').innerText.includes('granted')")
        page.type("#spec", "INPUT p, q: bool;\nFTSPEC f: p -> F[0,2] q;\n")
        page.type("#trace", "# p,q\n1,0\n0,0\n0,0\n0,1\n1,1\n")
        page.until(WORDS + " === 'FTTTT'")
        page.press('button.v[data-name="f"][data-time="0"]')
        page.until("document.querySelector('#reason').textContent.includes('f is F at 0')")
        text = page.value("document.querySelector('#reason').textContent")
        self.assertIn("p holds at row 0", text)
        self.assertEqual(page.value("document.querySelector('button.v[aria-pressed=true]').dataset.time"), "0")
        page.until("document.querySelector('#costs').innerText.includes('f\\t2\\t')")
        self.picture(page, "verdicts")
        self.assertEqual(page.errors, [])

    def test_marks_at_faults(self):
        page = self.open()
        page.type("#spec", "-- größer\nINPUT p, q: bool;\nFTSPEC f: p -> F[0,2] r;\n  g: p & q;\n")
        page.until("document.querySelectorAll('#faults li').length === 2")
        self.assertEqual(page.value("[...document.querySelectorAll('mark')].map((it) => it.textContent)"), ["r", "&"])
        self.assertIn("unknown name 'r'", page.value("document.querySelector('#faults').innerText"))
        page.press("#faults button")
        self.assertEqual(page.value(CHOSEN), "r")
        self.assertEqual(page.value(ALIKE), [True] * 4)
        self.picture(page, "faults")
        page.type("#spec", "INPUT p: bool;\nFTSPEC f: p;\n")
        page.until("document.querySelectorAll('#faults li').length === 0")
        self.assertEqual(page.errors, [])

    def test_a_trace_that_is_refused(self):
        page = self.open()
        page.type("#trace", "# request,grant\n1,0\n1,2\n")
        page.until("document.querySelector('#refused').textContent.startsWith('trace line 3: out of range in column 2\\nline 3, column 3: ')")

    def test_examples_random_and_links(self):
        page = self.open(dark=True)
        page.value(POWER)
        page.until("document.querySelectorAll('#lanes tbody tr').length > 12")
        self.picture(page, "dark")
        self.assertEqual(page.value("document.querySelector('#theme').textContent"), "Light")
        page.press("#theme")
        self.assertEqual(page.value("document.querySelector('#theme').textContent"), "Dark")
        self.assertEqual(page.value("getComputedStyle(document.body).backgroundColor"), "rgb(255, 255, 255)")
        page.type("#rows", "300")
        page.press("#random")
        page.until("document.querySelector('#window').textContent === '0 to 119 of 300'")
        trace = page.value("document.querySelector('#trace').value")
        self.assertEqual(len(trace.splitlines()), 301)
        page.until("document.querySelectorAll('button.v.F').length > 0")
        page.press("#next")
        page.until("document.querySelector('#reason').textContent.includes(' is F at ')")
        page.press("#on")
        page.until("document.querySelector('#window').textContent.startsWith('120 to')")
        page.press("#random")
        page.until("document.querySelector('#window').textContent.startsWith('0 to')")
        self.assertEqual(page.value("document.querySelector('#trace').value"), trace)
        spec, fragment = page.value("document.querySelector('#spec').value"), page.value("location.hash")
        self.assertEqual(page.errors, [])
        other = self.open(fragment=fragment)
        self.assertEqual(other.value("[document.querySelector('#spec').value, document.querySelector('#trace').value]"), [spec, trace])

    def test_a_link_given_to_the_tool(self):
        state = {"spec": "INPUT p: bool;\nFTSPEC linked: p;\n", "trace": "1\n0\n", "timed": False, "picked": {"name": "linked", "time": 1}}
        fragment = "#p." + base64.urlsafe_b64encode(json.dumps(state).encode()).decode().rstrip("=")
        for given in (fragment, f"http://127.0.0.1:1/old/{fragment}"):
            child = subprocess.Popen([sys.executable, str(TOOLS / "play"), "--no-browser", given], stdout=subprocess.PIPE, encoding="utf-8")
            self.addCleanup(child.communicate)
            self.addCleanup(child.kill)
            url = child.stdout.readline().strip()
            self.assertTrue(url.endswith(f"/{fragment}"))
        told = "document.querySelector('#reason')?.textContent.startsWith('linked is F at 1: p is false at row 1')"
        chromium.Page(self, url, ready=told)

    def test_stamps_format_and_a_file(self):
        page = self.open()
        page.type("#trace", "# request,grant\n@0,1,0\n@6,0,1\n")
        page.press("#timed")
        page.until(WORDS + " === 'FFFTTTT'")
        page.type("#spec", "INPUT request,grant:bool;\nFTSPEC granted:request->F[0,3]grant;")
        page.press("#format")
        page.until("document.querySelector('#spec').value === 'INPUT request, grant: bool;\\nFTSPEC granted: request -> F[0,3] grant;\\n'")
        page.value(DROP)
        page.until("document.querySelector('#trace').value === '# request,grant\\n1,1\\n' && !document.querySelector('#timed').checked")
        page.until("document.querySelectorAll('button.v').length === 1")
        self.assertEqual(page.errors, [])

    def test_hostile_texts_stay_texts(self):
        page = self.open()
        page.type("#spec", "INPUT p: bool;\nFTSPEC f: <img src=x onerror=window.bad=1> && p;\n")
        page.until("document.querySelectorAll('#faults li').length > 0")
        page.type("#trace", "# <script>window.bad=1</script>\n<b>1</b>\n")
        page.type("#spec", "INPUT p: bool;\nFTSPEC f: p;\n")
        page.until("document.querySelector('#refused').textContent.length > 0")
        self.assertIsNone(page.value("window.bad"))
        self.assertEqual(page.value("document.querySelectorAll('main img, main b').length"), 0)

    def test_the_server_ends(self):
        page = self.open()
        self.end()
        page.type("#spec", GRANT + "\n")
        page.until("document.querySelector('#said').textContent.includes('start r2u2-play again')")

    def test_contrast(self):
        """Each text of a verdict has a contrast of at least 4.5 to 1, light and dark."""
        for dark in (False, True):
            page = self.open(dark)
            for kind in ("T", "F", "verified", "invalid", "inactive"):
                pair = page.value(COLOURS % kind)
                self.assertGreaterEqual(contrast(*pair), 4.5, (dark, kind, pair))
            pair = page.value("(() => { const style = getComputedStyle(document.body); return [style.color, style.backgroundColor]; })()")
            self.assertGreaterEqual(contrast(*pair), 4.5)
            self.assertEqual(contrast("rgb(0, 0, 0)", pair[1]) < 4.5, dark)


def contrast(one, other):
    """The contrast of two colours, as WCAG has it."""
    lights = []
    for text in (one, other):
        parts = [int(it) / 255 for it in text[text.index("(") + 1 : -1].split(",")[:3]]
        red, green, blue = (it / 12.92 if it <= 0.03928 else ((it + 0.055) / 1.055) ** 2.4 for it in parts)
        lights.append(0.2126 * red + 0.7152 * green + 0.0722 * blue)
    return (max(lights) + 0.05) / (min(lights) + 0.05)
