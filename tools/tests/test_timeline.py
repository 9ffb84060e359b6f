"""tools/timeline: squares, bars, marks, the page in a browser, and quick answers."""

import os
import pty
import re
import subprocess
import sys
import time
import xml.etree.ElementTree as ElementTree

import chromium
from support import MEASURED, ROOT, TOOLS, Case, program, shell, spent, tool

from r2u2tools.timeline import html_page
from r2u2tools.timeline.model import Model, take_lines, take_trace
from r2u2tools.common.traces import Runs

TICKS = """tick:0,T
granted:0,T
granted:1,T
tick:1,T
tick:2,T
tick:3,T
tick:4,T
granted:2,F
granted:3,T
granted:4,T
granted:5,T
tick:5,T
"""
GRANT = ["--spec", ROOT / "examples/grant.c2po", "--trace", ROOT / "examples/grant.csv", "--ticks", "tick"]
SVG = "{http://www.w3.org/2000/svg}"
# How many seconds the work of Large.slower takes on an idle processor of 2.5 GHz.
IDLE = 0.13


class Pictures(Case):
    def made(self, *words, give="", status=0):
        code, out, errors = tool("timeline", *words, give=give)
        self.assertEqual((code, errors), (status, ""), errors)
        return out

    def texts(self, *words, give=""):
        """The texts of a picture, in their order."""
        return [part.text for part in ElementTree.fromstring(self.made(*words, give=give)).iter(f"{SVG}text")]


class FullDisk(Pictures):
    def test_no_file_is_left_cut_off(self):
        out = self.folder / "t.html"
        line = 'ulimit -f 1; "$TOOLS/timeline" --html -o "$OUT" "$LINES"'
        status, _, errors = shell(line, OUT=out, LINES=self.file("lines.txt", TICKS))
        self.assertEqual((status, errors, list(self.folder.glob("*t*.h*"))), (2, f"timeline: cannot write {out}: File too large\n", []))


class Squares(Pictures):
    def test_grant(self):
        texts = self.texts(*GRANT, give=TICKS)
        self.assertEqual(
            texts,
            ["granted: request -> F[0,3] grant", "request", "grant", "granted", *"TTFTTT", "row", *"012345"]
            + ["T", "true", "F", "false", "printed with this row"],
        )

    def test_marks(self):
        """A line from each time to the row that decided it, and a dot at rows 1 and 5."""
        root = ElementTree.fromstring(self.made(*GRANT, give=TICKS))
        dots = [float(dot.get("cx")) for dot in root.iter(f"{SVG}circle")][:2]
        lines = next(path.get("d") for path in root.iter(f"{SVG}path") if path.get("d").count("M") == 6)
        ends = [float(text) for text in re.findall(r"L([\d.]+)", lines)]
        self.assertEqual(ends, [dots[0]] * 2 + [dots[1]] * 4)
        self.assertEqual(dots[1] - dots[0], 4 * 26)

    def test_no_marks_without_ticks(self):
        lines = "".join(line + "\n" for line in TICKS.split() if not line.startswith("tick"))
        self.assertNotIn("<circle", self.made(*GRANT[:4], give=lines))

    def test_lanes_in_the_order_of_the_specification(self):
        texts = self.texts("--spec", ROOT / "examples/valves.c2po", give="shut:1,T\n")
        self.assertEqual([text for text in texts if text in ("filling", "shut")], ["filling", "shut"])
        self.assertIn("undecided", texts)

    def test_numbers(self):
        """A column of an int is shown in numbers, also where they are 0 and 1, and whole."""
        spec = self.file("spec", "INPUT x, y: int; FTSPEC f: x > y;")
        trace = self.file("trace", "0,-2147483648\n1,7\n")
        texts = self.texts("--spec", spec, "--trace", trace, give="f:0,T\n")
        self.assertEqual(texts[:7], ["f: x > y", "x", "0", "1", "y", "-2147483648", "7"])

    def test_columns_that_no_requirement_reads(self):
        words = ["--spec", ROOT / "examples/requests.c2po", "--trace", ROOT / "examples/requests.csv"]
        self.assertNotIn("temperature", self.texts(*words))
        self.assertIn("21.5", self.texts("--all-columns", *words))

    def test_from_and_to(self):
        texts = self.texts("--from", "2", "--to", "3", *GRANT, give=TICKS)
        self.assertEqual(texts[4:9], ["F", "T", "row", "2", "3"])
        status, _, errors = tool("timeline", "--from", "9", *GRANT, give=TICKS)
        self.assertEqual((status, errors), (2, "timeline: no row and no verdict to show\n"))

    def test_what_keeps_one_value_is_left_out(self):
        """Its name is in the legend; a lane that ends within the rows shown changes."""
        trace = self.file("trace", "# p,q\n1,0\n1,1\n1,1\n")
        words, lines = ["--changing", "--trace", trace], "f:0,T\nf:1,F\nf:2,T\ng:0,T\ng:1,T\nh:0,F\nh:1,F\nh:2,F\n"
        self.assertEqual(
            self.texts(*words, give=lines),
            ["q", "f", *"TFT", "g", *"TT?", "row", *"012", "T", "true", "F", "false", "?", "undecided"]
            + ["left out, since unchanging: p, h"],
        )
        cut = " ".join(self.texts(*words, "--from", "1", give=lines))
        self.assertTrue(cut.endswith("left out, since unchanging: p, q, h"), cut)
        self.assertIn('"constant": ["p", "h"]', self.made("--html", *words, give=lines))

    def test_stamps_are_times(self):
        trace = self.file("trace", "# p\n@0,1\n@3,0\n@5,1\n")
        texts = self.texts("--trace", trace, "--ticks", "tick", give="tick:0,T\ntick:1,T\np:1,T\ntick:2,T\ntick:3,T\n")
        self.assertIn("time", texts)
        self.assertIn("printed with this time", texts)
        self.assertEqual(tool("timeline", "--html", "--ticks", "tick", give="f:5,T\ntick:0,T\n"), (
            2, "", "timeline: f has a line before the row of its time: the output of --ticks hasn't a line with every row\n",
        ))
        model = Model()
        take_trace(model, trace, None, True)
        with self.file("lines", "tick:0,T\np:0,T\np:1,T\ntick:1,T\np:4,F\ntick:4,T\n").open("rb") as lines:
            take_lines(model, lines, "", "tick")
        self.assertEqual(list(model.lanes["p"].printed), [(0, 1, 3), (2, 4, 5)])


class Bars(Pictures):
    def long(self, count):
        rows = "".join(f"{k // 7 % 2},{k}\n" for k in range(count))
        lines = "".join(f"f:{k},{'F' if k % 50000 == 4000 else 'T'}\n" for k in range(count - 10))
        return self.file("trace", "# p,x\n" + rows), self.file("lines", lines)

    def test_a_long_trace_is_small(self):
        trace, lines = self.long(200000)
        out = self.made("--trace", trace, lines)
        self.assertLess(len(out), 300000)
        self.assertIn("200,000"[:3], out)
        red = [rect for rect in ElementTree.fromstring(out).iter(f"{SVG}rect") if rect.get("fill") == "#c93a4e"]
        self.assertEqual(len(red), 4 + 1)

    def test_numbers_where_there_is_room(self):
        trace = self.file("trace", "# x\n" + "12\n" * 50 + "-3\n" * 50)
        self.assertEqual(self.texts("--trace", trace, give="f:99,T\n")[:3], ["x", "12", "-3"])

    def test_every_f_is_seen(self):
        _, lines = self.long(1000)
        root = ElementTree.fromstring(self.made(self.file("lines", "f:499,T\nf:500,F\nf:99999,T\n")))
        self.assertEqual(len([rect for rect in root.iter(f"{SVG}rect") if rect.get("fill") == "#c93a4e"]), 1 + 1)
        del lines


class Quick(Pictures):
    def quick(self, seconds, *words, give=""):
        before = spent()
        out = self.made(*words, give=give)
        self.assertLess(spent() - before, seconds)
        return out

    def test_a_long_gap(self):
        trace = self.file("trace", "# p\n@0,1\n@5,0\n@3000000,1\n")
        for words in ([], ["--html"]):
            out = self.quick(10, *words, "--trace", trace, give="f:4,T\nf:2999999,F\n")
            self.assertLess(len(out), 60000)

    def test_many_lines(self):
        lines = self.file("lines", "".join(f"f:{k},{'TF'[k % 2]}\n" for k in range(100000)))
        self.assertLess(len(self.quick(20, lines)), 20000)
        self.assertLess(len(self.quick(20, "--html", lines)), 400000)

    def test_many_columns(self):
        trace = self.file("trace", "# " + ",".join(f"c{k}" for k in range(500)) + "\n" + ("1," * 499 + "0\n") * 2000)
        self.quick(30, "--trace", trace, give="f:1,T\n")

    def test_faults(self):
        for words, give, said in (
            (["--trace", "none.csv"], "", "cannot open none.csv: No such file or directory"),
            (["--spec", "none"], "", "cannot open none: No such file or directory"),
            (["none.lines"], "", "cannot open none.lines: No such file or directory"),
            ([], "f;1\n", "line 1: not a verdict line: f;1"),
            ([], "", "no row and no verdict to show"),
            (["--from", "x"], "", "argument --from: x isn't a whole number from 0 on (see --help)"),
            (["--from", "3", "--to", "2"], "", "--to is before --from (see --help)"),
            (["-o", "no/such/file"], "f:0,T\n", "cannot write no/such/file: No such file or directory"),
            (["--"], "", "no command after -- (see --help)"),
            (["--trace", str(self.file("t", "1\n")), "--", "r2u2", "x"], "", None),
            (["--", "cat", "x"], "", None),
            (["--trace", str(self.file("t2", "# a,b\n1\n"))], "", f"{self.folder}/t2: line 2: too few fields"),
        ):
            status, out, errors = tool("timeline", *words, give=give)
            self.assertEqual((status, out), (2, ""), words)
            self.one_line(errors)
            if said:
                self.assertEqual(errors, f"timeline: {said}\n")

    def test_pipes(self):
        line = 'printf "f:3,T\\n" | "$TOOLS/timeline" | tail -1'
        self.assertEqual(shell(line), (0, "</svg>\n", ""))
        errors = shell('(printf "f:99999,T\\n" | "$TOOLS/timeline" --html; echo "ended $?" >&2) | head -c 10')[2]
        self.assertRegex(errors, r"^ended (0|141)\n$")


class Packing(Case):
    def test_runs(self):
        runs = Runs()
        for last, value in ((3, "T"), (500, "F"), (70000, "T")):
            runs.add(last, value)
        kept = html_page.packed(runs, 2, 60000)
        self.assertEqual(kept["values"], ["T", "F"])
        numbers, value, weight = [], 0, 1
        for part in __import__("base64").b64decode(kept["runs"]):
            value, weight = value + (part & 127) * weight, weight * 128
            if part < 128:
                numbers.append(value)
                value, weight = 0, 1
        self.assertEqual(numbers, [2, 0, 497, 1, 59500, 0])


class Page(Pictures):
    """The page in a browser, over file:."""

    def opened(self, path, place=""):
        """The document as the browser has it after the page's start."""
        return chromium.Page(self, f"file://{path}{place}").run("document.documentElement.outerHTML")

    def told(self, document):
        """What the page says of the row under the pointer, without marks."""
        return re.sub(r"<[^>]*>", " ", re.search(r'id="told"[^>]*>(.*?)</div>', document)[1]).split()

    def ready(self, path):
        """After how many thousandths of a second the page is drawn, and how many shapes it drew."""
        document = self.opened(path)
        return tuple(int(re.search(rf'data-{name}="(\d+)"', document)[1]) for name in ("ready", "shapes"))

    def test_grant(self):
        chromium.path()
        path = self.file("page.html", self.made("--html", *GRANT, give=TICKS))
        document = self.opened(path, "#find=granted")
        self.assertEqual(self.told(document), "row 2 request 1 grant 0 granted F, decided with 5 (+3)".split())
        self.assertEqual(self.told(self.opened(path, "#row=1"))[-5:], "granted T, decided at once".split())
        self.assertEqual(self.told(self.opened(path, "#row=3&find=granted")), "no F after this".split())
        self.assertIn("granted: request -&gt; F[0,3] grant", document)

    def test_names_that_look_like_a_page(self):
        chromium.path()
        trace = self.file("trace", "# </script><b>x\n1\n")
        path = self.file("page.html", self.made("--html", "--trace", trace, give="f:0,F\n"))
        self.assertEqual(self.told(self.opened(path, "#row=0")), "row 0 &lt;/script&gt;&lt;b&gt;x 1 f F".split())

    def test_a_million_rows_open_within_three_seconds(self):
        chromium.path()
        if MEASURED:
            self.skipTest("a million rows take minutes while dev/coverage measures")
        trace = self.folder / "trace"
        with trace.open("w") as file:
            file.write("# p,q,x\n")
            file.writelines(f"{k // 3 % 2},{k // 5 % 2},{k * 7919 % 4099}\n" for k in range(1000000))
        lines = self.folder / "lines"
        with lines.open("w") as file:
            for k in range(1000000):
                file.write(f"f:{k},{'TTF'[k % 3]}\ntick:{k},T\n" if k % 4 else f"tick:{k},T\n")
        path = self.folder / "page.html"
        self.made("--html", "--trace", trace, "--ticks", "tick", "-o", path, lines)
        for _ in range(3):
            ready, shapes = self.ready(path)
            if ready < 3000 or os.getloadavg()[0] > os.cpu_count():
                break
        print(f"{path.stat().st_size / 1e6:.1f} MB, ready after {ready} ms ... ", end="", flush=True)
        load, count = os.getloadavg()[0], os.cpu_count()
        if ready >= 3000 and load > count:
            self.skipTest(f"ready after {ready} ms, which says little: {load:.0f} processes want {count} processors")
        self.assertLess(ready, 3000)
        self.assertGreater(shapes, 1000)
        told = self.told(self.opened(path, "#row=777777&find=f"))
        self.assertEqual(told[:2], ["row", "777,779"])


class Handled(Pictures):
    """The page in the hands of a reader."""

    def page(self, *words, give="", place="", made=None):
        """The page of a command, opened."""
        chromium.path()
        path = self.file("page.html", made or self.made("--html", *words, give=give))
        return chromium.Page(self, f"file://{path}{place}")

    def many(self, lanes, rows=60):
        """Lines of many outputs, each with its own row of F."""
        return "".join(f"f{k}:{t},{'F' if t == k % rows else 'T'}\n" for k in range(lanes) for t in range(rows))

    def colours(self, page, x=None):
        """The colours of the dots of the canvas, as texts."""
        script = """(() => {
            const data = pen.getImageData(0, 0, canvas.width, canvas.height).data, found = new Set();
            for (let k = 0; k < data.length; k += 4) { if (data[k + 3]) { found.add([...data.slice(k, k + 4)].join()); } }
            return [...found];
        })()"""
        return set(page.run(script))

    def hexes(self, page, *names):
        """Colours of the palette, as the canvas has them."""
        texts = [page.run(f"colours['{name}']") for name in names]
        return {",".join(str(int(text[k : k + 2], 16)) for k in (1, 3, 5)) + ",255" for text in texts}

    def test_many_lanes_scroll_by_wheel(self):
        page = self.page(give=self.many(1500))
        self.assertGreater(page.run("shapes"), 100)
        self.assertLessEqual(page.run("canvas.height"), 600 * page.run("ratio"))
        self.assertEqual(page.run("document.querySelector('#names button').textContent"), "f0")
        span = page.run("[low, high]")
        page.wheel(600, 400, down=3200)
        page.until("scroller.scrollTop > 3000 && shapes > 100")
        names = page.run("[...document.querySelectorAll('#names button')].map((one) => one.textContent)")
        self.assertTrue(40 < int(names[0][1:]) < 140 and len(names) < 40, names)
        self.assertEqual(page.run("[low, high]"), span)
        page.run("scroller.scrollTop = 1e9")
        page.until("document.querySelector('#names').textContent.includes('f1499')")
        self.assertGreater(page.run("shapes"), 100)
        self.assertIn(next(iter(self.hexes(page, "false"))), self.colours(page))

    def test_wheel_moves_and_zooms(self):
        page = self.page(give=self.many(3, 1000))
        page.wheel(600, 300, down=-300, modifiers=2)
        page.until("high - low < 501")
        low = page.run("low")
        page.wheel(600, 300, across=300)
        page.until(f"low > {low} + 1")
        page.wheel(600, 300, down=-300, modifiers=8)
        page.until(f"low < {low} + 1e-6")

    def test_touch_scrolls_moves_and_zooms(self):
        page = self.page(give=self.many(200, 1000))
        page.ask("Emulation.setTouchEmulationEnabled", enabled=True, maxTouchPoints=5)
        page.touch(*[[(600, 500 - 20 * k)] for k in range(16)])
        page.until("scroller.scrollTop > 50")
        self.assertEqual(page.run("[low, high]"), [0, 1000])
        page.touch(*[[(500 - 10 * k, 400), (700 + 10 * k, 400)] for k in range(11)])
        page.until("high - low < 600")
        low = page.run("low")
        page.touch(*[[(700 - 20 * k, 400)] for k in range(11)])
        page.until(f"low > {low} + 10")

    def test_colours_do_not_mix(self):
        """At a place between two dots each dot has one colour, and an F between is seen."""
        lines = "f:9,T\nf:10,F\nf:1999,T\ng:4,T\ng:1999,F\n"
        page = self.page(give=lines)
        page.run("label = () => {}")
        for low, high in ((0, 2000), (0.37, 700.91), (3.3, 99.7), (1.1, 1303.7)):
            page.run(f"show({low}, {high})")
            self.assertLessEqual(self.colours(page), self.hexes(page, "true", "false"))
            row = page.run("""(() => {
                const data = pen.getImageData(0, Math.round((entries[0].y + 3) * ratio), canvas.width, 1).data;
                let count = 0;
                for (let k = 0; k < data.length; k += 4) { count += data[k] > data[k + 2]; }
                return count;
            })()""")
            self.assertGreaterEqual(row, 1, (low, high))

    def test_next_f_goes_from_stretch_to_stretch(self):
        page = self.page(give="f:9,T\nf:12,F\nf:13,F\nf:20,T\nf:30,F\nf:40,T\ng:11,T\ng:15,F\ng:40,T\n")
        found = []
        for key in "nnnnppp":
            page.key(key)
            page.run("0")
            found.append(page.run("pinned"))
        self.assertEqual(found, [10, 12, 21, 21, 12, 10, 10])
        page.run("at('which').value = 'f'")
        page.key("n")
        self.assertEqual(page.run("pinned"), 21)

    def test_a_title_is_a_text(self):
        for title in ("@DATA@", "@{data}", "@{title}", "@TITLE@", "</title><script>document.x = 1</script>", "a\x07b $x"):
            page = self.page("--title", title, give="f:3,F\n")
            self.assertEqual(page.run("document.querySelector('h1').textContent"), title.replace("\x07", "\ufffd"))
            self.assertEqual(page.run("document.title"), title.replace("\x07", "\ufffd"))
            self.assertIsNone(page.run("document.x ?? null"))

    def test_legend_units_ranges_and_texts(self):
        spec = self.file("spec", "INPUT up: bool; alt: int; FTSPEC low: up -> F[0,1] (alt <= 3000); c: up => up;")
        trace = self.file("trace", "# alt,up\n" + "".join(f"{k * 50},1\n" for k in range(100)))
        words = ["--spec", spec, "--trace", trace, "--unit", "alt=m", "--rate", "10"]
        page = self.page(*words, give="low:3,T\nlow:9,F\nc:3,inactive\nc:5,verified\n")
        legend = page.run("at('legend').textContent")
        for word in ("true", "false", "inactive", "verified", "undecided"):
            self.assertIn(word, legend)
        self.assertEqual(page.run("[...document.querySelectorAll('#names button')].map((one) => one.textContent)"),
                         ["up", "alt [m]0 to 4,950", "low", "c"])
        page.run("document.querySelectorAll('#names button')[2].click()")
        self.assertEqual(page.run("at('requirement').textContent"), "low: up -> F[0,1] (alt <= 3000)")
        self.assertIn("up -> F[0,1]", page.run("document.querySelectorAll('#names button')[2].title"))
        page.run("tell(5)")
        self.assertIn("row 5 (0.5 s)", page.run("at('told').textContent"))
        self.assertIn("alt 250 m", page.run("at('told').textContent"))

    def test_a_click_pins_and_leads_to_why(self):
        page = self.page(*GRANT, give=TICKS)
        lane = page.run("({ x: left + x(2.5) / ratio, y: entries[2].y + 5 + scroller.getBoundingClientRect().top })")
        page.click(lane["x"], lane["y"])
        self.assertEqual(page.run("[pinned, at('reason').hidden]"), [2, False])
        told = page.run("at('why').textContent")
        self.assertRegex(told, r"/why \S+/examples/grant.c2po \S+/examples/grant.csv granted:2$")
        page.mouse("mouseMoved", lane["x"] + 300, lane["y"])
        self.assertIn("granted F", page.run("at('told').textContent"))
        page.key("Escape")
        self.assertEqual(page.run("[pinned, at('reason').hidden]"), [None, True])
        stamped = self.file("stamped", "# request,grant\n@0,1,0\n@7,0,0\n")
        page = self.page(*GRANT[:2], "--trace", stamped, give="granted:3,F\n", place="#row=3")
        self.assertIn("why --timed ", page.run("at('why').textContent"))

    def test_roles_and_labels(self):
        page = self.page(*GRANT, give=TICKS)
        nodes = page.ask("Accessibility.getFullAXTree")["nodes"]
        found = {(node["role"]["value"], node.get("name", {}).get("value")) for node in nodes if not node.get("ignored")}
        for one in (("image", "1 outputs and 2 signals, row 0 to 5"), ("toolbar", "View"), ("button", "next F"), ("textbox", "row"),
                    ("combobox", "Output to search"), ("region", "Signals and outputs"), ("button", "granted"), ("heading", "granted: request -> F[0,3] grant")):
            self.assertIn(one, {(role.replace("img", "image"), name) for role, name in found})
        for role, name in found:
            if role in ("button", "textbox", "combobox", "image", "region", "toolbar"):
                self.assertTrue(name, role)

    def test_dark_mode(self):
        page = self.page(*GRANT, give=TICKS)
        light = page.run("getComputedStyle(document.body).backgroundColor")
        before = self.colours(page)
        page.ask("Emulation.setEmulatedMedia", features=[{"name": "prefers-color-scheme", "value": "dark"}])
        self.assertNotEqual(page.run("getComputedStyle(document.body).backgroundColor"), light)
        self.assertIn(next(iter(self.hexes(page, "false"))), self.colours(page))
        self.assertNotEqual(self.colours(page), before)


def luminance(text):
    """The relative luminance of a colour, as WCAG defines it."""
    parts = [int(text[k : k + 2], 16) / 255 for k in (1, 3, 5)]
    red, green, blue = [part / 12.92 if part <= 0.03928 else ((part + 0.055) / 1.055) ** 2.4 for part in parts]
    return 0.2126 * red + 0.7152 * green + 0.0722 * blue


class Contrast(Case):
    def test_every_text_of_the_page(self):
        """At least 4.5 to 1, in light and in dark."""
        style = html_page.PAGE.read_text(encoding="utf-8").partition("</style>")[0]
        for block in re.findall(r":root \{(.*?)\}", style, re.S):
            colours = dict(re.findall(r"--([a-z-]+): (#[0-9a-f]{6})\b", block))
            pairs = [(ink, "back") for ink in ("ink", "faint", "bad")] + [("ink", "pale"), ("ink", "curve")]
            pairs += [(f"{word}-ink", word) for word in ("true", "false", "idle", "open")]
            for ink, back in pairs:
                one, other = sorted((luminance(colours[ink]), luminance(colours[back])))
                self.assertGreaterEqual((other + 0.05) / (one + 0.05), 4.5, (ink, back, colours[ink], colours[back]))


class Large(Case):
    def test_a_million_rows_in_ten_seconds_and_200_mb(self):
        if MEASURED:
            self.skipTest("a million rows take minutes while dev/coverage measures")
        trace, lines = self.folder / "trace", self.folder / "lines"
        with trace.open("w") as file:
            file.write("# p,q,x\n")
            file.writelines(f"{k // 3 % 2},{k // 5 % 2},{k * 7919 % 4099}\n" for k in range(1000000))
        with lines.open("w") as file:
            file.writelines(f"f:{k},{'TTF'[k % 3]}\ntick:{k},T\n" if k % 4 else f"tick:{k},T\n" for k in range(1000000))
        script = "import resource, subprocess, sys; subprocess.run(sys.argv[1:], check=True); u = resource.getrusage(resource.RUSAGE_CHILDREN); print(u.ru_maxrss, u.ru_utime)"
        words = [sys.executable, TOOLS / "timeline", "--html", "--trace", trace, "--ticks", "tick", "-o", self.folder / "page.html", lines]
        slower = self.slower()
        ran = subprocess.run([sys.executable, "-c", script, *map(str, words)], stdout=subprocess.PIPE, encoding="utf-8", check=True)
        kilobytes, seconds = map(float, ran.stdout.split())
        slower = max(1, slower, self.slower())
        print(f"{seconds:.1f} s, {kilobytes / 1024:.0f} MB, here {slower:.1f} times as slow ... ", end="", flush=True)
        self.assertLess(kilobytes, 200 * 1024)
        self.assertLess(seconds, 10 * slower)

    def slower(self):
        """How many times longer such work takes here and now than on an idle processor of 2.5 GHz."""
        before = time.process_time()
        cells = ("4711,0,1\n" * 200000).replace("\n", ",").split(",")
        sum(map(int, cells[:-1]))
        for place, cell in enumerate(cells):
            cells[place] = cell
        return (time.process_time() - before) / IDLE

    def test_progress_on_a_terminal(self):
        head, tail = pty.openpty()
        lines = self.file("lines", "".join(f"f:{k},{'TF'[k % 2]}\n" for k in range(60000)))
        words = [sys.executable, str(TOOLS / "timeline"), "--html", "-o", str(self.folder / "x.html"), str(lines)]
        ran = subprocess.run(words, stderr=tail, stdin=subprocess.DEVNULL)
        os.close(tail)
        told = os.read(head, 4096).decode()
        os.close(head)
        self.assertEqual(ran.returncode, 0)
        self.assertRegex(told, r"reading verdicts: [\d.]+ MB")


class Real(Pictures):
    """With r2u2 and c2po."""

    def run_over(self, *words, status=0, make=()):
        env = {"R2U2": program("r2u2"), "C2PO": program("c2po")}
        code, out, errors = tool("timeline", *make, "--", "r2u2", *words, env=env)
        self.assertEqual((code, errors if not status else ""), (status, ""))
        return out, errors

    def test_the_same_with_a_run_as_with_ticks(self):
        words = ROOT / "examples/grant.c2po", ROOT / "examples/grant.csv"
        self.assertEqual(self.run_over("--source", *words)[0], self.made(*GRANT, give=TICKS))
        self.assertEqual(self.run_over("--runs", "--source", *words)[0], self.made(*GRANT, give=TICKS))

    def test_a_program(self):
        obs = self.folder / "x.obs"
        spec = self.file("spec", "INPUT tick, b: bool; FTSPEC one: tick -> F[0,2] b; two: b;")
        subprocess.run([program("c2po"), "--header", self.file("h", "# z,b,tick\n"), "-o", obs, spec], check=True)
        for trace in ("# b,tick\n0,1\n0,0\n1,0\n", "x,0,1\nx,0,0\nx,1,0\n"):
            out = self.run_over(obs, self.file("trace", trace))[0]
            texts = [part.text for part in ElementTree.fromstring(out).iter(f"{SVG}text")]
            self.assertEqual([text for text in texts if text in ("b", "tick", "one", "two")], ["tick", "b", "one", "two"])
            self.assertEqual([text for text in texts if text in ("T", "F")][:6], list("TTTFFT"))

    def test_a_run_that_fails(self):
        spec, trace = self.file("spec", "INPUT p: bool; FTSPEC f: p;"), self.file("trace", "1\n0\nx\n")
        out, errors = self.run_over("--source", spec, trace, status=2)
        self.assertEqual(errors, "timeline: r2u2: trace line 3: not a whole number in column 1\n")
        self.assertIn("</svg>", out)

    def test_a_long_gap(self):
        spec, trace = self.file("spec", "INPUT p: bool; FTSPEC f: F[0,3] p;"), self.file("trace", "@0,1\n@200000,0\n@200009,1\n")
        before = spent()
        out, _ = self.run_over("--source", "--timed", spec, trace)
        self.assertLess(spent() - before, 60)
        self.assertLess(len(out), 60000)

    def test_committed_pictures(self):
        env = {"R2U2": program("r2u2"), "C2PO": program("c2po")}
        self.assertEqual(tool("pictures", "--check", env=env), (0, "pictures: ok\n", ""))

    def test_the_recipe_of_the_examples(self):
        """The command that the page of examples gives makes the picture that it shows."""
        text = (ROOT / "examples/README.md").read_text(encoding="utf-8")
        recipes = re.findall(r"^\$ (tools/timeline .*-o \S+\.svg .*)$", text, re.M)
        self.assertTrue(recipes)
        for line in recipes:
            name = re.search(r"-o (\S+)", line)[1]
            line = line.replace(f"-o {name}", '-o "$OUT"').replace("build/r2u2", '"$R2U2"')
            names = {"OUT": self.folder / name, "R2U2": program("r2u2")}
            self.assertEqual(shell(f'cd "{ROOT}" && {line}', **names), (0, "", ""))
            shown = ROOT / "docs/pictures" / name
            self.assertEqual((self.folder / name).read_text(), shown.read_text())


class List(Case):
    """The list of pictures, without a run."""

    def test_all_pictures_are_listed(self):
        text = (ROOT / "docs/pictures/LIST").read_text(encoding="utf-8")
        listed = {line.partition(":")[0] for line in text.splitlines() if line and not line.startswith("#")}
        lying = {str(path.relative_to(ROOT / "docs/pictures")) for path in (ROOT / "docs/pictures").rglob("*.svg")}
        self.assertEqual(listed, lying)
