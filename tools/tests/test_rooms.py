"""dev/rooms: that it accepts this repository's edges, and finds an edge that breaks the rule."""

import shutil

from support import DEV, Case, shell

HOUSE = """# room ground
base:
# room program: ground
program: base
# room compiler: program ground
parse: base program arrayvec
# room monitor: program ground
ring: base program
# room commands: compiler monitor program ground
tool: parse ring
"""


class Rooms(Case):
    def check(self, text):
        (self.folder / "dev").mkdir(exist_ok=True)
        shutil.copy(DEV / "rooms", self.folder / "dev")
        self.file("crates.txt", text)
        return shell('"$FOLDER/dev/rooms"', FOLDER=self.folder)

    def test_this_repository(self):
        status, out, errors = shell('"$DEV/rooms"', DEV=DEV)
        self.assertEqual((status, errors), (0, ""), out)

    def test_edges_that_hold(self):
        self.assertEqual(self.check(HOUSE), (0, "rooms: 5 crates in 5 rooms, 7 edges between them: ok\n", ""))

    def test_edges_that_break_the_rule(self):
        for old, new, fault in (
            ("parse: base", "parse: base ring", "parse uses ring: the compiler room doesn't see the monitor room"),
            ("ring: base", "ring: base parse", "ring uses parse: the monitor room doesn't see the compiler room"),
            ("base:", "base: program", "base uses program: the ground room doesn't see the program room"),
            ("program: base", "program: base tool", "program uses tool: the program room doesn't see the commands room"),
        ):
            text = HOUSE.replace(f"\n{old}", f"\n{new}", 1)
            self.assertEqual(self.check(text), (1, f"rooms: {fault}\n", ""))
