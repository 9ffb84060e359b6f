"""dev/edges and dev/allocations: that they find a program that does otherwise, and report what is missing."""

from support import Case, shell, tool, DEV


class Edges(Case):
    def silent(self):
        """A program that does nothing, and ends well."""
        fake = self.file("fake", "#!/bin/sh\nexit 0\n")
        fake.chmod(0o755)
        return {"R2U2": str(fake), "C2PO": str(fake)}

    def edges(self, words, **names):
        return shell(f'"{DEV}/edges" {words}', **names)

    def test_a_program_that_does_nothing_is_found(self):
        status, out, _ = self.edges("'names without a file'", **self.silent())
        self.assertEqual((status, out.splitlines()[-1]), (1, "0 passed, 1 failed, 0 skipped"))

    def test_a_missing_program_is_named(self):
        status, out, errors = self.edges("'names without a file'", R2U2=self.folder / "none")
        self.assertEqual(status, 2)
        self.assertIn(f"no {self.folder}/none", out + errors)
        status, out, errors = tool("allocations", env={"R2U2": str(self.folder / "none")})
        self.assertEqual((status, out), (2, ""))
        self.one_line(errors)

    def test_a_wrong_name_fails(self):
        self.assertEqual(self.edges("'no such name'", **self.silent())[0], 1)
        status, out, errors = tool("allocations", "no such name", env=self.silent())
        self.assertEqual((status, out), (2, ""))
        self.one_line(errors)

    def test_names_are_listed(self):
        self.assertIn("test_a_full_disk", self.edges("--list")[1])
        status, out, errors = tool("allocations", "--list")
        self.assertEqual((status, errors), (0, ""))
        self.assertIn("c2po --table spec", out.splitlines())
