"""Tests of what is built anew and where, with a stand-in for rt."""
import os
import pathlib
import shutil
import tempfile
import time

from repository import StandIn

import library


class Sources(StandIn):
    def build(self, **given):
        with self.begin("a.pla", MINORDER_PREVIEW="no", **given) as ran:
            out, said = ran.communicate()
        self.assertEqual((out, ran.returncode), ("proved: a.pla\n", 7), said)
        return said

    def test_what_is_built_anew(self):
        base = self.top / "crates/base"
        deep = base / "src/deep/out"
        (base / "must-fail").mkdir()
        self.assertIn("minorder is proved", self.build())
        edits = {
            "a folder of the sources": deep.mkdir,
            "a file": (deep / "mod.rt").touch,
            "a text": lambda: (deep / "mod.rt").write_text("// a comment\n"),
            "a file of a folder out": lambda: shutil.move(deep, base / "src/out"),
        }
        deep.parent.mkdir()
        self.build()
        for edit, make in edits.items():
            with self.subTest(edit):
                make()
                self.assertEqual("minorder is proved" in self.build(), edit != "a folder of the sources")
                self.assertEqual(self.build(), "")
        for made in (base / "out/left", base / "must-fail/wrong.edit"):
            with self.subTest(made):
                made.touch()
                self.assertEqual(self.build(), "")

    def test_a_program_put_there_by_hand(self):
        self.build()
        made, kept = self.top / "crates/minorder/out/minorder", self.room / "kept"
        shutil.copy2(made, kept)
        by_hand = {"written over": lambda: made.write_text("#!/bin/sh\necho by hand\n"),
                   "put in its place": lambda: shutil.copy2(self.room / "other", made)}
        (self.room / "other").write_text("#!/bin/sh\necho by hand\n")
        shutil.copystat(kept, self.room / "other")
        for way, put in by_hand.items():
            with self.subTest(way):
                put()
                self.assertIn("minorder is proved", self.build())
                self.assertEqual(self.build(), "")
        made.unlink()
        kept.rename(made)
        self.assertEqual((self.build(), self.build()), ("", ""))

    def test_folders_that_the_shell_looks_in_first(self):
        """CDPATH has a tree of another source, and the call goes by a relative path."""
        self.build()
        other = self.room / "other"
        shutil.copytree(self.top, other / "top", symlinks=True)
        (self.top / "crates/base/src/lib.rt").write_text("// an edit\n")
        words = ("env", f"CDPATH={other}", "bash", "-c", 'cd .. && exec "${0#"$PWD/"}" "$@"')
        with self.begin("a.pla", through=words, MINORDER_PREVIEW="no") as ran:
            out, said = ran.communicate()
        self.assertEqual((out, ran.returncode), ("proved: a.pla\n", 7), said)
        self.assertIn("minorder is proved", said)

    def test_an_edit_during_a_build_that_is_taken_back(self):
        edited = self.top / "crates/base/src/lib.rt"
        edited.touch()
        with self.begin("a.pla", MINORDER_PREVIEW="no", PROOF_SECONDS="1") as ran:
            while ran.poll() is None and not (self.top / "crates/base/out/rlib").exists():
                time.sleep(0.1)
            edited.write_text("// an edit\n")
            edited.write_text("")
            out, said = ran.communicate()
        self.assertIn("minorder: building again what was edited or can't be used as it is, with all above: base\n", said)
        self.assertEqual((out, said.count("middle is proved"), said.count("minorder is proved")), ("proved: a.pla\n", 2, 1))

    def test_a_checkout_of_any_kind(self):
        """Temporary files lie on another file system, where there is one."""
        kinds = {"a clone": pathlib.Path.mkdir, "a worktree": pathlib.Path.touch, "an archive": lambda git: None}
        with tempfile.TemporaryDirectory(dir="/dev/shm" if os.access("/dev/shm", os.W_OK) else None) as elsewhere:
            for kind, make in kinds.items():
                with self.subTest(kind):
                    git = self.top / ".git"
                    make(git)
                    (self.top / "crates/base/out/incremental").mkdir(parents=True)
                    before = os.listdir(self.top)
                    self.build(TMPDIR=elsewhere)
                    self.assertEqual((os.listdir(elsewhere), os.listdir(self.top)), ([], before))
                    self.assertTrue((self.top / "crates/base/out/incremental").is_dir())
                    for it in self.top.glob("crates/*/out"):
                        shutil.rmtree(it)
                    shutil.rmtree(git) if git.is_dir() else git.unlink(missing_ok=True)

    def test_a_kit_of_another_kind_builds_by_rt_lib(self):
        self.assertIn("`rt lib` builds libraries one at a time, with their proofs", self.build())

    def test_what_a_kit_lacks(self):
        kit = self.room / "kit/bin"
        kit.mkdir(parents=True)
        self.assertIn("No such file", library.lacking(kit.parent))
        (kit / "rt").write_text("import types\nrtlib = types.SimpleNamespace(RATTLE='rattle')\n")
        self.assertIn("'help_of'", library.lacking(kit.parent))
