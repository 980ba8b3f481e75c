"""The examples of the pages, run as they stand there."""

import contextlib
import io
import os
import re
import shutil
import subprocess
import unittest

from .support import PROGRAM, TOP, local

PACKAGE = TOP / "clients" / "python"
EMBEDDING, RECIPES = TOP / "docs" / "embedding.md", TOP / "docs" / "recipes.md"


def blocks(page, language):
    return re.findall(rf"^```{language}\n(.*?)^```", page.read_text(encoding="utf-8"), re.MULTILINE | re.DOTALL)


def printed(block, names):
    """What a block of Python prints."""
    out = io.StringIO()
    with contextlib.redirect_stdout(out):
        exec(compile(block, "<page>", "exec"), names)
    return out.getvalue()


@unittest.skipUnless(EMBEDDING.exists(), "the pages are in the whole repository alone")
class Pages(unittest.TestCase):
    def test_readme(self):
        (block,) = blocks(PACKAGE / "README.md", "python")
        self.assertEqual("term 0\n", printed(block, {}))

    def test_embedding(self):
        *locks, carrier = blocks(EMBEDDING, "python")
        self.assertEqual(["('printed', 0, 'a page')\n"] * 2, [printed(it, {}) for it in locks])
        self.assertEqual(blocks(EMBEDDING, "text")[-1], printed(carrier, {}))

    @unittest.skipUnless(shutil.which("bash"), "coproc is bash's")
    def test_co_process(self):
        (block,) = blocks(EMBEDDING, "sh")
        told = blocks(EMBEDDING, "text")[0]
        environment = {**os.environ, "BTSPACE": PROGRAM[0]}
        run = subprocess.run(["bash", "-c", block], env=environment, stdout=subprocess.PIPE, timeout=60, check=True)
        self.assertEqual(told, run.stdout.decode())

    def test_recipes(self):
        """Each block goes on where the one before ended."""
        with local() as space:
            names = {"space": space}
            found = blocks(RECIPES, "python")
            self.assertEqual(5, len(found))
            for it in found:
                printed(it, names)
