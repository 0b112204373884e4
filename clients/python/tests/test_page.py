"""The examples of clients/README.md: they run, and print what stands behind them."""

import os
import re
import subprocess
import sys
import unittest

from common import TOP

PAGE = TOP / "clients/README.md"


class Page(unittest.TestCase):
    def test_examples(self):
        examples = re.findall(r"```python\n(.*?)```", PAGE.read_text(), re.S)
        self.assertGreaterEqual(len(examples), 3)
        for example in examples:
            done = subprocess.run(
                [sys.executable, "-c", example],
                cwd=TOP,
                env={**os.environ, "PYTHONPATH": str(TOP / "clients/python")},
                stdout=subprocess.PIPE,
                text=True,
            )
            self.assertEqual(done.returncode, 0, example)
            remarks = re.findall(r"# (.*)$", example, re.M)
            for line in done.stdout.splitlines():
                said = any(remark == line or remark.startswith(f"{line}: ") for remark in remarks)
                self.assertTrue(said, f"{line!r} stands behind no line of\n{example}")


if __name__ == "__main__":
    unittest.main()
