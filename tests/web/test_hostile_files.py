"""The files of bench/hostile.py, small ones: the page's worker and the package for JavaScript answer them as they have to."""
import subprocess
import sys

import pytest

from common import TOP, needs


@pytest.mark.parametrize("shape", ["colliding-ids", "hidden-names"])
def test_page_and_package(page, packed, shape):
    needs("node", "chromium", "chromedriver")
    words = [sys.executable, TOP / "bench/hostile.py", "--small", "--page", page, "--package", packed, "--only", shape]
    told = subprocess.run(words, capture_output=True, text=True, timeout=600, check=False)
    assert told.returncode == 0, told.stderr
    head, _, *rows = told.stdout.splitlines()
    assert head == "| Shape, size | Command | Page | JavaScript |" and rows
