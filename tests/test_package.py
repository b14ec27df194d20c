"""Installs the Python package into a folder, as a user does, and runs the tests of python/tests there, file by file."""
import importlib.util
import os
import re
import subprocess
import sys

import pytest

from common import TOP, ran

FILES = sorted(path.name for path in (TOP / "python/tests").glob("test_*.py"))
# What the gate installs nowhere, so that a test may be skipped for want of it.
MAY_BE_MISSING = re.compile(r"tidy isn't installed|this tidy doesn't know")


@pytest.fixture(scope="session")
def site(built_here, tmp_path_factory):
    """The package, installed by pip; where that isn't there, the wheel is unpacked."""
    folder = tmp_path_factory.mktemp("installed")
    if importlib.util.find_spec("pip"):
        environment = {**os.environ, "PIP_ROOT_USER_ACTION": "ignore", "PIP_DISABLE_PIP_VERSION_CHECK": "1"}
        words = ["-m", "pip", "install", "--quiet", "--no-index", "--target", folder / "site", TOP / "python"]
        subprocess.run([sys.executable, *words], env=environment, check=True)
    else:
        build = "import sys, wheel_writer; wheel_writer.build_wheel(sys.argv[1])"
        subprocess.run([sys.executable, "-B", "-c", build, folder], cwd=TOP / "python/backend", check=True)
        subprocess.run([sys.executable, "-m", "zipfile", "-e", next(folder.glob("*.whl")), folder / "site"], check=True)
    return folder / "site"


@pytest.mark.parametrize("file", FILES)
def test_package(site, option, file):
    environment = {**os.environ, "PYTHONPATH": str(site), "PYTHONDONTWRITEBYTECODE": "1"}
    told = ran(sys.executable, "-m", "pytest", "-q", "-rs", "-p", "no:cacheprovider", TOP / "python/tests" / file, env=environment)
    assert told.returncode == 0, told.stdout + told.stderr
    print(told.stdout)
    skipped = re.findall(r"^SKIPPED \[\d+\] .*$", told.stdout, re.MULTILINE)
    assert not option("gate") or all(map(MAY_BE_MISSING.search, skipped)), skipped
