"""What the tests of the page and of the package for JavaScript share: browsers without windows, and the package."""
import contextlib
import pathlib
import shutil
import subprocess
import sys

import pytest

from common import TOP, needs

sys.path.append(str(pathlib.Path(__file__).resolve().parent))
sys.path.append(str(TOP / "python/tests"))

import browsers  # noqa: E402 (where the tests are)
from native import linked, native_of, unpacked  # noqa: E402
from screens import narrow, widen  # noqa: E402
from serving import Server  # noqa: E402
from visiting import Visit  # noqa: E402


@pytest.fixture(scope="session")
def command_module(page):
    """The program as a module, or a package that has it. It lies beside the page."""
    found = [*page.parent.glob("pbaudit.wasm"), *page.parent.glob("pbaudit-*.tgz")]
    if not found:
        pytest.skip(f"no pbaudit.wasm lies beside {page}")
    return found[0]


# Each library with native code for Node, its compiler, and the words that Node has for its machine.
ADDONS = {"library": ("cc", "pbaudit-linux-x64"), "arm_library": ("aarch64-linux-gnu-gcc", "pbaudit-linux-arm64")}


@pytest.fixture(scope="session")
def addons(request, tmp_path_factory):
    """The native code of the package, of each library that is there."""
    folder = tmp_path_factory.mktemp("addons")
    for name, (compiler, machine) in ADDONS.items():
        with contextlib.suppress(pytest.skip.Exception):
            library = request.getfixturevalue(name)
            needs(compiler)
            linked(library / "libpbaudit.a", folder / f"{machine}.node", CC=compiler)
    return sorted(folder.iterdir())


@pytest.fixture(scope="session")
def packed(page, command_module, addons, tmp_path_factory):
    """The package for JavaScript, made of the page's module, the program's, and the libraries."""
    folder = tmp_path_factory.mktemp("packed")
    subprocess.run([TOP / "packaging" / "javascript", page, command_module, folder, *addons], stdout=subprocess.DEVNULL, check=True)
    return next(folder.iterdir())


@pytest.fixture(scope="session")
def installed(packed, tmp_path_factory):
    """A folder in which a script may import the package."""
    return unpacked(packed, tmp_path_factory.mktemp("installed"))


@pytest.fixture(scope="session")
def natively(installed):
    """The same, where the package has native code for this machine."""
    if not native_of(installed).exists():
        pytest.skip("the library isn't built, nor native code of it")
    return installed


@pytest.fixture(scope="session")
def by_module(packed, tmp_path_factory):
    """Such a folder with the package as it is on a machine for which it has no native code."""
    folder = unpacked(packed, tmp_path_factory.mktemp("by_module"))
    shutil.rmtree(folder / "node_modules/pbaudit/native", ignore_errors=True)
    return folder


@pytest.fixture(scope="session", params=["natively", "by_module"])
def either(request, packed):
    """Each of the two."""
    return request.getfixturevalue(request.param)


@pytest.fixture(scope="session")
def command(installed):
    return installed / "node_modules" / "pbaudit" / "command.js"


@pytest.fixture(scope="session", params=[pytest.param(name, marks=pytest.mark.xdist_group(name)) for name in browsers.ENGINES])
def start(request, tmp_path_factory):
    """Starts a browser with an empty profile."""
    engine, wanted = browsers.ENGINES[request.param]
    needs(*wanted)
    if request.param == "chromium":
        pytest.importorskip("selenium", reason="selenium is not installed")

    def started(**how):
        room = tmp_path_factory.mktemp(request.param)
        (room / "downloads").mkdir()
        browser = engine(room / "profile", room / "downloads", **how)
        browser.downloads = room / "downloads"
        return browser
    return started


@pytest.fixture(scope="session")
def browser(start):
    started = start()
    yield started
    started.close()


@pytest.fixture
def downloads(browser):
    return browser.downloads


@pytest.fixture
def visit(browser, page):
    """The page, opened anew on a phone's screen."""
    narrow(browser)
    browser.go(page.as_uri())
    browser.wait("return document.querySelectorAll('#language option').length > 0", "the page")
    narrow(browser)
    return browser


@pytest.fixture(scope="session")
def served(page, tmp_path_factory):
    """A server of the page."""
    folder = tmp_path_factory.mktemp("served")
    shutil.copy(page, folder / "pbaudit.html")
    server = Server(folder)
    yield server
    server.close()


@pytest.fixture
def server(served):
    """The same; nothing but the page may be asked of it."""
    yield served
    assert {*served.asked} <= {"/pbaudit.html", "/favicon.ico"}


@pytest.fixture
def address(request, page, server):
    """Where the page is: on the disk, or on a server."""
    return f"{server.address}/pbaudit.html" if getattr(request, "param", "disk") == "server" else page.resolve().as_uri()


@pytest.fixture
def opened(browser, address, program, tmp_path):
    """The page, opened anew on a computer's screen, with the program beside it."""
    widen(browser)
    made = Visit(browser, address, program, tmp_path)
    made.open()
    return made


def of_its_own(start, address, program, room, **how):
    browser = start(**how)
    try:
        visit = Visit(browser, address, program, room)
        visit.open()
        yield visit
    finally:
        browser.close()


@pytest.fixture
def alone(start, address, program, tmp_path):
    """The page in a browser of its own."""
    yield from of_its_own(start, address, program, tmp_path)


@pytest.fixture
def polish(start, address, program, tmp_path):
    """The page in a browser that speaks Polish and has no WebAssembly."""
    yield from of_its_own(start, address, program, tmp_path, language="pl", has_wasm=False)
