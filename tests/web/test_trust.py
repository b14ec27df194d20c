"""The page where it can't work, and what its policy stops: an audit without an engine ends with the reason, and nothing
that the page could load or send comes through."""
import http.server
import pathlib
import re
import threading

import pytest

import assemble
import browsers
from tables import EXAMPLES

everywhere = pytest.mark.parametrize("address", ["disk", "server"], indirect=True)
FILES = [EXAMPLES / "sample.pb", EXAMPLES / "sample.prices.csv"]
# Headers of a server that take from the page what it needs, one thing each; and one that takes nothing.
FORBIDDING = {
    "no module": "script-src 'unsafe-inline'; worker-src blob:",
    "no worker": "script-src 'unsafe-inline' 'wasm-unsafe-eval'; worker-src 'none'",
}
ALLOWING = ("default-src 'none'; script-src 'unsafe-inline' 'wasm-unsafe-eval'; style-src 'unsafe-inline'; "
            "worker-src blob:")  # fmt: skip
NO_SCRIPT = "script-src 'none'"
UNSTARTED = {"en": "no script runs here", "pl": "żaden skrypt tu nie działa", "de": "hier läuft kein Skript",
             "fr": "aucun script ne s’exécute ici"}
REASON = "The auditor can't run here, and there is no answer."
# Ways to another address that the policy of a page can't forbid: no script of the page has them.
UNSTOPPED = {
    "navigation": r"\blocation\b|\bnavigation\b|\bhistory\b|http-equiv|\.submit\b|\.assign\("
                  r"|(window|self|globalThis)\.open|(?<![.\w])open\((?!audit)",
    "greeting": r"preconnect|dns-prefetch|prerender|speculation|\.rel\b|\brel:|\bping\b|\"link\"",
    "direct calls": r"RTC|WebTransport|\bPresentation|\bpresentation\b|Bluetooth|\busb\b|\bserial\b|\bcredentials\b",
    "other scripts": r"\beval\b|\bFunction\(|importScripts|serviceWorker|SharedWorker|\bimport\(",
}
REQUESTS = r"\bfetch\(|XMLHttpRequest|WebSocket|EventSource|sendBeacon"
# Tries each way that the policy has to stop, and gives the browser time for them.
TRIES = """
const url = arguments[0], make = (name, put) => document.body.append(Object.assign(document.createElement(name), put));
const tries = {
  events: () => new EventSource(url + '/events'),
  worker: () => new Worker(url + '/worker.js'),
  shared: () => new SharedWorker(url + '/shared.js'),
  module: () => import(url + '/module.js').catch(() => {}),
  frame: () => make('iframe', {src: url + '/frame'}),
  object: () => make('object', {data: url + '/object'}),
  embed: () => make('embed', {src: url + '/embed'}),
  video: () => make('video', {src: url + '/video', preload: 'auto'}),
  audio: () => new Audio(url + '/audio').play().catch(() => {}),
  font: () => new FontFace('x', `url(${url}/font)`).load().catch(() => {}),
  background: () => { document.body.style.backgroundImage = `url(${url}/background.png)`; },
  prefetch: () => make('link', {rel: 'prefetch', href: url + '/prefetch'}),
  preload: () => make('link', {rel: 'preload', as: 'fetch', href: url + '/preload'}),
  manifest: () => make('link', {rel: 'manifest', href: url + '/manifest'}),
  icon: () => make('link', {rel: 'icon', href: url + '/icon.png'}),
  speculation: () => make('script', {type: 'speculationrules',
    textContent: JSON.stringify({prefetch: [{source: 'list', urls: [url + '/speculation']}]})}),
  inner: () => make('iframe', {srcdoc: `<img src="${url}/inner.png">
    <meta http-equiv=refresh content="0;url=${url}/inner">`}),
  ping: () => { const link = Object.assign(document.createElement('a'), {href: '#x', ping: url + '/ping'});
                document.body.append(link); link.click(); },
  beacon: () => navigator.sendBeacon(url + '/beacon', 'x'),
  form: () => { const form = Object.assign(document.createElement('form'), {action: url + '/form', target: '_blank'});
                document.body.append(form); form.submit(); },
  audits: () => new Worker(URL.createObjectURL(new Blob([
    `fetch('${url}/inside').catch(() => {}); try { importScripts('${url}/inside.js'); } catch {}`]))),
};
for (const one of Object.values(tries)) { try { one(); } catch {} }
return new Promise(resolve => setTimeout(() => resolve(Object.keys(tries).length), 1500));
"""


class Host:
    """Serves one page with a header, and keeps what else is asked of it."""

    def __init__(self, page, name=None, value=None, content_type="text/html"):
        asked, body = [], pathlib.Path(page).read_bytes()
        self.asked = asked

        class Handler(http.server.BaseHTTPRequestHandler):
            def do_GET(self):
                if self.path not in ("/", "/favicon.ico"):
                    asked.append(self.path)
                self.send_response(200)
                self.send_header("Content-Type", content_type)
                if name:
                    self.send_header(name, value)
                self.send_header("Access-Control-Allow-Origin", "*")
                self.send_header("Content-Length", str(len(body)))
                self.end_headers()
                self.wfile.write(body)

            do_POST = do_GET

            def log_message(self, *words):
                pass

        self.server = http.server.ThreadingHTTPServer(("127.0.0.1", 0), Handler)
        threading.Thread(target=self.server.serve_forever, daemon=True).start()
        self.address = f"http://127.0.0.1:{self.server.server_port}"

    def __enter__(self):
        return self

    def __exit__(self, *_):
        self.server.shutdown()
        self.server.server_close()


def ends_with_reason(opened, what):
    """Files that are given are listed by their names, and each audit ends with the reason, also the second time."""
    opened.give(*FILES)
    assert [each[:2] for each in opened.answers(1)] == [("sample.prices.csv", "No answer")]
    told = opened.text("#audit-list")
    assert REASON in told and len(told.split("The browser says:")[1].strip()) > 3
    opened.browser.click("[aria-label='Check again: sample.prices.csv']")
    assert [each[:2] for each in opened.answers(1)] == [("sample.prices.csv", "No answer")]
    opened.browser.click("#stable")
    assert len(opened.answers(1)) == 1
    opened.browser.ask("document.querySelector('#clear').click()")
    assert opened.text("#files-head") == "Files (0)"


@everywhere
def test_no_engine(opened, page):
    """A browser that doesn't know what allows the module, and servers that forbid it or the worker."""
    room, text = opened.new_room(), pathlib.Path(page).read_text(encoding="utf-8")
    old = room / "old.html"
    old.write_text(text.replace(" 'wasm-unsafe-eval'", "", 1), encoding="utf-8")
    assert old.stat().st_size < len(text.encode())
    opened.open(old.as_uri())
    ends_with_reason(opened, "no wasm-unsafe-eval")
    for what, policy in FORBIDDING.items():
        with Host(page, "Content-Security-Policy", policy) as host:
            opened.open(host.address)
            ends_with_reason(opened, what)
    with Host(page, "Content-Security-Policy", ALLOWING) as host:
        opened.open(host.address)
        opened.give(*FILES)
        assert opened.answers(1) == [("sample.prices.csv", "Yes", None)]


def test_no_webassembly(polish):
    """A browser that speaks Polish and has no WebAssembly."""
    assert polish.text("h1") == "Czy pieniądze podzielono sprawiedliwie między głosujących?"
    assert polish.browser.ask("return typeof WebAssembly === 'undefined'")
    wanted = "Program nie może tu działać"
    assert wanted in polish.text("#broken")
    polish.give(*FILES)
    assert [each[:2] for each in polish.answers(1)] == [("sample.prices.csv", "Brak odpowiedzi")]
    told = polish.text("#audit-list")
    assert wanted in told and "WebAssembly" in told


NEVER = "Worker.prototype.postMessage = () => {};"


@everywhere
def test_stop_of_silence(opened):
    """A worker that tells nothing more is stopped by the button."""
    opened.open()
    opened.give(*FILES)
    assert opened.answers(1) == [("sample.prices.csv", "Yes", None)]
    opened.browser.ask(NEVER)
    opened.browser.click("#stable")
    opened.browser.wait("return !document.querySelector('#work').hidden", "an audit that runs")
    opened.browser.click("#stop")
    assert opened.answers(1) == [("sample.prices.csv", "Stopped", None)]


@everywhere
def test_no_script(opened, page):
    """Where no script runs, the page's words stand in the file, and it says in each language that none runs."""
    with Host(page, "Content-Security-Policy", NO_SCRIPT) as host:
        opened.browser.go(host.address)
        opened.browser.wait("return document.querySelector('#unstarted')?.checkVisibility?.({visibilityProperty: true})",
                           "that no script runs")  # fmt: skip
        for code, wanted in UNSTARTED.items():
            assert wanted in opened.text(f"#unstarted [lang={code}]")
        assert opened.text("h1") == "Was the money shared fairly among the voters?"
        empty = "return [...document.querySelectorAll('[data-word]')].filter(each => !each.textContent.trim()).length"
        assert opened.browser.ask(empty) == 0
    opened.open()
    assert opened.browser.ask("return document.querySelector('#unstarted') === null")


@everywhere
def test_charset(opened, page):
    """Scripts of another encoding than the page's aren't those that its policy allows; the page says that none runs."""
    with Host(page, content_type="text/html; charset=iso-8859-1") as host:
        opened.browser.go(host.address)
        opened.browser.wait("return document.querySelector('#unstarted')?.checkVisibility?.({visibilityProperty: true})",
                           "that no script runs in another encoding")  # fmt: skip
    with Host(page, content_type="text/html; charset=utf-8") as host:
        opened.open(host.address)
        opened.give(*FILES)
        assert opened.answers(1) == [("sample.prices.csv", "Yes", None)]


@everywhere
def test_ways_out(alone, page):
    """No way to load or to send anything comes through to a server that would answer. Some ways open windows, after which the keys
    no longer reach the page: so they have a browser of their own."""
    bare = alone.new_room() / "bare.html"
    text = pathlib.Path(page).read_text(encoding="utf-8")
    bare.write_text(text.replace(policy_of(page), "base-uri 'none'", 1), encoding="utf-8")
    with Host(page) as host, Host(bare) as other:
        alone.open()
        count = alone.browser.ask(TRIES, host.address)
        assert count >= 20
        assert host.asked == []
        alone.open(other.address)
        alone.browser.ask(TRIES, host.address)
        browsers.until(lambda: len({path.split("/")[1].split(".")[0] for path in host.asked}) >= 12, "what nothing stops")


@everywhere
def test_nothing_on_the_console(alone):
    """A browser tells there what it doesn't know in a page, as a rule of a policy: whoever looks there would take it for a fault."""
    alone.open()
    alone.give(*FILES)
    assert alone.answers(1) == [("sample.prices.csv", "Yes", None)]
    alone.give(EXAMPLES / "district.pb")
    alone.answers(2)
    assert alone.browser.messages() == []


def policy_of(page):
    text = pathlib.Path(page).read_text(encoding="utf-8")
    return re.search(r'Content-Security-Policy" content="([^"]*)"', text)[1].replace("&#x27;", "'")


def scripts():
    """Those of the page, without its words, which are in no language of machines."""
    scripts = {name: assemble.script_of(name) for name in assemble.SCRIPTS}
    for code in assemble.LANGUAGES:
        scripts["page"] = scripts["page"].replace(words_in(scripts["page"], f"src/words/{code}.ts"), "")
    return {name: code_of(text) for name, text in scripts.items()}


@pytest.mark.parametrize("what", UNSTOPPED)
def test_no_script_has_what_the_policy_can_not_stop(what):
    assert [f"{name}: {each[0]}" for name, text in scripts().items() for each in re.finditer(UNSTOPPED[what], text)] == []


def test_one_request_shows_that_it_is_refused():
    assert [name for name, text in scripts().items() for _ in re.finditer(REQUESTS, text)] == ["page"]
    addresses = {each for text in scripts().values() for each in re.findall(r"https?://[^\"'` ]*", text)}
    # What elements of SVG are named by is no address: nothing asks for it.
    assert addresses - {"http://www.w3.org/2000/svg"} == {"https://example.org/"}


def test_page_has_no_links():
    assert not re.search(r"<(a|form|img|base|iframe[^>]* src)\b|http-equiv=\"refresh", assemble.text_of("page.html"))


def words_in(script, module):
    """What a script has of a module: from the comment with its name to the next."""
    return re.search(rf"  // {re.escape(module)}\n.*?(?=\n  // src/)", script, re.DOTALL)[0]


def code_of(text):
    """A script without its comments."""
    return re.sub(r"/\*.*?\*/|(?<!:)//[^\n]*", "", text, flags=re.DOTALL)
