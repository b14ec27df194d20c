"""The screens of phones and of computers, light and dark."""
import browsers

PHONE, COMPUTER = (390, 844), (1000, 800)
# Wider than Firefox lets a window be narrow, and less than what the page takes for a phone.
NARROW = 480
IS_WIDE = "return matchMedia(`(${arguments[0]}: ${arguments[1]}px)`).matches"
IS_COLOURED = "return matchMedia(`(prefers-color-scheme: ${arguments[0]})`).matches"
# Firefox has these in the page that is open, for scripts with its own rights.
IS_RESIZED = "return Math.abs(innerWidth * devicePixelRatio - arguments[0]) < 2"
ENLARGE = "const shown = window.browsingContext.top; shown.fullZoom = window.innerWidth * shown.fullZoom / arguments[0];"
COLOUR = "window.browsingContext.top.prefersColorSchemeOverride = arguments[0];"


def by_rights(browser, script, *words):
    browser.command("ExecuteScript", {"script": script, "args": list(words), "sandbox": "system"})


def show_on(browser, width, height):
    """Shows the page on a screen of this size. Windows can't be as narrow as phones. So Chromium is told of a screen, and
    Firefox enlarges the page that is open, until the next one."""
    if isinstance(browser, browsers.Chromium):
        is_phone = width < NARROW
        browser.tools("Emulation.setDeviceMetricsOverride", width=width, height=height, deviceScaleFactor=1, mobile=is_phone)
        browser.wait(IS_WIDE, "the screen", "device-width" if is_phone else "width", width)
    elif browser.ask("return Math.round(innerWidth)") != width:
        resize(browser, width, height)
        by_rights(browser, ENLARGE, width)
    browser.settle()


def resize(browser, width, height):
    """Resizes the window, and waits until the page has another size: a window may not become so narrow."""
    browser.wait(IS_RESIZED, "the window", browser.resize(width, height)["width"])


def narrow(browser):
    show_on(browser, *PHONE)


def widen(browser):
    if isinstance(browser, browsers.Chromium):
        browser.tools("Emulation.clearDeviceMetricsOverride")
        resize(browser, *COMPUTER)
    else:
        show_on(browser, *COMPUTER)


def colour(browser, scheme):
    """Has pages be "light" or "dark"."""
    if isinstance(browser, browsers.Chromium):
        browser.tools("Emulation.setEmulatedMedia", features=[{"name": "prefers-color-scheme", "value": scheme}])
    else:
        by_rights(browser, COLOUR, scheme)
    browser.wait(IS_COLOURED, scheme, scheme)
