"""What a browser saves: files of one folder, which are looked at once they are whole."""
import browsers

# How the files end that browsers write until they have all.
UNFINISHED = (".part", ".crdownload")


def whole(browser):
    """The files that the browser has saved, by their names; none while one of them isn't whole, as the empty one that Firefox begins
    with."""
    found = {path.name: path for path in browser.downloads.iterdir()}
    try:
        is_whole = all(name[0] != "." and not name.endswith(UNFINISHED) and path.stat().st_size for name, path in found.items())
    except FileNotFoundError:
        return {}
    return found if is_whole else {}


def forget(browser):
    for path in browser.downloads.iterdir():
        path.unlink(missing_ok=True)


def all_saved(browser, press, count):
    """The paths of all that is saved once something is pressed, by their names."""
    forget(browser)
    press()
    return browsers.until(lambda: len(found := whole(browser)) >= count and found, f"{count} files among the downloads")


def saved(browser, press, name=None):
    """The path of the file that is saved once something is pressed, which has this name."""
    [(found, path)] = all_saved(browser, press, 1).items()
    assert name in (None, found)
    return path
