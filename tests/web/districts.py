"""Many districts at once: a folder of them, and what it costs to have them all answered."""
import shutil
import time

import costs
from tables import EXAMPLES

MANY = 300
# It is asked in the page, where that costs next to nothing.
ARE_DONE = """
const areDone = () => document.querySelectorAll('#audit-list > li').length === arguments[0] && document.querySelector('#work').hidden
  && !document.querySelector('[data-state=waiting], [data-state=running]');
return new Promise(done => {
  const look = () => areDone() ? done(true) : setTimeout(look, 50);
  look();
});
"""


def write(folder):
    """Elections with prices, of which each third has prices that don't support the outcome."""
    folder.mkdir()
    for number in range(MANY):
        certificate = "district.prices.csv" if number % 3 else "district.short.prices.csv"
        shutil.copy(EXAMPLES / "district.pb", folder / f"d{number:03}.pb")
        shutil.copy(EXAMPLES / certificate, folder / f"d{number:03}.prices.csv")


def cost(browser, folder):
    """Seconds by the clock, from the choice of the folder until all are answered, and seconds of processors."""
    spent, begun = costs.seconds_of(browser), time.monotonic()
    browser.give_folder("#folder-input", folder)
    browser.ask(ARE_DONE, MANY)
    return time.monotonic() - begun, costs.seconds_of(browser) - spent
