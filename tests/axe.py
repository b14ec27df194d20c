"""axe, a checker of accessibility, as Chromium has it in its developer tools."""
import re

# Where Chromium keeps Lighthouse, which has axe in it as a text.
LIGHTHOUSE = "devtools://devtools/bundled/third_party/lighthouse/lighthouse-dt-bundle.js"
TEXT = re.compile(r"`/\*! axe v(?:[^`\\]|\\.)*`", re.DOTALL)
RUN = """
return axe.run({resultTypes: ['violations', 'incomplete']}).then(
  found => ({passes: found.passes.length, wrong: [...found.violations, ...found.incomplete].map(
    rule => rule.id + ' ' + rule.nodes[0].html.slice(0, 200))}),
  why => ({passes: 0, wrong: [String(why)]}));
"""


def source_of_axe(browser):
    """The script, or None where this Chromium doesn't have it."""
    browser.go(LIGHTHOUSE)
    found = TEXT.search(browser.ask("return document.body ? document.body.textContent : ''"))
    if found is None:
        return None
    browser.go("about:blank")
    return browser.ask("return eval(arguments[0])", found[0])


def faults_by_axe(browser):
    """What axe finds on the open page, and how many rules it found kept."""
    browser.ask(browser.axe)
    found = browser.ask(RUN)
    return found["wrong"], found["passes"]
