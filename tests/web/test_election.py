"""An election by itself in the page, and the certificates that somebody makes of it there, on a phone's screen."""
import pathlib
import random
import shutil
import subprocess

import browsers
import downloaded
import pytest

EXAMPLES = pathlib.Path(__file__).resolve().parents[2] / "examples"
DISTRICT = EXAMPLES / "district.pb"
IS_SHOWN = "return !document.querySelector('#election-told').hidden"
IS_DONE = """
return document.querySelector('#work').hidden && document.querySelector('#looking').hidden
  && !document.querySelector('[data-state=waiting], [data-state=running]');
"""
ROWS = """
return [...document.querySelectorAll('#projects tbody tr')].map(row =>
  ['project', 'cost', 'supporters', 'funded'].map(name => row.querySelector('td.' + name)?.textContent.trim()));
"""
AUDITS = """
return [...document.querySelectorAll('#audit-list > li')].map(item =>
  [item.querySelector('bdi').textContent, item.querySelector('.badge').textContent]);
"""
PRESS = """
const found = [...document.querySelectorAll(arguments[0] + ' button')].find(each =>
  each.textContent.startsWith(arguments[1]));
found.scrollIntoView({block: 'center'});
found.click();
"""
TICK = """
const label = [...document.querySelectorAll('#projects tbody label')].find(each =>
  each.textContent.includes(arguments[0]));
label.scrollIntoView({block: 'center'});
label.querySelector('input').click();
"""
TOO_WIDE = "return document.documentElement.scrollWidth - document.documentElement.clientWidth"
# The election of district.pb, as is read off the file: id, cost, supporters as its column `votes` says, funded.
PROJECTS = [
    ("Spielplatz an der Mühle erneuern", "101", "39\u202f600", "27", True),
    ("Radbügel am Bahnhof; 24 Stück", "102", "14\u202f400", "12", False),
    ("Bäume für die Łódź-Straße", "104", "21\u202f600", "30", True),
    ('Bücherschrank "Zum Raben"', "105", "4\u202f187.50", "14", True),
    ("Sprachcafé für Neuzugezogene", "108", "9\u202f600", "9", False),
    ("Trinkbrunnen auf dem Marktplatz", "109", "15\u202f900", "20", True),
]  # fmt: skip


def text(browser, selector):
    return browser.ask("return document.querySelector(arguments[0])?.innerText ?? ''", selector)


def show(browser, *paths):
    """Gives files, waits until the election is shown, and unfolds it."""
    browser.give("#files-input", *paths)
    browser.wait(IS_SHOWN, "the election")
    browser.wait(IS_DONE, "the audits")
    browser.ask("document.querySelector('#election-open').open = true")


def done(browser):
    browser.wait(IS_DONE, "what was asked for")


def audited(browser, *wanted):
    """Waits until the auditor has answered so, in any order."""
    browsers.until(lambda: sorted(browser.ask(AUDITS)) == sorted(map(list, wanted)), f"the audits {wanted}")
    done(browser)


def saved(browser, place, name, folder):
    """A copy of the file that the page saves when its button is pressed."""
    path = downloaded.saved(browser, lambda: browser.ask(PRESS, place, f"Save {name}"), name)
    return shutil.copy(path, folder / "found.csv")


def test_what_the_file_says(visit):
    show(visit, DISTRICT)
    facts = text(visit, "#facts")
    for each in ("Participatory budget of Altenbrück, district Brückenviertel", "Brückenviertel, Altenbrück, Nowhere",
                 "60", "111\u202f000 EUR", "12", "102\u202f177.50 EUR", "ballots on paper were typed in"):  # fmt: skip
        assert each in facts
    wanted = [[f"{name} {number}", cost, supporters, "funded" if is_funded else "not funded"]
              for name, number, cost, supporters, is_funded in PROJECTS]
    assert visit.ask(ROWS)[:6] == wanted
    assert len(visit.ask(ROWS)) == 12
    assert visit.ask(TOO_WIDE) == 0


@pytest.mark.parametrize("column, first, last", [
    ("Cost", "Hallenbad", "Bücherschrank"), ("Supporters", "Bäume", "Sprachcafé"), ("Project", "Bänke", "Trinkbrunnen"),
])  # fmt: skip
def test_sorted_by_a_column(visit, column, first, last):
    show(visit, DISTRICT)
    visit.ask(PRESS, "#projects thead", column)
    rows = [row[0] for row in visit.ask(ROWS)]
    assert (rows[0].split(" ")[0].rstrip(":"), rows[-1].split(" ")[0]) == (first, last)
    visit.ask(PRESS, "#projects thead", column)
    rows = [row[0] for row in visit.ask(ROWS)]
    assert (rows[0].split(" ")[0], rows[-1].split(" ")[0].rstrip(":")) == (last, first)


def test_sorted_by_what_is_funded(visit):
    show(visit, DISTRICT)
    visit.ask(PRESS, "#projects thead", "Funded")
    assert [row[3] for row in visit.ask(ROWS)] == ["funded"] * 6 + ["not funded"] * 6
    assert visit.ask("return document.querySelector('th.funded').getAttribute('aria-sort')") == "descending"


def test_searched(visit):
    show(visit, DISTRICT)
    search = """const input = document.querySelector('#search-projects');
input.value = arguments[0];
input.dispatchEvent(new Event('input'));"""
    visit.ask(search, "łÓDŹ")
    assert [row[0] for row in visit.ask(ROWS)] == ["Bäume für die Łódź-Straße 104"]
    visit.ask(search, "12")
    assert [row[0].split(" ")[-1] for row in visit.ask(ROWS)] == ["120", "121"]
    visit.ask(search, "nothing like it")
    assert visit.ask("return !document.querySelector('#none-like-it').hidden")


def test_prices_from_a_bare_election(visit, program, tmp_path):
    """Somebody with an election alone gets prices that the proved program accepts, as the page says."""
    show(visit, DISTRICT)
    visit.ask(PRESS, "#making", "Look for prices")
    visit.wait("return document.querySelector('#looked').textContent", "the prices")
    audited(visit, ("district.found.prices.csv", "Yes"))
    assert "The prices support this outcome" in text(visit, "#audit-list")
    assert "Its answer stands under “Audits”" in text(visit, "#looked")
    certificate = saved(visit, "#looked", "district.found.prices.csv", tmp_path)
    words = [program, "prices", DISTRICT, certificate, "--cover"]
    told = subprocess.run(words, stdout=subprocess.PIPE, text=True, check=False)
    assert told.stdout == "supported priceable\n"
    assert visit.ask(TOO_WIDE) == 0


def test_a_violation_claim_from_a_bare_election(visit):
    """Somebody ticks projects, sees that the group has no claim, and has that checked."""
    show(visit, DISTRICT)
    visit.ask(TICK, "Sprachcafé")
    visit.wait("return document.querySelector('#group').textContent.includes('Sprachcafé')", "the figures")
    told = text(visit, "#group")
    # Nine voters have 9 of the 60 shares of 111,000, which is 16,650.
    for each in ("They cost 9\u202f600 EUR together", "approve all of them: 9.", "budget limit: 16\u202f650 EUR"):
        assert each in told
    # By cost and by counting each of the nine has something funded that is worth as much, or their share is too small.
    assert told.count("No claim: ") == 2 and "proves" not in told
    visit.ask(PRESS, "#group", "Have it checked anyway")
    visit.wait("return document.querySelector('.made')", "the certificate")
    audited(visit, ("district.found.violation.csv", "No"))
    assert "doesn’t prove unfair treatment" in text(visit, "#audit-list")


def test_a_violation_that_is_found(visit, program, tmp_path):
    """With an outcome that passes a group over, the page finds the group, and the proved program agrees."""
    outcome = EXAMPLES / "district.other.outcome.csv"
    show(visit, DISTRICT, outcome)
    visit.ask("""const choice = document.querySelector('#election-choice select');
choice.selectedIndex = 1;
choice.dispatchEvent(new Event('change'));""")
    visit.wait("return document.querySelector('#projects td.funded').textContent === 'not funded'", "that outcome")
    visit.ask(PRESS, "#making", "Look for groups")
    visit.wait("return document.querySelector('#looked').textContent", "the groups")
    done(visit)
    assert "a group was found" in text(visit, "#looked")
    visit.ask(PRESS, "#looked", "Tick these projects")
    visit.wait("return document.querySelector('#group').textContent.includes('This proves unfair treatment')", "the figures")
    visit.ask(PRESS, "#looked", "Make a violation certificate")
    visit.wait("return document.querySelector('#looked .made')", "the certificate")
    audited(visit, ("district.found.violation.csv", "Yes"))
    certificate = saved(visit, "#looked", "district.found.violation.csv", tmp_path)
    words = [program, "violation", DISTRICT, certificate, "--outcome", outcome]
    assert subprocess.run(words, stdout=subprocess.PIPE, text=True, check=False).stdout == "violation\n"


def test_none_found_is_no_proof(visit):
    show(visit, DISTRICT)
    visit.ask(PRESS, "#making", "Look for groups")
    visit.wait("return document.querySelector('#looked').textContent", "that none was found")
    told = text(visit, "#looked")
    assert told.count("no group was found") == 2
    assert "doesn't prove that there is none" in told


def write(path, *rows, votes=(), budget=10):
    head = ["META", "key;value", f"budget;{budget}", "vote_type;approval", "PROJECTS", "project_id;cost;name;selected"]
    path.write_text("\n".join([*head, *rows, "VOTES", "voter_id;vote", *votes, ""]), encoding="utf-8")
    return path


def accepted(visit, program, folder, path, name, *options):
    """What the proved program says of a certificate that the page saves under "Check further"."""
    certificate = saved(visit, "#looked", name, folder)
    command = "prices" if name.endswith("prices.csv") else "refutation"
    told = subprocess.run([program, command, path, certificate, *options], stdout=subprocess.PIPE, text=True, check=False)
    return told.stdout.rstrip("\n")


def test_no_prices_but_a_refutation(visit, program, tmp_path):
    """The supporter of `a` needs a budget of 4, so that those of `b` have 8 left, which costs 7."""
    path = write(tmp_path / "none.pb", "a;4;A;1", "b;7;B;0", votes=["1;a", "2;b", "3;b"])
    show(visit, path)
    visit.ask(PRESS, "#making", "Look for prices")
    visit.wait("return document.querySelector('#looked .made')", "the refutation")
    told = text(visit, "#looked")
    assert "A refutation was found" in told and "“No prices can support this outcome”" in told
    audited(visit, ("none.found.refutation.csv", "Yes"))
    assert accepted(visit, program, tmp_path, path, "none.found.refutation.csv") == "unpriceable"


def two(path):
    """Two pay 4 for `a`, so that one of them pays 2 or more, and would rather pay that for `c`."""
    return write(path, "a;4;A;1", "c;1;C;0", votes=["1;a,c", "2;a,c"])


def test_a_refutation_of_stable_prices(visit, program, tmp_path):
    """It is asked as one of stable prices, whatever is ticked."""
    path = two(tmp_path / "two.pb")
    show(visit, path)
    visit.ask("for (const id of ['stable', 'exhaustive']) document.querySelector(`#${id}`).click();")
    visit.ask(PRESS, "#making", "Look for prices")
    visit.wait("return document.querySelector('#looked .made')", "the refutation")
    assert "“No stable prices can support this outcome”" in text(visit, "#looked")
    audited(visit, ("two.found.stable.refutation.csv", "Yes"))
    visit.ask("document.querySelector('#stable').click()")
    audited(visit, ("two.found.stable.refutation.csv", "Yes"))
    assert "No stable prices can support this outcome" in text(visit, "#audit-list")
    name = "two.found.stable.refutation.csv"
    assert accepted(visit, program, tmp_path, path, name, "--stable") == "unpriceable stable"


def test_both_forms_are_looked_for(visit, program, tmp_path):
    """By "Check further": there are plain prices, without Cover, and no stable ones. To the voters, who both approve `a` and `c`, the
    limit would give both, so that there are violations as well: two projects for one, and 5 for 4."""
    path = two(tmp_path / "both.pb")
    show(visit, path)
    visit.ask("document.querySelector('#check-further').click()")
    visit.wait("return document.querySelector('#looked').textContent.includes('That is all')", "the end of the search")
    kinds = ("prices", "stable.refutation", "violation", "cost.violation")
    audited(visit, *[(f"both.found.{kind}.csv", "Yes") for kind in kinds])
    told = text(visit, "#looked")
    assert "could be added within the budget limit" in told and "Neither prices nor a refutation" not in told
    name = "both.found.stable.refutation.csv"
    assert accepted(visit, program, tmp_path, path, name, "--stable") == "unpriceable stable"


def test_an_outcome_that_costs_too_much(visit, tmp_path):
    """That no prices support it is what the auditor answers of any."""
    show(visit, write(tmp_path / "dear.pb", "a;6;A;1", "b;6;B;1", votes=["1;a"]))
    visit.ask(PRESS, "#making", "Look for prices")
    visit.wait("return document.querySelector('#looked').textContent", "that there can be none")
    assert "cost more than the budget limit together" in text(visit, "#looked")
    assert text(visit, "#looked code") == "failed Feasible"


def test_a_project_that_nobody_approves(visit, program, tmp_path):
    """That no prices support its outcome is stated as a refutation, which the proved program accepts."""
    path = write(tmp_path / "never.pb", "a;6;A;1", "b;4;Nobody's;1", votes=["1;a"])
    show(visit, path)
    visit.ask(PRESS, "#making", "Look for prices")
    visit.wait("return document.querySelector('#looked .made')", "the refutation")
    assert "Nobody's is funded and nobody approves it" in text(visit, "#looked")
    audited(visit, ("never.found.refutation.csv", "Yes"))
    certificate = saved(visit, "#looked", "never.found.refutation.csv", tmp_path)
    told = subprocess.run([program, "refutation", path, certificate], stdout=subprocess.PIPE, text=True, check=False)
    assert told.stdout == "unpriceable\n"


# An election of which a search for groups goes on for long: half of the voters approve each of 55 projects.
def slow(path):
    chance = random.Random(7)
    rows = [f"f{at};40;F{at};1" for at in range(5)] + [f"u{at};1;U{at};0" for at in range(55)]
    wanted = [f"u{at}" for at in range(55)]
    votes = [f"{voter};f0,f1,f2,f3,f4," + ",".join(chance.sample(wanted, 28)) for voter in range(3000)]
    return write(path, *rows, votes=votes, budget=200)


def searching(visit):
    visit.ask(PRESS, "#making", "Look for groups")
    visit.wait("return document.querySelector('#looking-for').textContent.includes('trying sets of')", "the search")


IS_LOOKING = "return document.querySelector('#looking').checkVisibility() && !document.querySelector('#looking').hidden"


def test_other_files_leave_a_search_alone(visit, tmp_path):
    """Another election, and an outcome with a certificate, come while a search goes on: it goes on."""
    path = slow(tmp_path / "slow.pb")
    write(tmp_path / "other.pb", "a;4;A;1", votes=["1;a"])
    (tmp_path / "slow.outcome.csv").write_text("pb-outcome,1\nproject,f0\n")
    (tmp_path / "slow.violation.csv").write_text("pb-violation,1\nproject,u0\nvoter,1\n")
    show(visit, path)
    searching(visit)
    visit.give("#files-input", *(tmp_path / name for name in ("other.pb", "slow.outcome.csv", "slow.violation.csv")))
    visit.wait("return document.querySelectorAll('#file-list > li').length === 4", "the files")
    visit.wait("return !document.querySelector('[data-state=waiting], [data-state=running]')", "the audits")
    assert visit.ask(IS_LOOKING)
    assert visit.ask("return document.querySelector('#election-remark').hidden")
    visit.ask("document.querySelector('#stop-looking').click()")
    visit.wait("return document.querySelector('#looking').hidden", "the end of the search")
    assert "stopped. No group was found." in text(visit, "#looked")


def test_a_search_ends_with_a_word(visit, tmp_path):
    """The election of a search is given anew: the search is ended, which is said."""
    path = slow(tmp_path / "slow.pb")
    show(visit, path)
    searching(visit)
    write(path, "a;4;A;1", votes=["1;a"])
    visit.give("#files-input", path)
    visit.wait("return document.querySelectorAll('#projects tbody tr').length === 1", "the other election")
    assert text(visit, "#election-remark").startswith("The search was ended")
    assert visit.ask("return document.querySelector('#looking').hidden")


@pytest.mark.parametrize("button", ["Look for prices", "Look for groups"])
def test_a_file_that_was_changed_is_not_searched(visit, tmp_path, button):
    """What is kept of a file that was changed since isn't searched, which is said, and no certificate is made of it. Chromium
    doesn't read such a file any more, and Firefox reads what is there now."""
    path = write(tmp_path / "kept.pb", "a;4;A;1", "b;9;B;0", votes=["1;a", "2;b"])
    show(visit, path)
    write(path, "a;4;A;1", "b;9;B;0", "c;9;C;0", votes=["1;a", "2;b"])
    visit.ask(PRESS, "#making", button)
    visit.wait("return /changed/.test(document.querySelector('#election-remark').innerText)", "that it was changed")
    done(visit)
    [(name, answer)] = visit.ask(AUDITS)
    assert name == "kept.pb"
    if answer == "No answer":
        assert "kept.pb can't be read" in text(visit, "#audit-list")
    else:
        assert "Projects: 3." in text(visit, "#audit-list")


def test_an_election_without_an_outcome(visit, tmp_path):
    path = tmp_path / "open.pb"
    path.write_text(DISTRICT.read_text(encoding="utf-8").replace(";selected", ";chosen"), encoding="utf-8")
    show(visit, path)
    assert "doesn't say which projects are funded" in text(visit, "#facts")
    assert visit.ask("return document.querySelector('#making').hidden")
    assert visit.ask(ROWS)[0][3] is None


def test_a_refused_election_shows_nothing(visit, tmp_path):
    path = write(tmp_path / "wrong.pb", "a;4;A;1", votes=["1;a,z"])
    visit.give("#files-input", path)
    visit.wait("return document.querySelector('#audit-list .badge')?.textContent === 'Refused'", "the refusal")
    done(visit)
    assert visit.ask("return document.querySelector('#election-told').hidden")


def test_hostile_texts(visit, tmp_path):
    """Markup out of a file is shown as it is, and hidden characters by their numbers."""
    bad = "<img src=x onerror=\"document.title='taken'\">"
    path = write(tmp_path / "bad.pb", f"a;4;{bad};1", "b\u202e;9;;0", f"{'x' * 5000};1;long;0", votes=["1;a"])
    quoted = f'"{bad.replace(chr(34), chr(34) * 2)}"'
    facts = f"description;{quoted}\ncurrency;<b>\u202e\nbudget;10"
    path.write_text(path.read_text("utf-8").replace(bad, quoted).replace("budget;10", facts), encoding="utf-8")
    show(visit, path)
    rows = visit.ask(ROWS)
    assert rows[0][0] == f"{bad} a" and rows[1][0] == "b\\u{202e}"
    assert len(rows[2][0]) < 200
    assert bad in text(visit, "#facts") and "10 <b>\\u{202e}" in text(visit, "#facts")
    visit.ask(TICK, bad)
    visit.wait("return document.querySelector('#group').textContent.includes('<img')", "its name")
    visit.ask(PRESS, "#making", "Look for prices")
    visit.wait("return document.querySelector('#looked code')", "the project that could be added")
    assert text(visit, "#looked code") == f"failed Exhaustive project {'x' * 5000}"[:300] + "…"
    assert visit.ask("return document.querySelectorAll('main img, main b').length") == 0
    assert visit.ask("return document.title") != "taken"
    assert visit.ask(TOO_WIDE) == 0


def test_another_election_is_chosen(visit, tmp_path):
    shutil.copy(DISTRICT, tmp_path / "one.pb")
    write(tmp_path / "two.pb", "a;4;A;1", votes=["1;a"])
    visit.give("#files-input", tmp_path / "one.pb", tmp_path / "two.pb")
    visit.wait("return document.querySelectorAll('#audit-list > li').length === 2", "both")
    done(visit)
    assert visit.ask("return document.querySelector('#election-told').hidden")
    choose = """const choice = document.querySelector('#election-choice select');
choice.selectedIndex = arguments[0];
choice.dispatchEvent(new Event('change'));"""
    for place, count in ((2, 1), (1, 12)):
        visit.ask(choose, place)
        visit.wait(f"return document.querySelectorAll('#projects tbody tr').length === {count}", "its projects")
    visit.give("#files-input", EXAMPLES / "sample.pb", EXAMPLES / "sample.prices.csv")
    audited(visit, ("one.pb", "Proved"), ("two.pb", "Proved"), ("sample.prices.csv", "Yes"))
    for place, count in ((3, 3), (2, 1), (1, 12)):
        visit.ask(choose, place)
        visit.wait(f"return document.querySelectorAll('#projects tbody tr').length === {count}", "its projects")
        assert visit.ask("return document.querySelector('#election-open').open")
    for _ in range(3):
        visit.ask("[...document.querySelectorAll('#file-list button')].at(-1).click()")
    visit.wait(IS_SHOWN, "the one that is left")
    assert len(visit.ask(ROWS)) == 12


def test_in_each_language(visit):
    show(visit, DISTRICT)
    visit.ask(TICK, "Sprachcafé")
    visit.wait("return !document.querySelector('#group').hidden", "the figures")
    told_in = {"de": ["Gesamtbudget", "Kein Anspruch: "], "pl": ["Pula środków", "Brak roszczenia: "],
               "fr": ["Enveloppe", "Aucun grief\u00a0: "], "en": ["Budget limit", "No claim: "]}  # fmt: skip
    for code, words in told_in.items():
        visit.ask("""const choice = document.querySelector('#language');
choice.value = arguments[0];
choice.dispatchEvent(new Event('change'));""", code)
        done(visit)
        told = text(visit, "#election")
        assert all(each in told for each in [*words, "16\u202f650 EUR"]), (code, told)
        assert visit.ask(TOO_WIDE) == 0, code


def test_a_large_election_is_read_again(visit, tmp_path):
    """What the search holds of many voters is given back before the audit; what is ticked then is still answered."""
    votes = [f"{at};{'a,b' if at % 2 else 'b'}" for at in range(100_002)]
    path = write(tmp_path / "large.pb", "a;4;A;1", "b;7;B;0", votes=votes)
    show(visit, path)
    visit.ask(PRESS, "#making", "Look for prices")
    visit.wait("return document.querySelector('.made')", "the prices")
    audited(visit, ("large.found.prices.csv", "Yes"))
    visit.ask(TICK, "A")
    visit.wait("return document.querySelector('#group').textContent.includes('50\u202f001')", "the figures")


def test_a_refutation_of_a_group_whose_share_was_enough(visit, program, tmp_path):
    """Two of three voters have a share of 6, which covers `b` and what was funded for them: 2 and 3."""
    if "refutation" not in subprocess.run([program, "--help"], stdout=subprocess.PIPE, text=True, check=True).stdout:
        pytest.skip("the program is older, and knows no refutations")
    path = write(tmp_path / "passed.pb", "a;2;A;1", "b;3;B;0", "c;7;C;1", votes=["1;a,b", "2;a,b", "3;c"], budget=9)
    show(visit, path)
    visit.ask(TICK, "A")
    visit.ask(TICK, "B")
    visit.wait("return document.querySelector('#group').textContent.includes('This proves unfair treatment')", "the figures")
    visit.ask(PRESS, "#group", "Make a violation certificate")
    visit.wait("return document.querySelector('#group .made')", "the certificate")
    audited(visit, ("passed.found.violation.csv", "Yes"))
    visit.ask(PRESS, "#group", "Have it checked")
    audited(visit, ("passed.found.refutation.csv", "Yes"), ("passed.found.violation.csv", "Yes"))
    certificate = saved(visit, "#group", "passed.found.refutation.csv", tmp_path)
    told = subprocess.run([program, "refutation", path, certificate], stdout=subprocess.PIPE, text=True, check=False)
    assert told.stdout == "unpriceable cover\n"


def test_a_search_is_stopped(visit, tmp_path):
    """Sets of six among 60 projects that half of the voters approve take long; a search that was stopped says so."""
    show(visit, slow(tmp_path / "dense.pb"))
    searching(visit)
    assert visit.ask("return document.activeElement.id") == "stop-looking"
    visit.ask("document.querySelector('#stop-looking').click()")
    visit.wait("return document.querySelector('#looking').hidden", "the end of the search")
    assert "stopped. No group was found." in text(visit, "#looked")
    assert "doesn't prove that there is none" in text(visit, "#looked")
    assert visit.ask("return document.activeElement.id") == "look-for-groups"


@pytest.mark.parametrize("change", ["voters: told.summary.voters + 1", "projects: told.summary.projects.slice(1)",
                                    "projects: told.summary.projects.map(each => ({...each, isFunded: true}))"])
def test_other_numbers_than_the_auditors(visit, change):
    """Where the script that shows an election counts otherwise than the auditor, it says so and shows nothing."""
    visit.ask("""const script = document.querySelector('#finder'), changed = `
const send = self.postMessage.bind(self);
self.postMessage = ({number, content: told}) =>
  send({number, content: told.summary ? {...told, summary: {...told.summary, ${arguments[0]}}} : told});`;
script.textContent = changed + script.textContent;""", change)
    visit.give("#files-input", DISTRICT)
    visit.wait("return !document.querySelector('#election-problem').hidden", "what is the matter")
    assert "reads other numbers in the file than the auditor does" in text(visit, "#election-problem")
    assert visit.ask("return document.querySelector('#election-told').hidden")
