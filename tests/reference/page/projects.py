"""The tables of projects on a page about prices: those that weren't funded, and those that were."""
from . import amounts
from .bars import bar, bar_against, part_in_words
from .nodes import element
from .tables import BAR, MONEY, MOST_ROWS, NUMBER, WORDS, table


def closest_first(figures):
    """The projects that weren't funded, those to which the least is missing first."""
    return sorted(figures.claim.unfunded(), key=lambda each: figures.claim.cost(each) - figures.has(each))


def wrongly_paid_first(figures):
    """The projects that were funded, those that are paid furthest from their cost first, and then the dearest."""
    cost, paid = figures.claim.cost, figures.claim.paid
    return sorted(figures.claim.funded(), key=lambda each: (-abs(paid(each) - cost(each)), -cost(each)))


def unfunded(case, figures):
    """The projects that weren't funded, by what their supporters have left or can offer."""
    projects = closest_first(figures)
    title = element("h2", case.say("unfunded.title"))
    if not projects:
        return element("section", title, element("p", case.none_unfunded()), class_="sorted")
    columns = [
        ("projects.project", WORDS), ("projects.cost", MONEY), ("projects.supporters", NUMBER),
        (f"unfunded.amount.{figures.form()}", MONEY), ("unfunded.against", BAR),
    ]  # fmt: skip
    places = places_in_orders(case, projects)
    rows = [unfunded_row(case, figures, project, places[project]) for project in projects]
    return element(
        "section",
        title, element("p", case.say(f"unfunded.how.{figures.form()}")), orders(case, len(projects)),
        table(case, "unfunded.title", columns, rows), class_="sorted",
    )  # fmt: skip


def orders(case, count):
    """The choice of an order, and that it is one of those that stand there, where others are left out."""
    choices = [
        element("label", element("input", type="radio", name="order", class_=each,
                                 checked="checked" if each == "closest" else None),
                case.say(f"unfunded.order.{each}"))
        for each in ("closest", "dearest", "supported")
    ]  # fmt: skip
    only = element("p", case.filled("unfunded.only_closest", count=amounts.grouped(MOST_ROWS)))
    choice = element("fieldset", element("legend", case.say("unfunded.order.title")), choices)
    return [choice, only if count > MOST_ROWS else []]


def places_in_orders(case, projects):
    """The places of each project, from 1, by its cost and by how many supporters it has."""
    dearest, supported = largest_first(projects, case.cost), largest_first(projects, case.supporters)
    places = [{project: place for place, project in enumerate(order, 1)} for order in (dearest, supported)]
    return {project: (places[0][project], places[1][project]) for project in projects}


def largest_first(projects, size):
    """The projects by a size of theirs; of two that are alike the first one is the first."""
    return sorted(projects, key=lambda each: -size(each))


def unfunded_row(case, figures, project, places):
    order = f"--cost:{places[0]};--supporters:{places[1]}"
    supporters = amounts.grouped(case.supporters(project))
    has, cost = case.amount(figures.has(project)), case.amount(case.cost(project))
    return project, order, cost, supporters, has, against(case, figures, project)


def against(case, figures, project):
    """What the supporters have against the cost, how far that is from it, and what is paid in vain."""
    cost, has = case.cost(project), figures.has(project)
    label = case.wording.label(f"unfunded.label.{figures.form()}", project=case.project_name(project),
                               amount=case.money(has), cost=case.money(cost))
    paid = figures.claim.paid(project)
    in_vain = element("span", case.filled("unfunded.in_vain", paid=case.money(paid)), class_="verdict fails")
    return [bar_against(label, has, cost, has > cost), distance(case, has, cost), in_vain if paid else []]


def distance(case, has, cost):
    """How far an amount is from a cost."""
    if has == cost:
        return element("span", case.say("unfunded.equal"), class_="verdict")
    amount = case.money(abs(has - cost))
    if has < cost:
        return element("span", case.filled("unfunded.under", amount=amount), class_="verdict")
    return element("span", "\u2717 ", case.filled("unfunded.over", amount=amount), class_="verdict fails")


def funded(case, figures):
    """The projects that were funded, by the part of the limit that they take."""
    title = element("h2", case.say("funded.title"))
    projects = wrongly_paid_first(figures)
    if not projects:
        return element("section", title, element("p", case.none_funded()))
    columns = [
        ("projects.project", WORDS), ("projects.cost", MONEY), ("projects.supporters", NUMBER),
        ("funded.per_supporter", MONEY), ("funded.part", BAR),
    ]  # fmt: skip
    rows = [funded_row(case, figures, project) for project in projects]
    how = element("p", case.say("funded.how"))
    return element("section", title, how, table(case, "funded.title", columns, rows))


def funded_row(case, figures, project):
    cost, count = case.cost(project), case.supporters(project)
    each = amounts.rounded(cost / count, case.decimals, case.language) if count else "\u2013"
    part = [
        bar(part_label(case, project, case.limit), cost, case.limit),
        element("span", part_in_words(case, cost, case.limit), " \u00b7 "),
        payment(case, figures.claim.paid(project), cost),
    ]
    return project, None, case.amount(cost), amounts.grouped(count), each, part


def part_label(case, project, whole):
    cost = case.cost(project)
    return case.wording.label("projects.label_of_part", project=case.project_name(project), part=case.money(cost),
                              whole=case.money(whole))


def payment(case, paid, cost):
    """Whether a funded project is paid for exactly."""
    if paid == cost:
        return element("span", case.say("funded.paid.exactly"))
    said = "funded.paid.over" if paid > cost else "funded.paid.under"
    words = case.filled(said, paid=case.money(paid), amount=case.money(abs(paid - cost)))
    return element("span", "\u2717 ", words, class_="note fails")
