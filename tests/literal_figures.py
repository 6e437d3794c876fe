"""Days and months, and what the facts of a household come to, read literally from docs/RULES.md.

A day is a number of days, a month is 12 * year + month - 1."""
import datetime

MOST_AMOUNT = 9_999_999


# ---- days, months and rounding

def day_of(text):
    return datetime.date.fromisoformat(text).toordinal()


def text_of(day):
    return datetime.date.fromordinal(day).isoformat()


def month_of(day):
    date = datetime.date.fromordinal(day)
    return 12 * date.year + date.month - 1


def month_of_text(text):
    return 12 * int(text[:4]) + int(text[5:]) - 1


def text_of_month(month):
    return f"{month // 12:04}-{month % 12 + 1:02}"


def first_of(month):
    return datetime.date(month // 12, month % 12 + 1, 1).toordinal()


def last_of(month):
    return first_of(month + 1) - 1


def days_in(month):
    return last_of(month) - first_of(month) + 1


EARLIEST, FIRST_DAY, LAST_DAY = day_of("1880-01-01"), day_of("2000-01-01"), day_of("2099-12-31")


def round_half_up(number, by):
    return (2 * number + by) // (2 * by)


def age_on(born, day):
    """Who was born on 29 February is a year older on 1 March of a common year."""
    born, day = datetime.date.fromordinal(day_of(born)), datetime.date.fromordinal(day)
    return day.year - born.year - ((day.month, day.day) < (born.month, born.day))


def two_years_before(day):
    date = datetime.date.fromordinal(day)
    is_leap_day = (date.month, date.day) == (2, 29)
    return max(EARLIEST, date.replace(year=date.year - 2, day=28 if is_leap_day else date.day).toordinal())


# ---- facts

def is_of_family(member):
    return member["relation"] != "Aide"


def is_of_the_head(member):
    return member["relation"] in ("Head", "Spouse", "Cohead")


def eligible_in(facts):
    """How many members of the family are eligible. A member is, if it doesn't say otherwise; what an aide says has no meaning."""
    return len([it for it in facts["members"] if is_of_family(it) and it.get("eligible", True)])


def amounts_of(facts):
    lists = [(facts["incomes"], ["annual"]), (facts["assets"], ["value", "income"]), (facts["disposals"], ["value", "received"])]
    costs = [facts[name] for name in ("care_work", "care_school", "disability", "medical", "welfare")]
    return costs + [it[name] for items, names in lists for it in items for name in names]


def broken_rule(facts, day):
    members, relations = facts["members"], [it["relation"] for it in facts["members"]]
    too_many = any(len(facts[name]) > 40 for name in ("incomes", "assets", "disposals"))
    broken = {
        1: relations.count("Head") != 1,
        2: relations.count("Spouse") + relations.count("Cohead") > 1,
        3: any(it["member"] >= len(members) for it in facts["incomes"]),
        4: any(it > MOST_AMOUNT for it in amounts_of(facts)),
        5: any(it["received"] > it["value"] for it in facts["disposals"]),
        6: too_many or len(members) > 16 or sum(map(is_of_family, members)) > 12,
        7: any(day_of(it["born"]) > day for it in members),
        8: eligible_in(facts) == 0,
    }
    return next((rule for rule in broken if broken[rule]), None)


def incomes_of(facts, number, kinds):
    return sum(it["annual"] for it in facts["incomes"] if it["member"] == number and it["kind"] in kinds)


def earned_by(facts, number, day):
    """What counts of a member's earnings."""
    member, earned = facts["members"][number], incomes_of(facts, number, ("Wages", "Business"))
    if not is_of_family(member):
        return 0
    if is_of_the_head(member):
        return earned
    if age_on(member["born"], day) < 18:
        return 0
    return min(earned, 480) if member["student"] else earned


def unearned_by(facts, number):
    if not is_of_family(facts["members"][number]):
        return 0
    return min(incomes_of(facts, number, ("Adoption",)), 480) + incomes_of(facts, number, ("Benefits", "Welfare", "Other"))


def net_assets(facts, day):
    disposals = [it for it in facts["disposals"] if two_years_before(day) <= day_of(it["day"]) <= day]
    given_away = sum(it["value"] - it["received"] for it in disposals)
    return sum(it["value"] for it in facts["assets"]) + (given_away if given_away > 1000 else 0)


def asset_income(facts, day, passbook):
    yielded, net = sum(it["income"] for it in facts["assets"]), net_assets(facts, day)
    return max(yielded, round_half_up(net * passbook, 10_000)) if net > 5000 else yielded


def annual_income(facts, day, passbook):
    members = range(len(facts["members"]))
    return sum(earned_by(facts, it, day) + unearned_by(facts, it) for it in members) + asset_income(facts, day, passbook)


def adjusted_income(facts, day, annual):
    numbered = list(enumerate(facts["members"]))
    family = [(number, it, age_on(it["born"], day)) for number, it in numbered if is_of_family(it)]
    dependents = [it for _, it, age in family if not is_of_the_head(it) and (age < 18 or it["disabled"] or it["student"])]
    is_elderly = any(is_of_the_head(it) and (age >= 62 or it["disabled"]) for _, it, age in family)
    care = 0
    if any(age < 13 for _, _, age in family):
        care = facts["care_school"] + min(facts["care_work"], sum(earned_by(facts, number, day) for number, it, _ in family if it["cared"]))
    threshold = round_half_up(3 * annual, 100)
    helped = sum(earned_by(facts, number, day) for number, it, age in family if it["helped"] and age >= 18)
    medical = facts["medical"] if is_elderly else 0
    if facts["disability"] > threshold:
        costs = min(facts["disability"] - threshold, helped) + medical
    else:
        costs = max(0, facts["disability"] + medical - threshold) if is_elderly else 0
    return max(0, annual - 480 * len(dependents) - (400 if is_elderly else 0) - care - costs)


def total_tenant_payment(facts, annual, adjusted):
    least = 0 if facts["exempt"] else 25
    return max(round_half_up(30 * adjusted, 1200), round_half_up(10 * annual, 1200), facts["welfare"], least)


def assistance_by(figures, rents):
    """What the office claims: the part of the eligible members, of what the total tenant payment leaves of the gross rent. If nobody is
    certified, that is nothing."""
    gross = rents["contract_rent"] + rents["utility"]
    left = gross - min(figures["ttp"], gross)
    return round_half_up(left * figures["eligible"], figures["size"]) if figures["size"] else 0


def paid_by(record):
    """By assistance and rents: what the office claims, what the family pays the owner, and what it is paid back."""
    share = record["contract_rent"] + record["utility"] - record["assistance"]
    return {"assistance": record["assistance"], "tenant_rent": max(0, share - record["utility"]), "reimbursement": max(0, record["utility"] - share)}


def figures_of(facts, day, passbook, rents):
    annual = annual_income(facts, day, passbook)
    adjusted = adjusted_income(facts, day, annual)
    figures = {"persons": len(facts["members"]), "size": sum(map(is_of_family, facts["members"])), "eligible": eligible_in(facts)}
    return with_rents(figures | {"annual": annual, "adjusted": adjusted, "ttp": total_tenant_payment(facts, annual, adjusted)}, rents)


def with_rents(figures, rents):
    return figures | rents | {"assistance": assistance_by(figures, rents)}
