"""An office read literally from the manual: docs/RULES.md, ACTS.md, REFUSALS.md and COMMANDS.md. It answers the lines of a batch by
filters of plain lists, day by day. It was written from these pages alone, never from the program, and it knows no index. No script of
tests/literal fills a book, so BookFull and LinesFull are left out.

Days and months are numbers, as in literal_figures.py. A record is what the question `record` shows of it, with a day for `from`, and how
many of the family's members are eligible, which no question shows."""
import functools, json

from literal_figures import (EARLIEST, FIRST_DAY, LAST_DAY, annual_income, broken_rule, day_of, days_in, figures_of, first_of, is_of_family,
                             last_of, month_of, month_of_text, paid_by, round_half_up, text_of, text_of_month, two_years_before, with_rents)
from literal_forms import bad_path

YEARLY = ("MI", "IC", "AR")
MOST_ACTS = 100_000
MADE_KINDS = {"start": "IC", "admit": "MI", "annual": "AR", "interim": "IR", "resume": "IC", "gross": "GR", "transfer": "UT",
              "move_out": "MO", "terminate": "TM", "withdraw": "WD"}
NOTHING = {"persons": 0, "size": 0, "eligible": 0, "annual": 0, "adjusted": 0, "ttp": 0, "contract_rent": 0, "utility": 0, "assistance": 0}


# ---- the book: accepted acts, records and lines, and what is filtered from them

class Book:
    def __init__(self):
        self.acts, self.records, self.lines = [], [], []


def acts_of(book, *kinds):
    return [it for it in book.acts if it["act"]["kind"] in kinds]


def plan_of(book):
    return book.acts[0]["act"]


def first_month(book):
    return month_of_text(plan_of(book)["first"])


def numbered(items, number):
    """The item of that number, which begins with 1; None if there is none."""
    return items[number - 1] if 1 <= number <= len(items) else None


def unit_of(book, number):
    found = numbered(acts_of(book, "unit"), number)
    return found and found["act"]


def on_list(book):
    """The numbers and acts of the applicants who were neither removed nor admitted."""
    gone = [it["act"]["applicant"] for it in acts_of(book, "remove", "admit")]
    return [(number, it) for number, it in enumerate(acts_of(book, "apply"), 1) if number not in gone]


def household_numbers(book):
    return range(1, len(acts_of(book, "start", "admit")) + 1)


def records_of(book, household):
    return [it for it in book.records if it["household"] == household]


def name_of(book, household):
    act = acts_of(book, "start", "admit")[household - 1]["act"]
    return act["name"] if act["kind"] == "start" else acts_of(book, "apply")[act["applicant"] - 1]["act"]["name"]


def in_order(records):
    return sorted(records, key=lambda it: (it["from"], it["number"]))


def live(book, household, as_of=MOST_ACTS):
    """The records that count as of an act, in the order of their first days, and of one day by number."""
    known = [it for it in records_of(book, household) if it["act"] <= as_of]
    gone = [it["corrects"] for it in known]
    return in_order(it for it in known if it["kind"] != "WD" and it["number"] not in gone)


def in_force(records, day):
    """Of records in their order the last one that has begun; None if none has."""
    for record in reversed(records):
        if record["from"] <= day:
            return record
    return None


def is_assisted(record):
    return record is not None and record["kind"] not in ("MO", "TM")


def rows_of(book, kind):
    """The acts that set something from a day on: that day, the act's number and what it says, in this order."""
    return sorted((day_of(it["act"]["from"]), it["number"], it["act"]) for it in acts_of(book, kind))


def row_on(rows, day):
    """The last one that has begun, of one first day the later act; None if none has."""
    return next((act for begun, _, act in reversed(rows) if begun <= day), None)


def rents_of(act):
    return act and {"contract_rent": act["contract_rent"], "utility": act["utility"]}


def rents_on(book, group, day):
    return rents_of(row_on([it for it in rows_of(book, "rents") if it[2]["group"] == group], day))


def limits_on(book, day):
    return row_on(rows_of(book, "limits"), day)


def changing_days(book, *others):
    """The days from the plan's first on, to the last on which a record or rents begin: on all later ones all is as on that."""
    begun = [it["from"] for it in [*book.records, *others]] + [day_of(it["act"]["from"]) for it in acts_of(book, "rents")]
    first = first_of(first_month(book))
    return range(first, min(LAST_DAY, max([first, *begun])) + 1)


def old_rents(book, household, days):
    """The first of the days on which the record in force has other rents than its unit, and that record; None if there is none."""
    records, rents = live(book, household), rows_of(book, "rents")
    of_unit = [[row for row in rents if row[2]["group"] == it["act"]["group"]] for it in acts_of(book, "unit")]
    for day in days:
        record = in_force(records, day)
        right = is_assisted(record) and row_on(of_unit[record["unit"] - 1], day)
        if right and (record["contract_rent"], record["utility"]) != (right["contract_rent"], right["utility"]):
            return day, record
    return None


# ---- the record that an act makes

def target_of(book, act):
    return numbered(records_of(book, act["household"]), act["record"])


def carried(book, household, day):
    """The record in force on the day, or record 1."""
    return in_force(live(book, household), day) or records_of(book, household)[0]


def first_day(book, act):
    if act["kind"] == "withdraw":
        return target_of(book, act)["from"]
    return day_of(act["last"]) + 1 if act["kind"] == "move_out" else day_of(act["from"])


def unit_number(book, act):
    if act["kind"] == "withdraw":
        return 0
    if act["kind"] == "correct":
        return target_of(book, act)["unit"]
    return act["unit"] if "unit" in act else carried(book, act["household"], first_day(book, act))["unit"]


def unit_rents(book, act):
    """The rents of the act's unit on its first day."""
    return rents_on(book, unit_of(book, unit_number(book, act))["group"], first_day(book, act))


def dates_of(book, act):
    if act["kind"] == "correct":
        return target_of(book, act)["dates"]
    if act["kind"] == "interim":
        return {name: day_of(act[name]) for name in ("event", "notice", "done")}
    return dict.fromkeys(("event", "notice", "done"), day_of(act["done"])) if act["kind"] == "resume" else None


def made_figures(book, act):
    if "facts" in act:
        return figures_of(act["facts"], first_day(book, act), plan_of(book)["passbook"], unit_rents(book, act))
    if act["kind"] in ("gross", "transfer"):
        old = carried(book, act["household"], first_day(book, act))
        return with_rents({name: old[name] for name in ("persons", "size", "eligible", "annual", "adjusted", "ttp")}, unit_rents(book, act))
    return NOTHING


def made_record(book, act):
    household = act.get("household", len(household_numbers(book)) + 1)
    kind = target_of(book, act)["kind"] if act["kind"] == "correct" else MADE_KINDS[act["kind"]]
    figures, day = made_figures(book, act), first_day(book, act)
    is_extremely = kind == "MI" and figures["annual"] <= limits_on(book, day)["extremely_low"][figures["size"] - 1]
    return {"household": household, "number": len(records_of(book, household)) + 1, "act": len(book.acts) + 1, "kind": kind, "from": day,
            "corrects": act.get("record", 0), "unit": unit_number(book, act), "extremely": is_extremely, "dates": dates_of(book, act)} | figures


def changed(book, made):
    """The household's live records as they are with this one."""
    kept = [it for it in live(book, made["household"]) if it["number"] != made["corrects"]]
    return kept if made["kind"] == "WD" else in_order(kept + [made])


# ---- rightful days

def next_anniversary(opening, after):
    month = month_of(after)
    while month % 12 != month_of(opening) % 12 or first_of(month) <= after:
        month += 1
    return first_of(month)


def annual_day(records, before):
    """By the live records, and those of them on which the year is reckoned."""
    base = [it for it in before if it["kind"] in YEARLY]
    return next_anniversary(records[0]["from"], base[-1]["from"]) if base else None


def month_that_begins(day):
    """The first day of the first month that begins on that day or later."""
    return first_of(month_of(day)) if first_of(month_of(day)) == day else first_of(month_of(day) + 1)


def interim_day(book, others, made):
    dates, before = made["dates"], in_force(others, made["dates"]["event"])
    is_in_time = dates["notice"] - dates["event"] <= plan_of(book)["report_days"]
    is_higher = made["ttp"] > (before["ttp"] if before else 0)
    if is_in_time and is_higher:
        return month_that_begins(dates["notice"] + 30)
    return first_of(month_of(dates["event"] if is_in_time or is_higher else dates["done"]) + 1)


def gross_day(book, household):
    found = old_rents(book, household, changing_days(book))
    return found and found[0]


def rightful_day(book, made):
    """Of a record that has one: found without the record that it corrects, and for an annual by the records before that one."""
    others = [it for it in live(book, made["household"]) if it["number"] != made["corrects"]]
    if made["kind"] == "AR":
        target = numbered(records_of(book, made["household"]), made["corrects"])
        return annual_day(others, [it for it in others if not target or (it["from"], it["number"]) < (target["from"], target["number"])])
    if made["kind"] == "IR":
        return interim_day(book, others, made)
    return gross_day(book, made["household"]) if made["kind"] == "GR" else first_of(month_of(made["dates"]["done"]) + 1)


def has_rightful_day(made):
    return made["kind"] in ("AR", "IR", "GR") or (made["kind"] == "IC" and made["dates"] is not None)


# ---- order, units, and who is next

def is_in_place(record, before):
    if before is None:
        return record["kind"] in ("MI", "IC")
    if record["kind"] == "MI" or before["kind"] == "MO":
        return False
    if record["kind"] == "IC" and before["kind"] != "TM" or before["kind"] == "TM" and record["kind"] not in ("IC", "MO"):
        return False
    return (record["unit"] != before["unit"]) == (record["kind"] == "UT")


def first_out_of_order(records):
    pairs = zip(records, [None, *records])
    return next((record["number"] for record, before in pairs if not is_in_place(record, before)), None)


def occupied(records, day):
    record = in_force(records, day)
    return record["unit"] if record and record["kind"] != "MO" else None


def double_use(book, made):
    """The first day on which another household has the unit of this one too, and the least such household."""
    own, others = changed(book, made), [(it, live(book, it)) for it in household_numbers(book) if it != made["household"]]
    units = {it["unit"] for it in own}
    others = [(it, records) for it, records in others if any(record["unit"] in units for record in records)]
    for day in changing_days(book, made) if others else []:
        unit = occupied(own, day)
        rivals = [household for household, records in others if unit and occupied(records, day) == unit]
        if rivals:
            return {"household": rivals[0], "day": text_of(day)}
    return None


def suits(book, unit, persons):
    least, most = plan_of(book)["bounds"][unit["bedrooms"]]
    return least <= persons <= most


def admission_limit(book, limits, size):
    return limits["low" if plan_of(book)["early"] else "very_low"][size - 1]


def movers(book, number, day):
    """The households that would move to the unit, with the act by which they asked, in the order in which they asked."""
    asked = {it["act"]["household"]: it for it in acts_of(book, "ask_transfer")}
    found = []
    for household, request in asked.items():
        records = live(book, household)
        moved = max((it for it in records if it["kind"] == "UT"), key=lambda it: it["number"], default=None)
        record = in_force(records, day)
        would_move = request["act"]["wanted"] and (moved is None or request["number"] > moved["act"])
        if would_move and is_assisted(record) and record["unit"] != number and suits(book, unit_of(book, number), record["persons"]):
            found.append((request["number"], household, request["act"]))
    return [(household, act) for _, household, act in sorted(found, key=lambda it: it[0])]


def candidates(book, unit, day):
    """The applicants who could be admitted to the unit, in the order of their ranks and of their acts."""
    limits, ranks = limits_on(book, day), plan_of(book)["ranks"]
    found = []
    for number, it in on_list(book):
        act = it["act"]
        if limits and suits(book, unit, act["persons"]) and act["annual"] <= admission_limit(book, limits, act["size"]):
            found.append((min([ranks[code - 1] for code in act["preferences"] if code <= len(ranks)], default=100), number, act))
    return [(number, act) for _, number, act in sorted(found, key=lambda it: it[:2])]


def fiscal_year(book, day):
    """The first days of the fiscal year that holds the day and of the next one."""
    month = month_of(day)
    while month % 12 != plan_of(book)["fiscal_month"] - 1:
        month -= 1
    return first_of(month), first_of(month + 12)


def targets_on(book, day):
    first, after = fiscal_year(book, day)
    admitted = [it for household in household_numbers(book) for it in live(book, household) if it["kind"] == "MI" and first <= it["from"] < after]
    extremely, expected = sum(it["extremely"] for it in admitted), plan_of(book)["expected"]
    return {"first_day": text_of(max(first, EARLIEST)), "expected": expected, "admitted": len(admitted), "extremely_low": extremely,
            "open": 10 * extremely < 4 * expected}


def wants_extremely_low(book, day):
    targets = targets_on(book, day)
    return targets["open"] and (plan_of(book)["method"] == 1 or targets["admitted"] % 2 == 0)


def next_for(book, number, day):
    unit, limits = unit_of(book, number), limits_on(book, day)
    moving, waiting = movers(book, number, day), candidates(book, unit, day)
    groups = [("household", moving), ("applicant", waiting)]
    if unit["accessible"]:
        groups = [(who, [it for it in group if it[1]["accessible"] == needs]) for needs in (True, False) for who, group in groups]
    who, group = next(((who, group) for who, group in groups if group), (None, []))
    if who == "applicant" and wants_extremely_low(book, day):
        group = [it for it in group if it[1]["annual"] <= limits["extremely_low"][it[1]["size"] - 1]] or group
    return {who: group[0][0]} if group else None


# ---- closings

@functools.cache
def shares(amount, days):
    """Of a monthly amount what each day of the month takes: what the days through it take less what those before it take."""
    through = [round_half_up(amount * place, days) for place in range(days + 1)]
    return [through[place] - through[place - 1] for place in range(1, days + 1)]


def assistance_of(record):
    return record["assistance"] if record else 0


def number_of(record):
    return record["number"] if record else 0


def certified(records, month):
    """The sum of the month's days' shares, each of the assistance of its own day."""
    first, days = first_of(month), days_in(month)
    return sum(shares(assistance_of(in_force(records, first + place)), days)[place] for place in range(days))


def month_lines(household, month, then, now):
    """A line for each longest run of days with one pair of records that comes to something."""
    runs, first, days = [], first_of(month), days_in(month)
    for place in range(days):
        day = first + place
        old, new = in_force(then, day), in_force(now, day)
        if not runs or (runs[-1]["old"], runs[-1]["new"]) != (number_of(old), number_of(new)):
            runs.append({"household": household, "for_month": month, "first": day, "old": number_of(old), "new": number_of(new), "amount": 0})
        runs[-1]["last"] = day
        runs[-1]["amount"] += shares(assistance_of(new), days)[place] - shares(assistance_of(old), days)[place]
    return [it for it in runs if it["amount"]]


def closing_lines(book, month):
    closings, lines = acts_of(book, "close"), []
    last = closings[-1]["number"] if closings else 0
    known = [(it, live(book, it, last), live(book, it)) for it in household_numbers(book)]
    for for_month in range(first_month(book), month + 1):
        for household, then, now in known:
            if for_month == month or then != now:
                lines += month_lines(household, for_month, then if for_month < month else [], now)
    return [it | {"month": month} for it in lines]


def next_month(book):
    """The next month to close; None once December 2099 is closed."""
    closings = acts_of(book, "close")
    month = month_of_text(closings[-1]["act"]["month"]) + 1 if closings else first_month(book)
    return month if month <= month_of(LAST_DAY) else None


# ---- the refusals, in their order; each has its members, or None if it doesn't stand

def request_reused(book, clerk, request):
    return next(({"act": it["number"]} for it in book.acts if (it["clerk"], it["request"]) == (clerk, request)), None)


def no_plan(book, day, act):
    return None if book.acts else {}


def plan_given(book, day, act):
    return {"act": 1} if book.acts else None


def no_such(book, day, act):
    if "household" in act and act["household"] not in household_numbers(book):
        return {"what": "household", "id": act["household"]}
    if "applicant" in act and act["applicant"] not in [number for number, _ in on_list(book)]:
        return {"what": "applicant", "id": act["applicant"]}
    if "unit" in act and not unit_of(book, act["unit"]):
        return {"what": "unit", "id": act["unit"]}
    if "record" in act:
        target = target_of(book, act)
        if not target or act["kind"] == "correct" and target["kind"] not in (*YEARLY, "IR"):
            return {"what": "record", "id": act["record"]}
    return None


def stale(book, day, act):
    newest = len(records_of(book, act["household"]))
    return {"newest": newest} if act["seen"] < newest else None


def unseen(book, day, act):
    newest = len(records_of(book, act["household"]))
    return {"newest": newest} if act["seen"] > newest else None


def facts_rule(book, day, act):
    rule = broken_rule(act["facts"], day_of(act["from"]))
    return {"rule": rule} if rule else None


def day_range(book, day, act):
    plans = first_of(first_month(book))
    ranges = {
        "event": lambda: (FIRST_DAY, day),
        "notice": lambda: (day_of(act["event"]), day),
        "done": lambda: (day_of(act["notice"]) if act["kind"] == "interim" else FIRST_DAY, day),
        "from": lambda: (FIRST_DAY if act["kind"] in ("rents", "limits") else plans, LAST_DAY),
        "last": lambda: (plans, LAST_DAY - 1),
    }
    for field in ranges:
        if field in act:
            first, last = ranges[field]()
            if not first <= day_of(act[field]) <= last:
                return {"first": text_of(first), "last": text_of(last)}
    return None


def no_rent(book, day, act):
    group = unit_of(book, unit_number(book, act))["group"]
    return None if unit_rents(book, act) else {"group": group, "day": act["from"]}


def no_limits(book, day, act):
    is_move_in = act["kind"] == "admit" or target_of(book, act)["kind"] == "MI"
    return {"day": act["from"]} if is_move_in and not limits_on(book, day_of(act["from"])) else None


def not_live(book, day, act):
    return None if act["record"] in [it["number"] for it in live(book, act["household"])] else {"record": act["record"]}


def wrong_day(book, day, act):
    made = made_record(book, act)
    right = rightful_day(book, made) if has_rightful_day(made) else made["from"]
    return None if right == made["from"] else {"right": right and text_of(right)}


def disorder(book, day, act):
    record = first_out_of_order(changed(book, made_record(book, act)))
    return {"record": record} if record else None


def name_taken(book, day, act):
    return next(({"unit": number} for number, it in enumerate(acts_of(book, "unit"), 1) if it["act"]["name"] == act["name"]), None)


def size_misfit(book, day, act):
    persons = made_record(book, act)["persons"]
    return None if suits(book, unit_of(book, act["unit"]), persons) else {"unit": act["unit"], "size": persons}


def unit_taken(book, day, act):
    return double_use(book, made_record(book, act))


def not_next(book, day, act):
    who = next_for(book, act["unit"], day_of(act["from"]))
    own = {"applicant": act["applicant"]} if act["kind"] == "admit" else {"household": act["household"]}
    return None if who == own else {"next": who}


def ineligible(book, day, act):
    made = made_record(book, act)
    limit = admission_limit(book, limits_on(book, made["from"]), made["size"])
    return {"limit": limit, "annual": made["annual"]} if made["annual"] > limit else None


def no_assistance(book, day, act):
    made = made_record(book, act)
    gross = made["contract_rent"] + made["utility"]
    return {"ttp": made["ttp"], "gross": gross} if made["assistance"] == 0 else None


def wrong_month(book, day, act):
    month = next_month(book)
    return None if month == month_of_text(act["month"]) else {"next": month and text_of_month(month)}


def rent_due(book, day, act):
    days = range(first_of(first_month(book)), last_of(month_of_text(act["month"])) + 1)
    for household in household_numbers(book):
        if found := old_rents(book, household, days):
            return {"household": household, "record": found[1]["number"], "day": text_of(found[0])}
    return None


def overdue(book, day, act):
    month = month_of_text(act["month"])
    for household in household_numbers(book):
        records = live(book, household)
        base = [it for it in records if it["kind"] in YEARLY and it["from"] <= last_of(month)]
        if certified(records, month) and base and month - month_of(base[-1]["from"]) >= 15:
            return {"household": household, "anniversary": text_of(next_anniversary(records[0]["from"], base[-1]["from"]))}
    return None


TESTS = [("RequestReused", None), ("NoPlan", no_plan), ("PlanGiven", plan_given), ("BookFull", None), ("NoSuch", no_such), ("Stale", stale),
         ("Unseen", unseen), ("FactsRule", facts_rule), ("DayRange", day_range), ("NoRent", no_rent), ("NoLimits", no_limits),
         ("NotLive", not_live), ("WrongDay", wrong_day), ("Disorder", disorder), ("NameTaken", name_taken), ("SizeMisfit", size_misfit),
         ("UnitTaken", unit_taken), ("NotNext", not_next), ("Ineligible", ineligible), ("NoAssistance", no_assistance),
         ("WrongMonth", wrong_month), ("RentDue", rent_due), ("Overdue", overdue)]
MEETS = {
    "plan": [3], "unit": [2, 15], "rents": [2, 9], "limits": [2, 9], "apply": [2], "remove": [2, 5], "ask_transfer": [2, 5],
    "start": [2, 5, 8, 9, 10, 17], "admit": [2, 5, 8, 9, 10, 11, 16, 17, 18, 19, 20], "annual": [2, *range(5, 11), 13, 14],
    "interim": [2, *range(5, 11), 13, 14], "resume": [2, *range(5, 11), 13, 14, 17, 20], "gross": [2, 5, 6, 7, 9, 10, 13, 14],
    "correct": [2, *range(5, 15), 17], "transfer": [2, 5, 6, 7, 9, 10, 14, 16, 17, 18], "move_out": [2, 5, 6, 7, 9, 14],
    "terminate": [2, 5, 6, 7, 9, 14], "withdraw": [2, 5, 6, 7, 12, 14, 17], "close": [2, 21, 22, 23],
}


def refused(number, members):
    return {"refused": {"kind": TESTS[number - 1][0], "number": number} | members}


def refusal_of(book, day, act):
    for number in MEETS[act["kind"]]:
        members = TESTS[number - 1][1](book, day, act)
        if members is not None:
            return refused(number, members)
    return None


# ---- acts

def act_day(book, today):
    day = min(max(day_of(today), FIRST_DAY), LAST_DAY)
    return max(day, book.acts[-1]["day"]) if book.acts else day


def what_it_makes(book, act):
    """The record, the lines, and what the reply tells."""
    kind = act["kind"]
    if kind == "unit" or kind == "apply":
        return None, [], {{"unit": "unit", "apply": "applicant"}[kind]: len(acts_of(book, kind)) + 1}
    if kind == "close":
        lines = closing_lines(book, month_of_text(act["month"]))
        return None, lines, {"amount": sum(it["amount"] for it in lines), "lines": len(lines), "month": act["month"]}
    if kind in ("plan", "rents", "limits", "remove", "ask_transfer"):
        return None, [], None
    made = made_record(book, act)
    return made, [], {name: made[name] for name in ("household", "ttp")} | {"record": made["number"]} | paid_by(made)


def as_kept(act):
    """The act with `eligible` of those members alone who aren't: written out as true it is the same act."""
    if "facts" not in act:
        return act
    members = [{name: it for name, it in member.items() if name != "eligible" or not it} for member in act["facts"]["members"]]
    return act | {"facts": act["facts"] | {"members": members}}


def answer_call(book, call):
    act, earlier = as_kept(call["act"]), request_reused(book, call["clerk"], call["request"])
    if earlier:
        first = book.acts[earlier["act"] - 1]
        return first["reply"] if first["act"] == act else refused(1, earlier)
    day = act_day(book, call["today"])
    if refusal := refusal_of(book, day, act):
        return refusal
    made, lines, tells = what_it_makes(book, act)
    reply = {"act": len(book.acts) + 1, "day": text_of(day), "made": tells}
    book.acts.append({"number": reply["act"], "clerk": call["clerk"], "request": call["request"], "day": day, "act": act, "reply": reply})
    book.records += [made] if made else []
    book.lines += lines
    return reply


# ---- questions

def shown_record(record):
    dates = record["dates"] and {name: text_of(day) for name, day in record["dates"].items()}
    shown = {name: it for name, it in record.items() if name != "eligible"}
    return shown | {"from": text_of(record["from"]), "dates": dates}


def shown_line(line):
    shown = {name: line[name] for name in ("household", "old", "new", "amount")}
    return shown | {"first": text_of(line["first"]), "last": text_of(line["last"]), "for_month": text_of_month(line["for_month"])}


def voucher_of(book, text):
    month = month_of_text(text)
    if not any(it["act"]["month"] == text for it in acts_of(book, "close")):
        return {"voucher": None}
    lines = [it for it in book.lines if it["month"] == month]
    requested = sum(it["amount"] for it in lines if it["for_month"] == month)
    total = sum(it["amount"] for it in lines)
    return {"month": text, "lines": [shown_line(it) for it in lines], "requested": requested, "adjustments": total - requested, "total": total}


def due_on(book, day):
    found = []
    for household in household_numbers(book):
        records = live(book, household)
        due = annual_day(records, records)
        if is_assisted(in_force(records, day)) and due <= day + 120:
            found.append((due, household))
    return {"due": [{"due": text_of(due), "household": household} for due, household in sorted(found)]}


def answer_question(book, ask):
    kind = ask["kind"]
    if kind in ("next", "due", "targets") and not book.acts:
        return refused(2, {})
    if missing := no_such(book, None, ask):
        return refused(5, missing)
    if kind == "household":
        records = live(book, ask["household"])
        return {"household": ask["household"], "name": name_of(book, ask["household"]), "newest": len(records_of(book, ask["household"])),
                "live": sorted(it["number"] for it in records)}
    if kind == "record":
        return shown_record(target_of(book, ask))
    if kind == "next":
        return {"next": next_for(book, ask["unit"], day_of(ask["day"]))}
    if kind == "voucher":
        return voucher_of(book, ask["month"])
    if kind == "paid":
        month = month_of_text(ask["month"])
        return {"paid": sum(it["amount"] for it in book.lines if (it["household"], it["for_month"]) == (ask["household"], month))}
    return due_on(book, day_of(ask["day"])) if kind == "due" else targets_on(book, day_of(ask["day"]))


# ---- lines of a batch

def answer(book, line):
    """The answer to a line, as the program writes it."""
    try:
        value = json.loads(line)
    except ValueError:
        value = None
    path = bad_path(value)
    if path is not None:
        reply = {"refused": {"kind": "Form", "path": path}}
    elif "ask" in value:
        reply = answer_question(book, value["ask"])
    else:
        reply = answer_call(book, value)
    return json.dumps(reply, sort_keys=True, separators=(",", ":"))
