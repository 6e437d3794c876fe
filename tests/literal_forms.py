"""The forms of a batch's lines, as docs/ACTS.md, COMMANDS.md and REFUSALS.md tell them: the first place of a line that doesn't fit. A form is
a function of a value and its path; it answers the path of the first misfit, or None."""
import datetime, re


def whole(least, most):
    return lambda value, path: None if type(value) is int and least <= value <= most else path


def one_of(*words):
    return lambda value, path: None if type(value) is str and value in words else path


def boolean(value, path):
    return None if type(value) is bool else path


def text(most):
    def fits(value, path):
        is_name = type(value) is str and 1 <= len(value) <= most and all(" " <= it <= "~" for it in value) and value == value.strip(" ")
        return None if is_name else path
    return fits


def day(value, path):
    if type(value) is not str or not re.fullmatch("[0-9]{4}-[0-9]{2}-[0-9]{2}", value, re.ASCII):
        return path
    try:
        return None if 1880 <= datetime.date.fromisoformat(value).year <= 2199 else path
    except ValueError:
        return path


def month(least, most):
    def fits(value, path):
        is_month = type(value) is str and re.fullmatch("[0-9]{4}-(0[1-9]|1[0-2])", value, re.ASCII) and least <= value <= most
        return None if is_month else path
    return fits


def items(least, most, form):
    def fits(value, path):
        if type(value) is not list or not least <= len(value) <= most:
            return path
        return first(form(it, f"{path}[{place}]") for place, it in enumerate(value))
    return fits


def members(may_be_missing={}, **forms):
    """An object with these members: first each of them that has to be there, then each that may be missing, then one that isn't listed."""
    def fits(value, path):
        if type(value) is not dict:
            return path
        front = f"{path}." if path else ""
        read = forms | {name: form for name, form in may_be_missing.items() if name in value}
        found = first(form(value[name], front + name) if name in value else front + name for name, form in read.items())
        return found if found is not None or set(value) <= set(read) else f"{front}?"
    return fits


def by_kind(forms):
    """An object whose member `kind` tells the others."""
    def fits(value, path):
        if type(value) is not dict:
            return path
        if one_of(*forms)(value.get("kind"), path) is not None:
            return f"{path}.kind"
        return members(kind=one_of(*forms), **forms[value["kind"]])(value, path)
    return fits


def first(paths):
    return next((it for it in paths if it is not None), None)


def pair(value, path):
    """A least and a most number of persons; if the first is greater, the second one doesn't fit."""
    found = items(2, 2, whole(1, 16))(value, path)
    return f"{path}[1]" if found is None and value[0] > value[1] else found


number, months = whole(0, 4_294_967_295), month("1880-01", "2199-12")
limit, money = items(12, 12, whole(0, 9_999_999)), number
FACTS = members(
    members=items(0, 16_384, members(relation=one_of("Head", "Spouse", "Cohead", "Other", "Aide"), born=day, disabled=boolean, student=boolean,
                                     helped=boolean, cared=boolean, may_be_missing={"eligible": boolean})),
    incomes=items(0, 16_384, members(member=number, kind=one_of("Wages", "Business", "Benefits", "Welfare", "Adoption", "Other"), annual=money)),
    assets=items(0, 16_384, members(value=money, income=money)), disposals=items(0, 16_384, members(day=day, value=money, received=money)),
    care_work=money, care_school=money, disability=money, medical=money, welfare=money, exempt=boolean)
SEEN = {"household": number, "seen": number}
ACTS = {
    "plan": {"first": month("2000-01", "2099-12"), "early": boolean, "method": whole(1, 2), "fiscal_month": whole(1, 12),
             "report_days": whole(0, 365), "passbook": whole(0, 10_000), "expected": whole(0, 9_999), "bounds": items(6, 6, pair),
             "ranks": items(0, 16, whole(1, 99))},
    "unit": {"name": text(10), "group": whole(1, 99), "bedrooms": whole(0, 5), "accessible": boolean},
    "rents": {"group": whole(1, 99), "from": day, "contract_rent": whole(0, 99_999), "utility": whole(0, 9_999)},
    "limits": {"from": day, "low": limit, "very_low": limit, "extremely_low": limit},
    "apply": {"name": text(40), "size": whole(1, 12), "persons": whole(1, 16), "preferences": items(0, 16, whole(1, 16)),
              "accessible": boolean, "annual": whole(0, 9_999_999)},
    "remove": {"applicant": number},
    "start": {"name": text(40), "unit": number, "from": day, "facts": FACTS},
    "admit": {"applicant": number, "unit": number, "from": day, "facts": FACTS},
    "annual": SEEN | {"from": day, "facts": FACTS},
    "interim": SEEN | {"event": day, "notice": day, "done": day, "from": day, "facts": FACTS},
    "resume": SEEN | {"done": day, "from": day, "facts": FACTS},
    "gross": SEEN | {"from": day},
    "correct": SEEN | {"record": number, "from": day, "facts": FACTS},
    "ask_transfer": {"household": number, "wanted": boolean, "accessible": boolean},
    "transfer": SEEN | {"unit": number, "from": day},
    "move_out": SEEN | {"last": day},
    "terminate": SEEN | {"from": day},
    "withdraw": SEEN | {"record": number},
    "close": {"month": months},
}
QUESTIONS = {
    "household": {"household": number}, "record": {"household": number, "record": number}, "next": {"unit": number, "day": day},
    "voucher": {"month": months}, "paid": {"household": number, "month": months}, "due": {"day": day}, "targets": {"day": day},
}


def act(value, path):
    """An applicant's persons are at least its size."""
    if type(value) is dict and value.get("kind") == "apply" and whole(1, 12)(value.get("size"), "") is None:
        return by_kind(ACTS | {"apply": ACTS["apply"] | {"persons": whole(value["size"], 16)}})(value, path)
    return by_kind(ACTS)(value, path)


def bad_path(value):
    """The first place of a line, as JSON has it, that doesn't fit; None if all fits."""
    if type(value) is dict and "ask" in value:
        return members(ask=by_kind(QUESTIONS))(value, "")
    today = {"today": day} if type(value) is dict and "today" in value else {}
    return members(**today, clerk=whole(1, 9_999), request=whole(1, 4_294_967_295), act=act)(value, "")
