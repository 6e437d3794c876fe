"""Scripts for tests/literal: the lines that a clerk of a random office gives over some months, most of them right, and what has to be answered.
The clerk asks the literal reading what a refusal tells, and does what it asks for. A seed gives the same script each time."""
import copy, json, random

import literal_office as office

# What stands in the place of a value that is right, so that a line is of another form.
JUNK = [None, True, -1, 1.5, 0, 17, 100, 4_294_967_296, "", "x", " x", "Zo\u00eb", "2024-02-30", "2024-13", "1879-12-31", [], [1], {}, {"x": 1}]
KINDS = {"unit": 1, "rents": 3, "limits": 2, "apply": 7, "remove": 1, "start": 2, "admit": 9, "annual": 7, "interim": 9, "resume": 4, "gross": 3,
         "correct": 10, "ask_transfer": 8, "transfer": 9, "move_out": 4, "terminate": 3, "withdraw": 5, "close": 2, "question": 12, "again": 2,
         "another": 1, "misfit": 2}


class Clerk:
    def __init__(self, seed):
        self.random, self.book, self.script, self.request = random.Random(seed), office.Book(), [], 0
        self.families, self.today = {}, None

    # ---- what chance gives

    def chance(self, of_a_hundred):
        return self.random.randrange(100) < of_a_hundred

    def some(self, *choices):
        return self.random.choice(choices)

    def near(self, day, before, after):
        """A day near that one, as text."""
        day += self.random.randint(-before, after)
        return office.text_of(min(max(day, office.day_of("1880-01-01")), office.day_of("2199-12-31")))

    def first_near(self, day):
        return office.text_of(office.first_of(office.month_of(day) + self.random.randint(-3, 3)))

    def money(self):
        return self.some(0, self.random.randint(0, 600), self.random.randint(0, 9_000), self.random.randint(0, 30_000), 300 * self.random.randint(0, 80))

    # ---- families

    def member(self, relation):
        """Born so that an age which matters is often reached in the script's months."""
        years = self.some(17, 18, 61, 62, 30, 45, 80) if relation in ("Head", "Spouse", "Cohead") else self.some(2, 12, 13, 17, 18, 18, 25, 70)
        born = office.first_of(office.month_of(self.today) - 12 * years) + self.random.randint(-40, 400)
        leap = office.day_of(f"{office.text_of(born)[:3]}0-02-28") + 1
        born = leap if self.chance(5) and office.text_of(leap).endswith("29") else born
        flags = {name: self.chance(odds) for name, odds in (("disabled", 15), ("student", 25), ("helped", 25), ("cared", 35))}
        return {"relation": relation, "born": office.text_of(min(born, self.today)), **flags, **self.eligibility(relation)}

    def eligibility(self, relation):
        """Often a member who isn't eligible, seldom a head; and now and then it is written out that one is."""
        if self.chance(4 if relation == "Head" else 25):
            return {"eligible": False}
        return {"eligible": True} if self.chance(10) else {}

    def family(self, persons):
        others = [self.some("Other", "Other", "Other", "Aide") for _ in range(persons - 1)]
        if others and self.chance(35):
            others[0] = self.some("Spouse", "Cohead")
        return {"members": self.shuffled([self.member(it) for it in ["Head", *others]]), **self.means(persons)}

    def shuffled(self, items):
        return self.random.sample(items, len(items))

    def means(self, persons):
        kinds = ("Wages", "Wages", "Business", "Benefits", "Welfare", "Adoption", "Other")
        incomes = [{"member": self.random.randrange(persons), "kind": self.some(*kinds), "annual": self.money()} for _ in range(self.random.randint(0, 4))]
        assets = [{"value": self.some(5_000, 5_001, self.random.randint(0, 60_000)), "income": self.random.randint(0, 400)}
                  for _ in range(self.some(0, 0, 1, 2))]
        costs = {name: self.money() // 4 if self.chance(35) else 0 for name in ("care_work", "care_school", "disability", "medical")}
        return {"incomes": incomes, "assets": assets, "disposals": [self.disposal() for _ in range(self.some(0, 0, 0, 1, 2))], **costs,
                "welfare": self.welfare(), "exempt": self.chance(10)}

    def welfare(self):
        """Now and then about a gross rent, so that little or nothing is left to claim."""
        rents = office.acts_of(self.book, "rents")
        if rents and self.chance(5):
            act = self.some(*rents)["act"]
            return max(0, act["contract_rent"] + act["utility"] - self.random.randint(-1, 4))
        return self.some(0, 0, 0, self.random.randint(0, 500))

    def disposal(self):
        """Given away about a day on which a certification may begin, or two years before it."""
        value, day = self.random.randint(0, 12_000), office.first_of(office.month_of(self.today) + self.some(0, 1, 1, 2))
        day = self.some(self.today, day, office.two_years_before(day), office.two_years_before(day))
        return {"day": self.near(day, 1, 1), "value": value, "received": max(0, value - self.some(0, 999, 1_000, 1_001, value))}

    def facts(self, key, persons=None):
        """The facts of a household or an applicant: mostly as they were, but for the means."""
        family = self.families.get(key)
        if family is None or self.chance(10):
            family = self.family(persons or self.random.randint(1, 4))
        if self.chance(60):
            family = {**family, **self.means(len(family["members"]))}
        self.families[key] = family
        return self.broken(copy.deepcopy(family)) if self.chance(3) else family

    def broken(self, family):
        """Facts that break a rule, or of another form."""
        way = self.random.randint(1, 9)
        if way == 1:
            family["members"].append(self.member("Head"))
        if way == 2:
            family["members"] += [self.member("Spouse"), self.member("Cohead")]
        if way == 3:
            family["incomes"].append({"member": len(family["members"]), "kind": "Other", "annual": 1})
        if way == 4:
            family[self.some("care_work", "care_school", "disability", "medical", "welfare")] = 10_000_000
        if way == 5:
            family["disposals"].append({"day": office.text_of(self.today), "value": 1, "received": 2})
        if way == 6:
            family["members"] += [self.member("Other") for _ in range(13)]
        if way == 7:
            family["members"].append(self.member("Other") | {"born": "2150-01-01"})
        if way == 8:
            family["members"] = [it | {"eligible": it["relation"] == "Aide"} for it in family["members"]]
        if way == 9:
            self.some(*family["members"])["eligible"] = None
        return family

    # ---- acts

    def numbers(self, count):
        """One of so many numbers, and now and then one that names nothing."""
        return self.some(0, count + 1, 4_294_967_295) if count == 0 or self.chance(2) else self.random.randint(1, count)

    def household(self):
        """A household, mostly one that is assisted, and what the clerk saw of it."""
        household = self.numbers(len(office.household_numbers(self.book)))
        assisted = [it for it in office.household_numbers(self.book) if (records := office.live(self.book, it)) and office.is_assisted(records[-1])]
        household = self.some(*assisted) if assisted and self.chance(80) else household
        newest = len(office.records_of(self.book, household))
        return {"household": household, "seen": max(0, newest + self.some(-1, 1)) if self.chance(4) else newest}

    def unit(self):
        return self.numbers(len(office.acts_of(self.book, "unit")))

    def plan(self, first):
        bounds = [[self.random.randint(1, 1 + it), self.random.randint(1 + it, 4 + it)] for it in range(6)]
        return {"kind": "plan", "first": office.text_of_month(first), "early": self.chance(40), "method": self.some(1, 2),
                "fiscal_month": self.random.randint(1, 12), "report_days": self.some(0, 10, 30, 60, 365), "passbook": self.some(0, 6, 200, 550, 10_000),
                "expected": self.some(0, 1, 3, 5, 10), "bounds": bounds, "ranks": [self.random.randint(1, 5) for _ in range(self.some(0, 2, 4, 16))]}

    def act(self, kind):
        """An act of that kind, as a clerk would have it who doesn't look up the rules."""
        make = getattr(self, f"some_{kind}")
        return {"kind": kind, **make()}

    def some_unit(self):
        count = len(office.acts_of(self.book, "unit")) + 1
        name = f"U-{self.random.randint(1, count) if self.chance(15) else count}"
        return {"name": name, "group": self.random.randint(1, 2), "bedrooms": self.some(0, 1, 1, 2, 3), "accessible": self.chance(35)}

    def some_rents(self, group=None, begins=None):
        begins = begins or self.some(self.near(self.today, 60, 60), self.first_near(self.today), self.first_near(self.today))
        begins = self.some("1999-12-31", "2100-01-01") if self.chance(2) else begins
        return {"group": group or self.random.randint(1, 2), "from": begins, "contract_rent": self.random.randint(400, 1_400), "utility": self.random.randint(0, 150)}

    def some_limits(self, begins=None):
        rising = lambda least: sorted(self.random.randint(least, 3 * least) for _ in range(12))
        return {"from": begins or self.first_near(self.today), "low": rising(20_000), "very_low": rising(12_000), "extremely_low": rising(6_000)}

    def some_apply(self):
        family = self.family(self.some(1, 1, 2, 2, 3, 4))
        self.families["applicant", len(office.acts_of(self.book, "apply")) + 1] = family
        size = sum(map(office.is_of_family, family["members"]))
        annual = office.annual_income(family, self.today, 200)
        return {"name": f"Family {self.random.randint(1, 999)}", "size": size, "persons": len(family["members"]),
                "preferences": [self.random.randint(1, 6) for _ in range(self.some(0, 1, 2))], "accessible": self.chance(30),
                "annual": min(self.some(annual, self.money()), 9_999_999)}

    def some_remove(self):
        return {"applicant": self.applicant()}

    def applicant(self):
        return self.some(*[number for number, _ in office.on_list(self.book)] or [0]) if self.chance(90) else self.numbers(len(office.acts_of(self.book, "apply")))

    def some_start(self):
        household = len(office.household_numbers(self.book)) + 1
        return {"name": f"Start {household}", "unit": self.free_unit() if self.chance(85) else self.unit(), "from": self.near(self.today, 30, 30), "facts": self.facts(household)}

    def some_admit(self):
        """Mostly of who is next for a unit that is free."""
        unit, begins = self.free_unit() if self.chance(85) else self.unit(), self.near(self.today, 20, 30)
        who = office.unit_of(self.book, unit) and self.chance(85) and office.next_for(self.book, unit, office.day_of(begins))
        applicant = (who or {}).get("applicant", self.applicant())
        return {"applicant": applicant, "unit": unit, "from": begins, "facts": self.facts(("applicant", applicant))}

    def free_unit(self):
        taken = [office.occupied(office.live(self.book, it), self.today) for it in office.household_numbers(self.book)]
        return self.some(*[it for it in range(1, len(office.acts_of(self.book, "unit")) + 1) if it not in taken] or [self.unit()])

    def some_annual(self):
        seen = self.household()
        return {**seen, "from": self.first_near(self.today), "facts": self.facts(seen["household"])}

    def some_interim(self):
        seen, event = self.household(), self.today - self.random.randint(0, 100)
        notice = self.random.randint(event, self.today)
        done = self.random.randint(notice, self.today) + (self.chance(2))
        days = {"event": office.text_of(event), "notice": office.text_of(notice), "done": office.text_of(done)}
        return {**seen, **days, "from": self.first_near(self.today), "facts": self.facts(seen["household"])}

    def some_resume(self):
        ended = [it for it in office.household_numbers(self.book) if (records := office.live(self.book, it)) == [] or records[-1]["kind"] == "TM"]
        seen = self.household()
        if ended:
            household = self.some(*ended)
            seen = {"household": household, "seen": len(office.records_of(self.book, household))}
        return {**seen, "done": self.near(self.today, 40, self.chance(3)), "from": self.first_near(self.today), "facts": self.facts(seen["household"])}

    def some_gross(self):
        return {**self.household(), "from": self.first_near(self.today)}

    def some_correct(self):
        seen = self.household()
        records = office.records_of(self.book, seen["household"])
        kinds = ("MI", "IC", "AR", "IR") if self.chance(85) else ("GR", "UT")
        record = self.random.randint(0, len(records) + 1) if self.chance(15) else self.some(*[it["number"] for it in records if it["kind"] in kinds] or [1])
        begins = office.numbered(records, record)["from"] if office.numbered(records, record) and self.chance(60) else self.today
        return {**seen, "record": record, "from": self.near(begins, self.some(0, 30), self.some(0, 30)), "facts": self.facts(seen["household"])}

    def some_ask_transfer(self):
        return {"household": self.household()["household"], "wanted": self.chance(85), "accessible": self.chance(35)}

    def some_transfer(self):
        """Mostly of a household that is next for a unit that is free."""
        begins = self.near(self.today, 30, 30)
        free = [it for it in {self.free_unit() for _ in range(3)} if office.unit_of(self.book, it)]
        nexts = [(it, who["household"]) for it in free if (who := office.next_for(self.book, it, office.day_of(begins))) and "household" in who]
        unit, household = self.some(*nexts) if nexts and self.chance(85) else (self.unit(), self.household()["household"])
        return {"household": household, "seen": len(office.records_of(self.book, household)), "unit": unit, "from": begins}

    def some_move_out(self):
        return {**self.household(), "last": "2099-12-31" if self.chance(1) else self.near(self.today, 60, 30)}

    def some_terminate(self):
        return {**self.household(), "from": self.near(self.today, 60, 60)}

    def some_withdraw(self):
        seen = self.household()
        count = len(office.records_of(self.book, seen["household"]))
        return {**seen, "record": self.some(count, self.random.randint(0, count + 1))}

    def some_close(self):
        month = office.next_month(self.book) or office.month_of(office.LAST_DAY)
        return {"month": office.text_of_month(month + (self.some(-1, 1, 2) if self.chance(5) else 0))}

    # ---- what a refusal asks for

    def mended(self, act, refusal):
        """The act that the refusal asks for, or None if it asks for none."""
        kind = refusal["kind"]
        if kind in ("Stale", "Unseen"):
            return act | {"seen": refusal["newest"]}
        if kind == "WrongDay":
            return refusal["right"] and act | {"from": refusal["right"]}
        if kind == "DayRange":
            return act | {"from": refusal["first"]} if "from" in act else None
        if kind == "NotNext":
            return self.of_the_next(act, refusal["next"])
        if kind == "UnitTaken" and "unit" in act:
            return act | {"unit": self.free_unit()}
        if kind == "WrongMonth":
            return refusal["next"] and act | {"month": refusal["next"]}
        return self.before_it(act, refusal)

    def of_the_next(self, act, who):
        if not who:
            return None
        if "applicant" in who:
            return {"kind": "admit", "unit": act["unit"], "from": act["from"], **who, "facts": self.facts(("applicant", who["applicant"]))}
        seen = len(office.records_of(self.book, who["household"]))
        return {"kind": "transfer", "unit": act["unit"], "from": act["from"], **who, "seen": seen}

    def before_it(self, act, refusal):
        """What has to be done before the act."""
        kind = refusal["kind"]
        if kind == "NoRent":
            return {"kind": "rents", **self.some_rents(refusal["group"], refusal["day"])}
        if kind == "NoLimits":
            return {"kind": "limits", **self.some_limits(refusal["day"])}
        if kind in ("RentDue", "Overdue"):
            household = refusal["household"]
            seen = {"household": household, "seen": len(office.records_of(self.book, household))}
            if kind == "RentDue":
                return {"kind": "gross", **seen, "from": refusal["day"]}
            return {"kind": "annual", **seen, "from": refusal["anniversary"], "facts": self.facts(household)}
        return {"kind": "remove", "applicant": act["applicant"]} if kind == "Ineligible" else None

    # ---- lines

    def gives(self, value):
        """A line, and what has to be answered."""
        line = json.dumps(value, separators=(",", ":"))
        reply = office.answer(self.book, line)
        self.script.append((line, reply))
        return json.loads(reply)

    def call(self, act):
        self.request += 1
        return {"today": office.text_of(self.today), "clerk": 1, "request": self.request, "act": act}

    def does(self, act):
        """Gives an act. What a refusal asks for is given too; two times in three the clerk has looked it up before."""
        for _ in range(12):
            if self.chance(66) and act["kind"] != "close":
                act = self.looked_up(act)
            told = self.gives(self.call(act))
            if "refused" not in told or not self.chance(85):
                return
            mended = self.mended(act, told["refused"]) if "number" in told["refused"] else None
            if mended is None:
                return
            if mended["kind"] != act["kind"] and act["kind"] == "close":
                self.does_once(mended)
            else:
                act = mended

    def does_once(self, act):
        told = self.gives(self.call(act))
        if told.get("refused", {}).get("kind") in ("WrongDay", "Stale") and (mended := self.mended(act, told["refused"])):
            self.gives(self.call(mended))

    def looked_up(self, act):
        for _ in range(4):
            refusal = office.refusal_of(self.book, office.act_day(self.book, office.text_of(self.today)), act)
            mended = refusal and self.mended(act, refusal["refused"])
            if not mended or mended["kind"] not in (act["kind"], "transfer", "admit"):
                return act
            act = mended
        return act

    def asks(self):
        day = self.near(self.today, 400, 400) if self.chance(40) else self.some(office.text_of(self.today), self.due_day())
        household, month = self.household()["household"], office.text_of_month(office.month_of(self.today) - self.random.randint(0, 6))
        record = self.numbers(len(office.records_of(self.book, household)))
        self.gives({"ask": self.some({"kind": "household", "household": household}, {"kind": "record", "household": household, "record": record},
                                     {"kind": "next", "unit": self.unit(), "day": day}, {"kind": "voucher", "month": month}, {"kind": "due", "day": day},
                                     {"kind": "paid", "household": household, "month": month}, {"kind": "targets", "day": day})})

    def due_day(self):
        """A day on which an annual stands on the list for the first time, or the day before."""
        numbers = [it for it in office.household_numbers(self.book) if office.live(self.book, it)]
        records = office.live(self.book, self.some(*numbers)) if numbers else []
        due = office.annual_day(records, records) if records else self.today
        return office.text_of((due or self.today) - self.some(120, 121))

    def again(self):
        """An accepted act once more, its members in another order, and now and then by another clerk, for whom it is a new one."""
        it = self.some(*self.book.acts)
        members = {name: it["act"][name] for name in self.shuffled(list(it["act"]))}
        if "facts" in members and self.chance(50):
            members["facts"] = members["facts"] | {"members": [self.written_again(member) for member in members["facts"]["members"]]}
        clerk = it["clerk"] if self.chance(85) else 9_999
        return {"today": office.text_of(self.today), "clerk": clerk, "request": it["request"], "act": members}

    def written_again(self, member):
        """The same member, told as eligible; now and then an aide of whom the other is said, which is another act."""
        if member["relation"] == "Aide" and self.chance(20):
            return member | {"eligible": not member.get("eligible", True)}
        return {"eligible": True} | member if self.chance(50) else member

    def misfit(self):
        """A line of which one value is another."""
        value = copy.deepcopy(self.call(self.act(self.some(*[it for it in KINDS if hasattr(self, f"some_{it}")]))))
        place, names = value, []
        while isinstance(place, (dict, list)) and place and (not names or self.chance(80)):
            names.append(self.some(*(place if isinstance(place, dict) else range(len(place)))))
            inside, place = place, place[names[-1]]
        if names[0] != "today" and isinstance(inside, dict) and self.chance(25):
            del inside[names[-1]]
        elif isinstance(inside, dict) and self.chance(25):
            inside["x"] = 1
        else:
            inside[names[-1]] = self.some(*JUNK)
        return value

    def step(self):
        kind = self.random.choices(list(KINDS), KINDS.values())[0]
        if kind == "question":
            self.asks()
        elif kind == "again":
            self.gives(self.again())
        elif kind == "another":
            self.gives(self.again() | {"act": self.act("apply")})
        elif kind == "misfit":
            self.gives(self.misfit())
        else:
            self.does(self.act(kind))
        if kind == "ask_transfer" and self.chance(60):
            self.does(self.act("transfer"))

    def opens(self, first):
        """What comes before the plan, the plan, and the first units, rents, limits, applicants and households."""
        self.gives(self.call({"kind": "unit", **self.some_unit()}) if self.chance(50) else {"ask": {"kind": "due", "day": "2024-01-01"}})
        self.gives(self.call(self.plan(first)))
        early = office.text_of(max(office.first_of(first - self.random.randint(0, 2)), office.FIRST_DAY))
        for _ in range(self.random.randint(4, 7)):
            self.does(self.act("unit"))
        for group in (1, 2):
            self.does({"kind": "rents", **self.some_rents(group, early)})
        if self.chance(85):
            self.does({"kind": "limits", **self.some_limits(early if self.chance(70) else None)})
        for _ in range(self.random.randint(1, 4)):
            self.does(self.act("apply"))
        for _ in range(self.random.randint(1, 3)):
            self.does(self.act("start"))

    def asks_all(self):
        """The questions that show all: each household's newest record, the vouchers, and what is due."""
        for household in office.household_numbers(self.book):
            self.gives({"ask": {"kind": "household", "household": household}})
            self.gives({"ask": {"kind": "record", "household": household, "record": len(office.records_of(self.book, household))}})
        for it in office.acts_of(self.book, "close")[-2:]:
            self.gives({"ask": {"kind": "voucher", "month": it["act"]["month"]}})
        self.gives({"ask": {"kind": "due", "day": office.text_of(self.today)}})
        self.gives({"ask": {"kind": "targets", "day": office.text_of(self.today)}})


def script(seed):
    """Lines with their replies."""
    clerk = Clerk(seed)
    first = office.month_of_text(clerk.some("2000-01", "2098-12", *[f"202{clerk.random.randint(2, 5)}-{clerk.random.randint(1, 12):02}" for _ in range(10)]))
    clerk.today = office.first_of(first) + clerk.random.randint(-20, 20)
    clerk.opens(first)
    months = clerk.random.randint(3, 10) if clerk.chance(75) else clerk.random.randint(15, 24)
    for month in range(first, first + months):
        for day in sorted(clerk.random.randint(1, 28) for _ in range(clerk.random.randint(2, 9))):
            clerk.today = office.first_of(month) + day + (clerk.chance(5) and -60)
            clerk.step()
        if clerk.chance(85):
            clerk.does(clerk.act("close"))
    clerk.asks_all()
    return clerk.script
