#!/usr/bin/env python3
"""A clerk's client, in Python's standard library alone.

    examples/clerk.py URL CLERK FILE.jsonl

posts the acts of a file as clerk CLERK, in their order, and writes the reply to each on a line. A line is one of `batch` (docs/ACTS.md),
or an act alone. A line without `request` gets the number after the one above it, the first line 1. A line without `seen` gets the record
that the last reply on the household told. Questions are passed over. `today` isn't sent, since over HTTP the server's clock gives the day.

The first refusal ends it. Mend that line and give the file again: what was done gets its first reply and is done once. A user's name may
stand in URL, as in https://ann@office.example; the password is then taken from the environment, OFFICE_PASSWORD.

Exit status: 0 all acts are done, 1 an act was refused, 2 the words or the file are unfit, 3 no answer came."""
import base64, contextlib, http.client, json, os, sys, time, urllib.parse

NEED_SEEN = {"interim", "correct", "withdraw", "gross", "annual", "transfer", "terminate", "resume", "move_out"}
SEND_AGAIN = {502, 503, 504, 507}  # 502 and 504 come from a proxy that doesn't reach the server.
PLAIN = {
    "Stale": "household {household} has record {newest} by now, and you saw {seen}: look again, and decide anew",
    "NotLooked": "look at household {household}, and give its newest record as `seen`",
    "RequestReused": "act {act} has this request: take one that you never used",
    "WrongMonth": "the next month to close is {next}",
    "Form": "`{path}` is missing or unfit",
}


class Refused(Exception):
    """The office says no. `reason` is the refusal (docs/REFUSALS.md). The request stays free."""

    def __init__(self, reason, act):
        plain, members = PLAIN.get(reason["kind"]), {name: it for name, it in reason.items() if name not in ("kind", "number")}
        super().__init__(reason["kind"] + ": " + (plain.format_map({**act, **reason}) if plain else json.dumps(members)))
        self.reason = reason


class NoAnswer(Exception):
    """Nobody knows whether the act was done. Post the same act under the same request again."""


class Clerk(contextlib.AbstractContextManager):
    """One clerk's connection. `point` is how many acts of the book this clerk knows of, `seen` the newest record of each household that
    was looked at, `request` the next act's number. Use `with`: an open connection keeps a worker of the server."""

    def __init__(self, url, number, request=1, patience=60):
        parts = urllib.parse.urlsplit(url)
        if parts.scheme not in ("http", "https") or not parts.hostname:
            raise ValueError(f"{url} doesn't begin with http:// or https://")
        kind = http.client.HTTPSConnection if parts.scheme == "https" else http.client.HTTPConnection
        self.connection, self.headers = kind(parts.hostname, parts.port, timeout=30), {}
        if parts.username:
            words = f"{parts.username}:{os.environ.get('OFFICE_PASSWORD', '')}"
            self.headers["authorization"] = "Basic " + base64.b64encode(words.encode()).decode()
        self.number, self.request, self.patience, self.point, self.seen = number, request, patience, 0, {}

    def __exit__(self, *fault):
        self.connection.close()

    def ask(self, target):
        """The answer to a question, as "/households/1" (docs/HTTP.md). It is never older than what this clerk knows."""
        answer = self.send("GET", target, None, {}, self.point)
        if "newest" in answer:
            self.seen[answer["household"]] = answer["newest"]
        return answer

    def post(self, act, request=None):
        """Posts an act under the next number, or under the one that is given, and returns the reply."""
        if act.get("kind") in NEED_SEEN and "household" in act and "seen" not in act:
            if act["household"] not in self.seen:
                raise Refused({"kind": "NotLooked"}, act)
            act = {**act, "seen": self.seen[act["household"]]}
        number = self.request if request is None else request
        answer = self.send("POST", "/acts", json.dumps({"clerk": self.number, "request": number, "act": act}), act, 0)
        self.request = number + 1
        if "record" in (answer["made"] or {}):
            self.seen[answer["made"]["household"]] = answer["made"]["record"]
        return answer

    def send(self, method, target, body, act, least):
        """Sends the same bytes until they are answered, and by a book of so many acts at least."""
        end, pause = time.monotonic() + self.patience, 0.1
        while True:
            try:
                status, point, answer = self.send_once(method, target, body)
                if status not in SEND_AGAIN and point >= least:
                    break
                why = f"status {status}" if status in SEND_AGAIN else f"the book has {point} acts, and had {least}"
            except (OSError, http.client.HTTPException, ValueError) as fault:
                why = str(fault) or repr(fault)
            self.connection.close()
            if time.monotonic() > end:
                raise NoAnswer(why)
            time.sleep(pause)
            pause = min(2 * pause, 5)
        self.point = max(self.point, point)
        if "refused" in answer:
            raise Refused(answer["refused"], act)
        return answer

    def send_once(self, method, target, body):
        self.connection.request(method, target, body, self.headers)
        came = self.connection.getresponse()
        text, length, point = came.read(), came.getheader("content-length"), came.getheader("book")
        if length is None:
            raise http.client.HTTPException("the answer was cut")
        if point is None:  # A proxy's own answer, as 401 for a wrong password.
            return came.status, self.point, {"refused": {"kind": f"Proxy{came.status}", "says": came.reason}}
        return came.status, int(point), json.loads(text)


def line_of(place, text, clerk):
    try:
        line = json.loads(text)
    except ValueError:
        line = None
    if not isinstance(line, dict) or not isinstance(line.get("act", line), dict):
        raise ValueError(f"line {place} is no act in JSON")
    if line.get("clerk", clerk) != clerk:
        raise ValueError(f"line {place} is another clerk's")
    return place, line


def acts_of(path, clerk):
    """The acts of a file: the line's place, the request if it has one, and the act."""
    with open(path, encoding="utf-8") as texts:
        lines = [line_of(place, text, clerk) for place, text in enumerate(texts, 1) if text.strip()]
    return [(place, line.get("request"), line.get("act", line)) for place, line in lines if "ask" not in line]


def main(words):
    if len(words) != 3 or not words[1].isdecimal():
        return 2, "usage: clerk.py URL CLERK FILE.jsonl"
    try:
        acts, place = acts_of(words[2], int(words[1])), 0
        with Clerk(words[0], int(words[1])) as clerk:
            for place, request, act in acts:
                print(json.dumps(clerk.post(act, request), separators=(",", ":")), flush=True)
    except (OSError, ValueError) as fault:
        return 2, str(fault)
    except Refused as fault:
        return 1, f"line {place} is refused, {fault}"
    except NoAnswer as fault:
        return 3, f"line {place} has no answer ({fault}). Give the same file again later"
    return 0, f"{len(acts)} acts are done, book {clerk.point}"


if __name__ == "__main__":
    status, said = main(sys.argv[1:])
    print(said, file=sys.stderr)
    sys.exit(status)
