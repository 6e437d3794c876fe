"""Changed lines of a batch and changed messages over HTTP: no run hangs, ends by a signal or writes to standard error, each answer is
well formed, and the book is what the accepted acts make."""
import json, random, re, threading

from office_tests import LINES, TOP, Serving, content, day_text, examples, first_answer, lines_in, replied, rows, run_together

NUMBERS = [b"0", b"-1", b"-0", b"1.0", b"1e3", b"4294967295", b"4294967296", b"99999999999999999999", b"9" * 400, b"true", b"null", b'""', b"[]", b"{}", b"01", b"+1", b"1" * 20]
TEXTS = [b'"\\u0000"', b'"\xff"', b'"\\ud800"', b'"' + b"x" * 3000 + b'"', b'"\xc3\xa9"', b'" "', b'"\\u0041-101"', b'"2024-02-30"', b'"0000-01"', b'"9999-12-31"']
WORDS = [b"{", b"}", b"[", b"]", b'"', b":", b",", b"\\", b" ", b"\t", b"\r", b"\x00", b"\x7f", b"\xff", b"\xc3", b"HTTP/1.1", b"\r\n", b"Content-Length: 5\r\n", b"Connection: close\r\n", b"Transfer-Encoding: x\r\n"]
ACT, ANSWER = {"act", "day", "made"}, [{"refused"}, {"act", "day", "made"}, {"household", "live", "name", "newest"}, {"next"}, {"paid"}, {"due"}, {"voucher"},
                                        {"adjustments", "lines", "month", "requested", "total"}, {"admitted", "expected", "extremely_low", "first_day", "open"},
                                        {"act", "adjusted", "annual", "assistance", "contract_rent", "corrects", "dates", "extremely", "from", "household", "kind", "number", "persons", "size", "ttp", "unit", "utility"}]
ROUTES = ["/households/1", "/households/2", "/households/1/records/1", "/households/1/paid/2024-01", "/units/1/next/2024-02-01", "/vouchers/2024-01", "/due/2024-09-03", "/targets/2024-01-31", "/", "/acts"]
LONGEST = 16384


def samples(tries):
    """Lines of acts of every kind and of questions of every kind, as the manual and a made office have them."""
    acts = re.findall(rb'^    (\{"today".*\})$', content(f"{TOP}/docs/ACTS.md"), re.MULTILINE)
    questions = re.findall(rb'^    (\{"ask".*\})$', content(f"{TOP}/docs/COMMANDS.md"), re.MULTILINE)
    return examples() + acts + questions + [line.rstrip(b"\n") for line in tries.made(2)]


def of_a_number(chance, text, places):
    at = chance.choice(places)
    return text[:at.start()] + chance.choice(NUMBERS + TEXTS) + text[at.end():]


def changed_once(chance, text, others):
    """A byte, a word, a number or a piece changed, left out, put in or repeated; cut; spliced with another; nested or drawn out."""
    at = chance.randrange(len(text) + 1)
    end = min(len(text), at + chance.choice([1, 2, 5, 20, 100]))
    how = chance.randrange(9)
    if how == 0:
        return text[:at] + bytes([chance.randrange(256)]) + text[at + 1:]
    if how == 1:
        return text[:at] + chance.choice(WORDS) + text[end if chance.random() < 0.5 else at:]
    if how == 2:
        return text[:at] + text[end:]
    if how == 3:
        return text[:end] + text[at:end] * chance.choice([1, 2, 50]) + text[end:]
    if how == 4:
        return text[:at]
    if how == 5:
        other = chance.choice(others)
        return text[:at] + other[chance.randrange(len(other) + 1):]
    if how == 6:
        depth = chance.choice([1, 126, 127, 128, 1000, 8000])
        return text[:at] + chance.choice([b"[" * depth, b"[" * depth + b"]" * depth, b'{"a":' * min(depth, 3000)]) + text[at:]
    if how == 7:
        return text[:at] + chance.choice([b" ", b"0", b"x", b"\xc3\xa9"]) * chance.choice([10, 1000, LONGEST - len(text)]) + text[at:]
    places = list(re.finditer(rb'[0-9]+|"[^"]*"', text))
    return of_a_number(chance, text, places) if places else text


def some_line(chance, known):
    """A line of the samples, or an act that the office accepts; mostly under a request that no other has."""
    request = chance.randrange(1, 1 << 31)
    if chance.random() < 0.5:
        return chance.choice(known) if chance.random() < 0.3 else re.sub(rb'"request":[0-9]+', b'"request":%d' % request, chance.choice(known), count=1)
    act = chance.choice([b'{"kind":"unit","name":"U%d","group":1,"bedrooms":2,"accessible":false}' % request,
                         b'{"kind":"apply","name":"H %d","size":2,"persons":3,"preferences":[1,2],"accessible":true,"annual":%d}' % (request, chance.randrange(10_000_000)),
                         b'{"kind":"rents","group":%d,"from":"2024-0%d-01","contract_rent":%d,"utility":60}' % (chance.randrange(2, 100), chance.randrange(1, 10), chance.randrange(100_000)),
                         b'{"kind":"ask_transfer","household":1,"wanted":true,"accessible":false}'])
    return b'{"today":"2024-06-%02d","clerk":%d,"request":%d,"act":%b}' % (chance.randrange(1, 31), chance.randrange(1, 10_000), request, act)


def changed(chance, text, others):
    for _ in range(chance.choice([0, 1, 1, 1, 2, 3])):
        text = changed_once(chance, text, others)
    return text


class Accepted:
    """The acts that were accepted, by their numbers, with their first replies."""

    def __init__(self, first):
        self.first, self.replies = first, {}

    def takes(self, text):
        """Whether an answer has one of the forms that there are, and is the first one to its act."""
        try:
            told = json.loads(text)
        except ValueError:
            return False
        if not isinstance(told, dict) or set(told) not in ANSWER:
            return False
        return set(told) != ACT or told["act"] <= self.first or self.replies.setdefault(told["act"], text) == text

    def are_in(self, tries, name, path):
        """Whether a file holds them and no other, and they are answered so again in a book of their own."""
        acts = rows(path, "acts", "n")
        tries.says(f"{name}: the acts in the book", [it[0] for it in acts], list(range(1, self.first + 1)) + sorted(self.replies))
        lines = [f'{{"today":"{day_text(it[4])}","clerk":{it[2]},"request":{it[3]},"act":{it[5]}}}\n'.encode() for it in acts]
        again = path + ".again"
        status, out, err = tries.run(again, ["batch"], b"".join(lines))
        tries.says(f"{name}: the same acts in a book of their own", (status, err, out.split(b"\n")[self.first:-1]), (0, b"", [self.replies[it] for it in sorted(self.replies)]))
        tries.says(f"{name}: their records", rows(path, "records", "act"), rows(again, "records", "act"))
        tries.says(f"{name}: their lines", lines_in(path), lines_in(again))


def is_line(piece):
    """Whether a batch answers it: an empty line it passes over."""
    return piece.removesuffix(b"\r") != b""


def try_lines(tries, chance, count, seed):
    known, path, accepted = samples(tries), tries.path("lines.book"), Accepted(4)
    tries.says("the office of the changed lines", tries.run(path, ["batch"], b"".join(LINES[:4])), (0, replied(4), b""))
    for first in range(0, count, 1000):
        lines = [changed(chance, some_line(chance, known), known)[:LONGEST] for _ in range(min(1000, count - first))]
        given = b"\n".join(lines)
        status, out, err = tries.run(path, ["batch"], given)
        answers = out.split(b"\n")
        name = f"lines from {first} of seed {seed}"
        tries.says(f"{name}: the end", (status, err, len(answers) - 1), (0, b"", sum(map(is_line, given.split(b"\n")))))
        tries.says(f"{name}: answers of another form", [it for it in answers[:-1] if not accepted.takes(it)], [])
    accepted.are_in(tries, f"changed lines of seed {seed}", path)
    print(f"{count} changed lines of seed {seed}: {len(accepted.replies)} acts were accepted", flush=True)
    for length in (LONGEST + 1, 1 << 20):
        given = LINES[0] + b"x" * length
        tries.says(f"a line of {length} bytes", tries.run(tries.path(f"long-{length}.book"), ["batch"], given), (9, replied(1), b""))


def some_message(chance, known):
    """The bytes of an act or a question, mostly good, with parts of the head or of the body changed."""
    if chance.random() < 0.5:
        body = re.sub(rb'"today":"[^"]*",', b"", some_line(chance, known))
        if chance.random() < 0.5:
            body = changed(chance, body, known)
        length = len(body) if chance.random() < 0.9 else chance.choice([0, 1, len(body) - 1, len(body) + 1, LONGEST, LONGEST + 1, 1 << 64])
        message = b"POST /acts HTTP/1.1\r\nContent-Length: %d\r\n\r\n" % length + body
    else:
        message = f"{chance.choice(['GET', 'GET', 'GET', 'POST', 'HEAD'])} {chance.choice(ROUTES)} HTTP/1.{chance.choice('1110')}\r\nHost: x\r\n\r\n".encode()
    return changed(chance, message, [message, *known]) if chance.random() < 0.6 else message


class Client(threading.Thread):
    """Sends changed messages over so many connections, and reads the answers."""

    def __init__(self, serving, connections, known, accepted, seed):
        super().__init__()
        self.serving, self.connections, self.known, self.accepted, self.chance = serving, connections, known, accepted, random.Random(seed)
        self.wrong, self.messages, self.answers = [], 0, 0

    def run(self):
        for _ in range(self.connections):
            stream = b"".join(some_message(self.chance, self.known) for _ in range(3))
            self.messages += 3
            try:
                cut = self.chance.randrange(len(stream) + 1) if self.chance.random() < 0.1 else 0
                self.read(self.serving.answers(stream[:cut], stream[cut:]))
            except Exception as fault:
                self.wrong.append((repr(fault)[:300], stream[:1500]))

    def read(self, came):
        point, last = 0, False
        while came:
            found = first_answer(came)
            if last or not found or found[0].book < point or not self.accepted.takes(found[0].body):
                raise ValueError(came)
            (_, point, last, _), came = found
            self.answers += 1


def try_messages(tries, chance, count, seed):
    known, path, accepted, clients = samples(tries), tries.path("messages.book"), Accepted(4), 4
    tries.says("the office of the changed messages", tries.run(path, ["batch"], b"".join(LINES[:4])), (0, replied(4), b""))
    connections = -(-count // (3 * clients))
    serving = Serving(tries, path, clients, connections * clients)
    clients = [Client(serving, connections, known, accepted, f"{seed} {number}") for number in range(clients)]
    run_together(clients)
    name = f"changed messages of seed {seed}"
    tries.says(f"{name}: answers of another form, or none", [it for client in clients for it in client.wrong][:3], [])
    serving.ends(f"{name}: the end", 4 + len(accepted.replies))
    accepted.are_in(tries, name, path)
    sent, answers = (sum(getattr(client, it) for client in clients) for it in ("messages", "answers"))
    print(f"{sent} changed messages of seed {seed}: {answers} were answered, {len(accepted.replies)} acts accepted", flush=True)
