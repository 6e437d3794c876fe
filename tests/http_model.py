"""What the office over HTTP has to answer to the bytes of a connection, from the grammar of a head and the page docs/HTTP.md alone."""
import datetime, re

LIMIT = 16384
TOKEN = set(b"abcdefghijklmnopqrstuvwxyzABCDEFGHIJKLMNOPQRSTUVWXYZ0123456789!#$%&'*+-.^_`|~")
VALUE = set(range(0x20, 0x100)) - {0x7F} | {0x09}
PHRASES = {200: "OK", 201: "Created", 400: "Bad Request", 404: "Not Found", 405: "Method Not Allowed", 409: "Conflict", 413: "Payload Too Large",
           422: "Unprocessable Entity", 431: "Request Header Fields Too Large", 501: "Not Implemented"}
ROUTES = [("POST", "/acts"), ("GET", "/households/{h}"), ("GET", "/households/{h}/records/{r}"), ("GET", "/households/{h}/paid/{month}"),
          ("GET", "/units/{u}/next/{day}"), ("GET", "/vouchers/{month}"), ("GET", "/due/{day}"), ("GET", "/targets/{day}")]


class Hopeless(Exception):
    """No bytes that follow make this a head."""


class Unfinished(Exception):
    """The bytes end before the head does."""


class Bytes:
    def __init__(self, taken):
        self.taken, self.at = taken, 0

    def next(self):
        if self.at == len(self.taken):
            raise Unfinished
        self.at += 1
        return self.taken[self.at - 1]

    def line_end(self, first):
        if first == 0x0A:
            return
        if first != 0x0D or self.next() != 0x0A:
            raise Hopeless

    def word(self, bytes_of_it, end):
        start = self.at
        while True:
            byte = self.next()
            if byte == end and self.at - 1 > start:
                return self.taken[start:self.at - 1]
            if byte not in bytes_of_it:
                raise Hopeless


def target_of(bytes_):
    """Whatever stands in a target, it is judged at its end alone."""
    start = bytes_.at
    while (byte := bytes_.next()) not in b" \r\n":
        pass
    target = bytes_.taken[start:bytes_.at - 1]
    if byte != 0x20 or not target or any(it < 0x20 or it == 0x7F for it in target):
        raise Hopeless
    try:
        return target.decode()
    except UnicodeDecodeError:
        raise Hopeless from None


def head_of(taken):
    """Method, target, the version's last digit, the headers, and how many bytes these are."""
    bytes_ = Bytes(taken)
    while (byte := bytes_.next()) in b"\r\n":
        bytes_.line_end(byte)
    bytes_.at -= 1
    method = bytes_.word(TOKEN, 0x20)
    target = target_of(bytes_)
    for wanted in b"HTTP/1.":
        if bytes_.next() != wanted:
            raise Hopeless
    minor = bytes_.next()
    if minor not in b"01":
        raise Hopeless
    bytes_.line_end(bytes_.next())
    headers = []
    while (byte := bytes_.next()) not in b"\r\n":
        bytes_.at -= 1
        name, start = bytes_.word(TOKEN, 0x3A), bytes_.at
        while (byte := bytes_.next()) not in b"\r\n":
            if byte not in VALUE:
                raise Hopeless
        headers.append((name.lower(), taken[start:bytes_.at - 1].strip(b" \t")))
        bytes_.line_end(byte)
    bytes_.line_end(byte)
    return method.decode(), target, minor - 0x30, headers, bytes_.at


def length_of(headers):
    """The bytes of body that the headers announce, or a status with its kind."""
    if len(headers) > 64:
        return (431, "HeadTooLong")
    if any(name == b"transfer-encoding" for name, _ in headers):
        return (501, "Coding")
    values = [value for name, value in headers if name == b"content-length"]
    if not values:
        return 0
    if len(values) > 1 or not re.fullmatch(rb"[0-9]+", values[0]):
        return (400, "BadLength")
    return int(values[0]) if int(values[0]) <= LIMIT else (413, "BodyTooLong")


def is_good(name, text):
    if name == "day":
        try:
            return bool(re.fullmatch(r"[0-9]{4}-[0-9]{2}-[0-9]{2}", text)) and 1880 <= datetime.date.fromisoformat(text).year <= 2199
        except ValueError:
            return False
    if name == "month":
        return bool(re.fullmatch(r"[0-9]{4}-[0-9]{2}", text)) and 1880 <= int(text[:4]) <= 2199 and 1 <= int(text[5:]) <= 12
    return bool(re.fullmatch(r"[0-9]+", text)) and int(text) <= 4294967295


def refusal(kind):
    return '{"refused":{"kind":"%s"}}' % kind


def bad_form(path):
    return '{"refused":{"kind":"Form","path":"%s"}}' % path


class Office:
    """An office by its answers: those that are known of its questions, and of the acts in work."""

    def __init__(self, book, questions, day):
        self.book, self.questions, self.day, self.done, self.applicants = book, questions, day, {}, 0

    def acts(self, body):
        call = re.fullmatch(rb'\{"clerk":([0-9]+),"request":([0-9]+),"act":(\{"kind":"apply",.*\})\}', body)
        if not call:
            return 422, bad_form("")
        key = (call[1], call[2])
        if key in self.done and self.done[key][0] != call[3]:
            return 409, '{"refused":{"act":%d,"kind":"RequestReused","number":1}}' % self.done[key][1]
        if key not in self.done:
            self.book, self.applicants = self.book + 1, self.applicants + 1
            text = '{"act":%d,"day":"%s","made":{"applicant":%d}}' % (self.book, self.day, self.applicants)
            self.done[key] = (call[3], self.book, text)
        return 201, self.done[key][2]

    def routed(self, method, target, body):
        parts = target.split("?")[0].split("/")
        for wanted, route in ROUTES:
            places = route.split("/")
            if len(places) == len(parts) and all(part == place or (place[:1] == "{" and part) for place, part in zip(places, parts)):
                if method != wanted:
                    return 405, refusal("NoMethod")
                named = [(place[1:-1], part) for place, part in zip(places, parts) if place[:1] == "{"]
                for name, part in named:
                    if not is_good(name, part):
                        return 422, bad_form("{%s}" % name)
                return self.acts(body) if wanted == "POST" else self.questions(route, dict(named))
        return 404, refusal("NoRoute")

    def next(self, sent):
        """The response to the first message, what stands behind it, and whether the connection ends; None if no message is whole yet."""
        try:
            method, target, minor, headers, size = head_of(sent[:LIMIT])
        except Hopeless:
            return self.response(400, refusal("BadHead"), True), b"", True
        except Unfinished:
            return None if len(sent) < LIMIT else (self.response(431, refusal("HeadTooLong"), True), b"", True)
        length = length_of(headers)
        if isinstance(length, tuple):
            return self.response(length[0], refusal(length[1]), True), b"", True
        if len(sent) - size < length:
            return None
        closes = minor == 0 or any(name == b"connection" and value.lower() == b"close" for name, value in headers)
        status, body = self.routed(method, target, sent[size:size + length])
        return self.response(status, body, closes), sent[size + length:], closes

    def connection(self, sent):
        """All that comes over a connection that brings these bytes and then ends."""
        answered, ended = b"", False
        while not ended and (step := self.next(sent)):
            response, sent, ended = step
            answered += response
        return answered

    def response(self, status, body, closes):
        head = f"HTTP/1.1 {status} {PHRASES[status]}\r\nbook: {self.book}\r\n" + ("connection: close\r\n" if closes else "")
        return (head + f"content-length: {len(body)}\r\ncontent-type: application/json\r\n\r\n{body}").encode()
