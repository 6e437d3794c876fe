"""What the tests of the built program share: the count of tries, runs of the program, a server and its connections, the messages over
them, a book's file, and nine acts with their replies."""
import collections, contextlib, datetime, http.client, json, os, re, select, shutil, socket, sqlite3, struct, subprocess, sys, tempfile, threading, time

import http_model

TOP = os.path.dirname(os.path.dirname(os.path.abspath(__file__)))
# So many differences are printed; the others are only counted.
MOST_PRINTED = 20
# In front of a command: it runs as a user who is not root.
AS_NOBODY = ["setpriv", "--reuid=65534", "--regid=65534", "--clear-groups"] if os.geteuid() == 0 else []


class Tries:
    """How many tries there were, and how many of them came out otherwise than wanted."""

    def __init__(self):
        self.count = self.failed = 0

    def says(self, name, came, wanted):
        self.count += 1
        if came != wanted:
            self.failed += 1
            if self.failed <= MOST_PRINTED:
                print(f"{name:.2000}: wanted\n  {wanted!r:.700}\n came\n  {came!r:.700}", flush=True)

    def end(self, what):
        """The last line and the exit status of a test."""
        if self.failed > MOST_PRINTED:
            print(f"{self.failed - MOST_PRINTED} further differences are not printed")
        print(f"{self.count - self.failed} of {self.count} {what} as wanted")
        sys.exit(1 if self.failed or not self.count else 0)


class ProgramTries(Tries):
    """The tries of a built program, which is the script's first word, with a folder for their files."""

    def __init__(self):
        super().__init__()
        if len(sys.argv) < 2 or not os.access(sys.argv[1], os.X_OK):
            sys.exit(f"{sys.argv[0]}: the first word has to be a built program, and {' '.join(sys.argv[1:2]) or 'no word'} is none")
        self.program, self.folder = os.path.abspath(sys.argv[1]), tempfile.mkdtemp(prefix="office-tests-")
        os.chmod(self.folder, 0o777)
        self.servers, self.exchanges, self.checked = [], [], 0

    def __enter__(self):
        return self

    def __exit__(self, *_):
        for server in self.servers:
            server.kill()
        shutil.rmtree(self.folder)

    def end(self, what):
        self.check_messages()
        if self.checked:
            print(f"{self.checked} responses and their requests were compared with docs/openapi.yaml")
        super().end(what)

    def path(self, name):
        return os.path.join(self.folder, name)

    def words(self, book, *words):
        """The program's command line, with its book in a file or, if that is None, in memory."""
        return [self.program, *(["--book", book] if book else []), *words]

    def run(self, book, words, given=b"", before=(), **how):
        """A run's exit status, standard output and standard error. With `before` another command runs it."""
        how = {"input": given, "stdout": subprocess.PIPE, "stderr": subprocess.PIPE, "timeout": 120} | how
        ran = subprocess.run([*before, *self.words(book, *words)], **how)
        return ran.returncode, ran.stdout, ran.stderr

    def made(self, households):
        """The lines of a made office of so many households."""
        status, lines, said = self.run(None, ["make", str(households)])
        self.says(f"a made office of {households}", (status, said), (0, b""))
        return lines.splitlines(keepends=True)

    def book(self, name):
        """A file with the book of the nine acts."""
        path = self.path(name)
        self.says(f"{name} is written", self.run(path, ["batch"], b"".join(LINES)), (0, replied(9), b""))
        return path

    def exchanged(self, method, target, request_headers, request_body, status, response_headers, response_body):
        """Every request that a test sends, with the response that came, passes here. Names of headers are in small letters, bodies are
        bytes. If the request's head can't be read, method and target are None."""
        self.exchanges.append((method, target, tuple(request_headers.items()), request_body, status, tuple(response_headers.items()), response_body))

    def exchanged_bytes(self, sent, came):
        """The same for the bytes that were sent over a connection from some message on, and the bytes that came."""
        for exchange in exchanges_in(sent, came):
            self.exchanged(*exchange)

    def check_messages(self):
        """Compares the exchanges so far with docs/openapi.yaml, once clients and servers are at rest. Like ones are compared once."""
        exchanges, self.exchanges = self.exchanges, []
        check = check_exchange()
        for it, times in collections.Counter(exchanges).items() if check else ():
            method, target, asked, body, status, told, answer = it
            faults = check(method, target, dict(asked), body, status, dict(told), answer)
            self.says(f"faults by docs/openapi.yaml of {method} {target} {body!r:.500}, answered {status} {answer!r:.500}", faults, [])
            self.checked += times


def check_exchange():
    """The check of a request and its response in tests/openapi_check.py; None if that file isn't there."""
    if not os.path.exists(f"{TOP}/tests/openapi_check.py"):
        return None
    import openapi_check
    return openapi_check.check_exchange


def run_together(threads):
    for thread in threads:
        thread.start()
    for thread in threads:
        thread.join()


def content(path):
    with open(path, "rb") as file:
        return file.read()


def examples():
    """The lines of the acts in examples/."""
    return [line for name in ("first-month", "first-year") for line in content(f"{TOP}/examples/{name}.jsonl").splitlines()]


# ---- acts

HEAD = '{"relation":"Head","born":"1953-06-01","disabled":false,"student":false,"helped":false,"cared":false}'
FACTS = '{"members":[%s],"incomes":[{"member":0,"kind":"Benefits","annual":9600}],"assets":[],"disposals":[],"care_work":0,"care_school":0,"disability":0,"medical":1000,"welfare":0,"exempt":false}' % HEAD
# A household of 70 that pays 212 of 760, so 548 are claimed for each of five months.
ACTS = [
    '{"kind":"plan","first":"2024-01","early":false,"method":1,"fiscal_month":1,"report_days":30,"passbook":200,"expected":10,"bounds":[[1,1],[1,2],[2,4],[3,6],[4,8],[5,10]],"ranks":[1,2]}',
    '{"kind":"unit","name":"A-101","group":1,"bedrooms":1,"accessible":false}',
    '{"kind":"rents","group":1,"from":"2024-01-01","contract_rent":700,"utility":60}',
    '{"kind":"start","name":"Ada Reed","unit":1,"from":"2024-01-01","facts":%s}' % FACTS,
] + ['{"kind":"close","month":"2024-0%d"}' % month for month in range(1, 6)]
LINES = [f'{{"today":"2024-01-01","clerk":1,"request":{n},"act":{act}}}\n'.encode() for n, act in enumerate(ACTS, 1)]
REPLIES = [
    '{"act":1,"day":"2024-01-01","made":null}',
    '{"act":2,"day":"2024-01-01","made":{"unit":1}}',
    '{"act":3,"day":"2024-01-01","made":null}',
    '{"act":4,"day":"2024-01-01","made":{"assistance":548,"household":1,"record":1,"reimbursement":0,"tenant_rent":152,"ttp":212}}',
] + ['{"act":%d,"day":"2024-01-01","made":{"amount":548,"lines":1,"month":"2024-0%d"}}' % (n + 4, n) for n in range(1, 6)]
ASK_HOUSEHOLD = b'{"ask":{"kind":"household","household":1}}\n'
APPLICANTS = b"request,name,size,persons,accessible,preferences,annual\n"


def replied(count):
    """What the first so many acts are answered with."""
    return "".join(it + "\n" for it in REPLIES[:count]).encode()


def compact(value):
    return json.dumps(value, separators=(",", ":"))


def call(clerk, request, act):
    """The body of a message that posts an act."""
    return compact({"clerk": clerk, "request": request, "act": act}).encode()


def unit(name):
    return {"kind": "unit", "name": name, "group": 1, "bedrooms": 1, "accessible": False}


def applicant(name, size=1):
    return {"kind": "apply", "name": name, "size": size, "persons": size, "preferences": [], "accessible": False, "annual": 9000}


def unit_line(request):
    """One more act, of which a book takes as many as there are requests."""
    return compact({"today": "2024-01-01", "clerk": 1, "request": request, "act": unit(f"U{request}")}).encode() + b"\n"


def applicant_rows(first, end):
    """Rows to import, one for each request."""
    return [f"{request},Applicant {request},1,1,no,,9600\n".encode() for request in range(first, end)]


# ---- a book's file

def asked_of(path, sql):
    """What a reader of SQLite finds in a file."""
    with contextlib.closing(sqlite3.connect(f"file:{path}?mode=ro", uri=True)) as reader:
        return reader.execute(sql).fetchall()


def rows(path, table, order):
    return asked_of(path, f"SELECT * FROM {table} ORDER BY {order}")


def lines_in(path):
    return rows(path, "lines", "act, place")


def copied(path, to):
    """The file with its log, at another path."""
    for end in ("", "-wal"):
        if os.path.exists(to + end):
            os.remove(to + end)
        if os.path.exists(path + end):
            shutil.copyfile(path + end, to + end)
    return to


def day_text(number):
    """A day as a file has it, in days from 1970."""
    return (datetime.date(1970, 1, 1) + datetime.timedelta(days=number)).isoformat()


def today():
    return datetime.datetime.now(datetime.timezone.utc).date().isoformat()


# ---- messages

PHRASES = http_model.PHRASES | {503: "Service Unavailable", 507: "Insufficient Storage"}
RESPONSE = re.compile(rb"HTTP/1\.1 ([0-9]{3}) ([A-Za-z ]+)\r\nbook: ([0-9]+)\r\n(connection: close\r\n)?content-length: ([0-9]+)\r\ncontent-type: application/json\r\n\r\n")
Answer = collections.namedtuple("Answer", "status book is_last body")


def head(line, *headers):
    return "\r\n".join([line, *headers, "", ""]).encode()


def get(target, *headers):
    return head(f"GET {target} HTTP/1.1", *headers)


def post(body, *headers):
    return head("POST /acts HTTP/1.1", f"Content-Length: {len(body)}", *headers) + body


def first_answer(came):
    """The answer that some bytes begin with and what follows it; None if it isn't whole yet, ValueError if it can't become one."""
    end = came.find(b"\r\n\r\n")
    if end < 0:
        if len(came) > 300:
            raise ValueError(came)
        return None
    found = RESPONSE.fullmatch(came[:end + 4])
    if not found or PHRASES.get(int(found[1])) != found[2].decode():
        raise ValueError(came)
    size = int(found[5])
    if len(came) < end + 4 + size:
        return None
    body = came[end + 4:end + 4 + size]
    json.loads(body)
    return Answer(int(found[1]), int(found[3]), bool(found[4]), body), came[end + 4 + size:]


def first_request(sent):
    """Method, target, headers and body of the message that some bytes begin with, and what follows it."""
    try:
        method, target, _, headers, size = http_model.head_of(sent[:http_model.LIMIT])
    except (http_model.Hopeless, http_model.Unfinished):
        return (None, None, {}, b""), b""
    length = http_model.length_of(headers)
    headers = {name.decode(): value.decode("latin-1") for name, value in headers}
    if isinstance(length, tuple):
        return (method, target, headers, b""), b""
    return (method, target, headers, sent[size:size + length]), sent[size + length:]


def exchanges_in(sent, came):
    """Each whole answer, with the message that it belongs to."""
    with contextlib.suppress(ValueError):
        while found := first_answer(came):
            request, sent = first_request(sent)
            answer, came = found
            last = {"connection": "close"} if answer.is_last else {}
            headers = {"book": str(answer.book), **last, "content-length": str(len(answer.body)), "content-type": "application/json"}
            yield *request, answer.status, headers, answer.body


# ---- servers and connections

class Connection:
    """A connection of a client that writes its bytes itself."""

    def __init__(self, tries, port, seconds):
        self.tries, self.socket, self.held = tries, socket.create_connection(("127.0.0.1", port), seconds), b""
        self.socket.setsockopt(socket.IPPROTO_TCP, socket.TCP_NODELAY, 1)

    def __enter__(self):
        return self

    def __exit__(self, *_):
        self.socket.close()

    def posted(self, body):
        return self.sent(post(body))

    def sent(self, message):
        """The answer to a message; EOFError if the connection ends before it."""
        self.socket.sendall(message)
        while not (found := first_answer(self.held)):
            piece = self.socket.recv(65536)
            if not piece:
                raise EOFError
            self.held += piece
        self.tries.exchanged_bytes(message, self.held.removesuffix(found[1]))
        self.held = found[1]
        return found[0]

    def so_many(self, count):
        """The next bytes, so many or what there is before the end."""
        came = b""
        while len(came) < count and (piece := self.socket.recv(count - len(came))):
            came += piece
        return came

    def rest(self):
        """What comes until the other side ends it; a reset after the last byte is an end too."""
        with contextlib.suppress(ConnectionResetError):
            while piece := self.socket.recv(65536):
                self.held += piece
        return self.held

    def reset(self):
        """Hangs up, like a machine that is gone."""
        self.socket.setsockopt(socket.SOL_SOCKET, socket.SO_LINGER, struct.pack("ii", 1, 0))
        self.socket.close()


def free_port():
    with socket.socket() as free:
        free.bind(("127.0.0.1", 0))
        return free.getsockname()[1]


class Serving:
    """The program as a server on a free port. It takes so many connections, and then ends by itself. With `before` another command runs it."""

    def __init__(self, tries, book, workers, connections, before=(), **how):
        self.tries, self.port = tries, free_port()
        self.words = [*before, *tries.words(book, "serve", str(self.port), str(workers), str(connections))]
        self.how = {"stdin": subprocess.DEVNULL, "stdout": subprocess.PIPE, "stderr": subprocess.PIPE} | how
        self.start()

    def start(self):
        """Also once more on its port, after it was killed."""
        self.process = subprocess.Popen(self.words, **self.how)
        self.tries.servers.append(self.process)

    def connect(self, seconds=20):
        """A connection, once the server listens; EOFError if it has ended."""
        end = time.monotonic() + seconds
        while time.monotonic() < end:
            try:
                return Connection(self.tries, self.port, seconds)
            except ConnectionRefusedError:
                if self.process.poll() is not None:
                    raise EOFError from None
                time.sleep(0.002)
        raise TimeoutError("no server listens")

    def answers(self, *pieces):
        """All that comes over a connection that brings these bytes, piece by piece, and then ends."""
        with self.connect() as connection:
            # The server may have ended the connection by then: BrokenPipeError, ConnectionResetError, or nothing to shut down.
            with contextlib.suppress(OSError):
                for piece in pieces:
                    connection.socket.sendall(piece)
            with contextlib.suppress(OSError):
                connection.socket.shutdown(socket.SHUT_WR)
            came = connection.rest()
        self.tries.exchanged_bytes(b"".join(pieces), came)
        return came

    def kill(self):
        """What it had written until it is killed."""
        self.process.kill()
        return self.process.communicate()

    def end(self, seconds=60):
        """Its exit status and all that it wrote."""
        out, err = self.process.communicate(timeout=seconds)
        return self.process.returncode, out, err

    def ends(self, name, acts):
        """It has to end by itself, tell that its book has so many acts, and write nothing else."""
        self.tries.says(name, self.end(), (0, b"book %d\n" % acts, b""))


class Caller:
    """Python's http.client, over a connection to a server."""

    def __init__(self, serving, seconds=120):
        self.tries, self.client = serving.tries, http.client.HTTPConnection("127.0.0.1", serving.port, timeout=seconds)
        self.client.sock = serving.connect(seconds).socket

    def __enter__(self):
        return self

    def __exit__(self, *_):
        self.client.close()

    def asks(self, method, target, body=None, closes=False):
        """Status, point and body of the response."""
        headers = {"connection": "close"} if closes else {}
        self.client.request(method, target, body, headers)
        came = self.client.getresponse()
        told = came.read()
        self.tries.exchanged(method, target, headers, (body or "").encode(), came.status, {name.lower(): value for name, value in came.getheaders()}, told)
        return came.status, int(came.getheader("book")), told.decode()


class Relay(threading.Thread):
    """Stands between the clients of another program, one after another, and a server, for the messages that they exchange."""

    def __init__(self, serving):
        super().__init__(daemon=True)
        self.serving, self.listening = serving, socket.create_server(("127.0.0.1", 0))
        self.port = self.listening.getsockname()[1]

    def __enter__(self):
        self.start()
        return self

    def __exit__(self, *_):
        self.listening.shutdown(socket.SHUT_RDWR)
        # A server that hangs must not hold up the test.
        self.join(20)
        self.listening.close()

    def run(self):
        while True:
            try:
                client, _ = self.listening.accept()
            except OSError:
                # It listens no longer.
                return
            with contextlib.suppress(OSError), client, self.serving.connect() as connection:
                self.pass_on(client, connection.socket)

    def pass_on(self, client, server):
        told, others = {client: b"", server: b""}, {client: server, server: client}
        while others:
            for side in select.select(list(others), [], [])[0]:
                piece = side.recv(65536)
                told[side] += piece
                if piece:
                    others[side].sendall(piece)
                else:
                    # The other side may be gone already.
                    with contextlib.suppress(OSError):
                        others[side].shutdown(socket.SHUT_WR)
                    del others[side]
        self.serving.tries.exchanged_bytes(told[client], told[server])
