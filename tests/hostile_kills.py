"""Kills at random moments: of batches, imports and a server of four workers, over one file as the kill before left it."""
import json, subprocess, threading, time

from office_tests import APPLICANTS, LINES, Serving, applicant, applicant_rows, call, content, copied, rows, unit_line

FULL = 1500


class Lines:
    """A file through many kills: the lines that are sent to it, what each was first answered with, and how many it holds."""

    def __init__(self, words, path, header, lines, first, clerk):
        self.words, self.path, self.header, self.lines, self.clerk = words, path, header, lines, clerk
        self.before, self.requests, self.replies, self.held = len(first), first + [(clerk, at) for at in range(len(first) + 1, len(lines) + 1)], [], 0

    def given(self, first, count):
        return self.header + b"".join(self.lines[first:first + count])


def of_batch(tries, number):
    units = map(unit_line, range(len(LINES) + 1, FULL + 1000))
    return Lines(["batch"], tries.path(f"batch-{number}.book"), b"", [*LINES, *units], [], 1)


def of_import(tries, number):
    path = tries.path(f"import-{number}.book")
    tries.run(path, ["batch"], LINES[0])
    return Lines(["import", "2"], path, APPLICANTS, applicant_rows(2, FULL + 1000), [(1, 1)], 2)


def opening_time(tries):
    """How long a run on an empty book takes."""
    begun = time.monotonic()
    for _ in range(3):
        tries.run(tries.path("timed.book"), ["batch"])
    return (time.monotonic() - begun) / 3


def killed(tries, moment, path, words, given):
    """The whole lines that a run had written when it was killed, or when it ended before that, and its standard error."""
    with open(tries.path("given"), "wb") as file:
        file.write(given)
    with open(tries.path("given"), "rb") as source, open(tries.path("written"), "wb") as sink:
        process = subprocess.Popen(tries.words(path, *words), stdin=source, stdout=sink, stderr=subprocess.PIPE)
        time.sleep(moment)
        process.kill()
        said = process.communicate()[1]
    return content(tries.path("written")).split(b"\n")[:-1], said


def held_in(tries, name, path):
    """The rows of the acts in a copy of a file that a kill left, once the program has opened that."""
    copy = copied(path, tries.path("copy.book"))
    tries.says(f"{name}: it opens", tries.run(copy, ["batch"]), (0, b"", b""))
    return copy, rows(copy, "acts", "n")


def kill_lines(tries, chance, moments, book, name):
    """Of some lines that the file holds and some that it doesn't."""
    first = chance.randrange(max(0, book.held - 20), book.held + 1)
    told, said = killed(tries, next(moments), book.path, book.words, book.given(first, chance.choice([1, 10, 100, 1000])))
    if chance.random() < 0.3:
        killed(tries, next(moments), book.path, ["batch"], b"")
    copy, acts = held_in(tries, name, book.path)
    found, known = len(acts) - book.before, max(book.held, first + len(told))
    wanted = (known, known + 1) if first + len(told) >= book.held else (known,)
    tries.says(f"{name}: its acts are those that were acknowledged, or one more", (said, found in wanted), (b"", True))
    tries.says(f"{name}: no request twice, and no other", [it[2:4] for it in acts], book.requests[:len(acts)])
    tries.says(f"{name}: the first replies", told[:len(book.replies) - first], book.replies[first:first + len(told)])
    book.replies += told[len(book.replies) - first:]
    # The file itself often goes on as the kill left it, with its log.
    path = chance.choice([copy, book.path])
    again = tries.run(path, book.words, book.given(first, found - first))
    tries.says(f"{name}: again", (again[0], again[1].split(b"\n")[:len(told)], again[2]), (0, told, b""))
    book.replies += again[1].split(b"\n")[len(told):-1][len(book.replies) - first - len(told):]
    book.held = found


class Clerk(threading.Thread):
    """Posts one act after another over one connection, each once the one before is answered, until the connection breaks."""

    def __init__(self, number, serving, done, chance):
        super().__init__()
        self.number, self.serving, self.done, self.chance, self.wrong = number, serving, done, chance, []
        self.request = 1 + max((request for clerk, request in done if clerk == number), default=0)

    def run(self):
        try:
            with self.serving.connect() as connection:
                while True:
                    request = self.chance.randrange(1, self.request) if self.request > 1 and self.chance.random() < 0.1 else self.request
                    self.post(connection, request)
                    self.request = max(self.request, request + 1)
        except (OSError, EOFError):
            pass

    def post(self, connection, request):
        answer = connection.posted(call_of(self.number, request))
        first = self.done.setdefault((self.number, request), answer.body)
        if answer.status != 201 or answer.body != first:
            self.wrong.append((request, answer, first))


def act_of(clerk, request):
    return applicant(f"Clerk {clerk} of {request}")


def call_of(clerk, request):
    return call(clerk, request, act_of(clerk, request))


def kill_server(tries, chance, moments, path, done, name):
    """The same with a server of four workers and four clerks, who begin with the act that had no answer the last time."""
    serving = Serving(tries, path, 4, 1000)
    clerks = [Clerk(number, serving, done, chance) for number in range(2, 6)]
    for clerk in clerks:
        clerk.start()
    time.sleep(2 * next(moments))
    ended = serving.kill()
    for clerk in clerks:
        clerk.join()
    tries.says(f"{name}: the answers, and nothing else", ([it for clerk in clerks for it in clerk.wrong], ended), ([], (b"", b"")))
    copy, acts = held_in(tries, name, path)
    kept = {tuple(it[2:4]): it for it in acts[1:]}
    in_work = {(clerk.number, clerk.request) for clerk in clerks}
    tries.says(f"{name}: no request twice", (len(kept), acts[0][2:4]), (len(acts) - 1, (1, 1)))
    tries.says(f"{name}: its acts are those that were acknowledged", set(done) - set(kept), set())
    tries.says(f"{name}: or these and what the clerks have in work", set(kept) - set(done) - in_work, set())
    numbers = {key: json.loads(body)["act"] for key, body in done.items()}
    tries.says(f"{name}: each in its place", {key: kept[key][0] for key in done if key in kept}, numbers)
    tries.says(f"{name}: each as it was sent", [key for key, it in kept.items() if json.loads(it[5]) != act_of(*key)], [])
    last = sorted(done)[-200:]
    again = tries.run(chance.choice([copy, path]), ["batch"], b"".join(call_of(*key) + b"\n" for key in last))
    tries.says(f"{name}: again", again, (0, b"".join(done[key] + b"\n" for key in last), b""))
    return len(set(kept) - set(done)), len(kept)


def try_kills(tries, chance, count, seed):
    # More often a short time, from the program's own beginning to some hundred acts.
    most = 2 * opening_time(tries) + 0.1
    moments = iter(lambda: most * chance.random() ** 3, None)
    books, number, more, held = {of_batch: None, of_import: None}, 0, [0] * 5, 0
    path, done = None, {}
    for kill in range(count):
        name = f"kill {kill} of seed {seed}"
        kind = (of_batch, of_import, None)[kill % 3]
        if kind:
            if not books[kind] or books[kind].held > FULL:
                number += 1
                books[kind] = kind(tries, number)
            before = books[kind].held
            kill_lines(tries, chance, moments, books[kind], f"{name}, {books[kind].words[0]}")
            held += books[kind].held - before
        else:
            if not path or len(done) > FULL:
                number, path, done = number + 1, tries.path(f"serve-{number}.book"), {}
                tries.run(path, ["batch"], LINES[0])
            before = len(done)
            unanswered, _ = kill_server(tries, chance, moments, path, done, f"{name}, serve")
            more[unanswered] += 1
            held += len(done) - before
    print(f"{count} kills of seed {seed}: {held} acts kept; a server's file had 0 to 4 acts without an answer {more} times", flush=True)
