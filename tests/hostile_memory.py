"""Refused memory: tests/refuse.c stands before malloc, and refuses the k-th allocation of the program, alone or with every later one.
The exit status is one that docs/COMMANDS.md tells and no signal, and the file holds the acts that were acknowledged, or these and the one in work."""
import collections, itertools, os, shutil, subprocess, sys, tempfile

from office_tests import APPLICANTS, ASK_HOUSEHOLD, FACTS, LINES, TOP, Serving, content, copied, get, post, replied, rows, unit_line

INTERIM = b'{"clerk":2,"request":50,"act":{"kind":"interim","household":1,"seen":1,"event":"2024-01-20","notice":"2024-01-25","done":"2024-02-01","from":"2024-03-01","facts":%s}}' % FACTS.encode()
WAYS = ("REFUSE_FROM", "REFUSE_ONLY")


class Refusing:
    """The program, with the allocation that it is refused."""

    def __init__(self, tries, shim):
        self.tries, self.shim = tries, shim

    def with_refused(self, way, number, told=""):
        return {**os.environ, "LD_PRELOAD": self.shim, way: str(number), "REFUSE_TOLD": told}

    def taken(self, run):
        """How many allocations a run takes."""
        told = self.tries.path("told")
        run(self.with_refused("REFUSE_ONLY", 0, told))
        return int.from_bytes(content(told)[:8], sys.byteorder)

    def runs(self, run, numbers, seen):
        """How a run ends that is refused each of these allocations, alone or with every later one. What is seen is the exit statuses."""
        for way, number in itertools.product(WAYS, numbers):
            ended = run(self.with_refused(way, number))
            seen[ended[0]] += 1
            yield f"{way}={number}", *ended


def told_of(seen):
    return ", ".join(f"{count} ended with exit status {status}" for status, count in sorted(seen.items()))


def shim_of(tries):
    """None if the program can't be given one."""
    compiler, shim = shutil.which("gcc") or shutil.which("cc"), tries.path("refuse.so")
    is_linked = compiler and b"malloc" in subprocess.run(["nm", "-D", tries.program], capture_output=True).stdout
    if not is_linked or subprocess.run([compiler, "-O2", "-shared", "-fPIC", "-o", shim, f"{TOP}/tests/refuse.c"]).returncode:
        print("there is no C compiler here, or the program takes its memory otherwise, so refused memory is not tried", flush=True)
        return None
    return shim


def numbers(total, most):
    """All the numbers up to a total and one more, or about so many of them, with the first ones and the last."""
    step = max(1, total // most) if most else 1
    return sorted({*range(1, total, step), *range(1, 6), *range(total - 2, total + 2)})


def refused_batches(refusing, most):
    """Nine acts on a file that is not there yet."""
    tries, seen = refusing.tries, collections.Counter()
    path, copy = tries.path("refused.book"), tries.path("copy.book")

    def run(env):
        copied(tries.path("none"), path)
        return tries.run(path, ["batch"], b"".join(LINES), env=env)

    total = refusing.taken(run)
    for way, status, out, err in refusing.runs(run, numbers(total, most), seen):
        told, name = out.count(b"\n"), f"a batch, {way}"
        tries.says(name, (status in (0, 7), out, err, status == 7 or told == 9), (True, replied(told), b"", True))
        tries.says(f"{name}: it opens", tries.run(copied(path, copy), ["batch"]), (0, b"", b""))
        held = [it[2:4] for it in rows(copy, "acts", "n")]
        tries.says(f"{name}: the book", (held, len(held) in (told, told + 1)), ([(1, it) for it in range(1, len(held) + 1)], True))
        tries.says(f"{name}: again", tries.run(path, ["batch"], b"".join(LINES)), (0, replied(9), b""))
    return f"{total} allocations of a batch of nine acts: {told_of(seen)}"


def refused_openings(refusing, most):
    """A book of a made office, which is opened, asked and left as it is."""
    tries, seen, path = refusing.tries, collections.Counter(), refusing.tries.path("many.book")
    tries.says("a book of a made office", tries.run(path, ["batch"], b"".join(tries.made(12)))[0], 0)
    held = rows(path, "acts", "n")
    tries.run(path, ["batch"])
    whole = tries.run(path, ["batch"], ASK_HOUSEHOLD)
    run = lambda env: tries.run(path, ["batch"], ASK_HOUSEHOLD, env=env)
    total = refusing.taken(run)
    for way, *came in refusing.runs(run, numbers(total, most), seen):
        tries.says(f"an opening, {way}", tuple(came), whole if came[0] == 0 else (7, b"", b""))
    tries.says("the book after the openings", tries.run(path, ["batch"], ASK_HOUSEHOLD), whole)
    tries.says("its acts", rows(path, "acts", "n"), held)
    return f"{total} allocations of opening a book of {len(held)} acts: {told_of(seen)}"


def refused_full(refusing, most):
    """A book of as many acts as there may be: each of the first 200 allocations of its opening. In the full run alone."""
    if most:
        return "opening a full book: in the full run alone"
    tries, seen = refusing.tries, collections.Counter()
    with tempfile.TemporaryDirectory(dir="/dev/shm" if os.path.isdir("/dev/shm") else None) as folder:
        path = os.path.join(folder, "full.book")
        status, out, err = tries.run(path, ["batch"], LINES[0] + b"".join(map(unit_line, range(2, 100_001))))
        tries.says("a full book", (status, out.count(b'"act":'), err), (0, 100_000, b""))
        whole = tries.run(path, ["batch"], unit_line(100_001))
        tries.says("one act more", whole, (0, b'{"refused":{"acts":100000,"kind":"BookFull","number":4}}\n', b""))
        run = lambda env: tries.run(path, ["batch"], unit_line(100_001), env=env)
        for way, *came in refusing.runs(run, range(1, 201), seen):
            tries.says(f"opening a full book, {way}", tuple(came), whole if came[0] == 0 else (7, b"", b""))
        tries.says("the full book afterwards", tries.run(path, ["batch"], unit_line(100_001)), whole)
    return f"each of the first 200 allocations of opening a book of 100,000 acts: {told_of(seen)}"


def two_connections(serving):
    """The answers over two connections, each as far as it goes: an act and a question, and a second act."""
    answers, closing = [], LINES[4][:1] + LINES[4][LINES[4].index(b'"clerk"'):-1]
    for messages in ((post(INTERIM), get("/households/1")), (post(closing),)):
        try:
            with serving.connect() as connection:
                for message in messages:
                    answers.append(connection.sent(message))
        except (EOFError, ConnectionError):
            answers.append(None)
    return answers


def refused_servers(refusing, most):
    """Two connections of a server on the book of four acts: an interim with a question, and a closing."""
    tries, seen = refusing.tries, collections.Counter()
    first, path, copy = tries.path("four.book"), tries.path("served.book"), tries.path("copy.book")
    tries.run(first, ["batch"], b"".join(LINES[:4]))

    def run(env):
        serving = Serving(tries, copied(first, path), 1, 2, env=env)
        answers = two_connections(serving)
        return *serving.end(), answers

    total = refusing.taken(run)
    for way, status, out, err, answers in refusing.runs(run, numbers(total, most), seen):
        told, name = [it for it in answers if it and it.status == 201], f"a server, {way}"
        tries.says(name, (status in (0, 3, 7), err, {it.status for it in answers if it} - {200, 201, 409, 507}), (True, b"", set()))
        tries.says(f"{name}: it opens", tries.run(copied(path, copy), ["batch"]), (0, b"", b""))
        held = [it[2:4] for it in rows(copy, "acts", "n")]
        tries.says(f"{name}: the book", (held[:4], set(held[4:]) <= {(2, 50), (1, 5)}, len(held) - 4 >= len(told)), ([(1, it) for it in range(1, 5)], True, True))
        tries.says(f"{name}: the line", out, b"book %d\n" % len(held) if status == 0 else b"")
    return f"{total} allocations of a server of two connections: {told_of(seen)}"


def commands(tries):
    """The other commands, each with its input, on a book and without one."""
    household = content(f"{TOP}/examples/one-household.json")
    for words in (["assess"], ["make", "2"], ["trial", "1"], ["voucher", "2024-03"], ["nonsense"], ["serve", "99999", "1", "1"]):
        yield None, words, household
    applicants = APPLICANTS + b"".join(b"%d,Name %d,1,1,no,1;2,9600\n" % (it, it) for it in range(20, 26))
    book = tries.book("reported.book")
    for words in (["export"], ["voucher", "2024-03"], ["due", "2024-09-03"], ["targets", "2024-01-01"], ["import", "2"]):
        yield book, words, applicants


def refused_commands(refusing, most):
    """Each of them ends as ever, or with status 7 after a front of what it writes."""
    tries, seen = refusing.tries, collections.Counter()
    for book, words, given in commands(tries):
        run = lambda env: tries.run(book, words, given, env=env)
        total, (status, written, _) = refusing.taken(run), run(os.environ)
        for way, *came, err in refusing.runs(run, numbers(total, most and max(1, most // 12)), seen):
            is_front = came[0] == 7 and written.startswith(came[1])
            tries.says(f"{words}, {way}", (is_front or came == [status, written], err), (True, b""))
    return f"the other commands: {told_of(seen)}"


def try_memory(tries, most):
    shim = shim_of(tries)
    if shim:
        refusing = Refusing(tries, shim)
        for group in (refused_batches, refused_openings, refused_full, refused_servers, refused_commands):
            print(group(refusing, most), flush=True)
