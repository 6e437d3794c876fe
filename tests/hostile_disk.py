"""The order of writes, syncs and replies, by strace; and disks that fill up, files that are made read-only, and logs that aren't the file's."""
import contextlib, os, re, shutil, signal, sqlite3, subprocess, tempfile, threading

from office_tests import APPLICANTS, AS_NOBODY, ASK_HOUSEHOLD, LINES, Serving, applicant_rows, call, content, copied, free_port, get, replied, rows, run_together, unit, unit_line

CALLS = "trace=pwrite64,pwritev,write,writev,sendto,sendmsg,fdatasync,fsync,ftruncate"
BEGUN = re.compile(r'(\d+) +(\w+)\((\d+)<([^>]*)>(?:, "([^"]*)")?')
RESUMED = re.compile(r"(\d+) +<\.\.\. (\w+) resumed>")


def plain(text):
    return bytes(int(it, 16) for it in re.findall(r"\\x([0-9a-f]{2})", text)) if "\\x" in text else text.encode()


def calls_of(trace):
    """Each call on a file, a pipe or a socket as it ends: its thread, its name, the file, and the bytes that were given to it."""
    begun = {}
    with open(trace, encoding="ascii", errors="replace") as lines:
        for line in lines:
            if found := BEGUN.match(line):
                call = (int(found[1]), found[2], int(found[3]), plain(found[4]).decode(), plain(found[5] or ""))
                if "<unfinished ...>" in line:
                    begun[int(found[1])] = call
                else:
                    yield call
            elif (found := RESUMED.match(line)) and int(found[1]) in begun:
                yield begun.pop(int(found[1]))


def unsynced(trace, path, is_reply):
    """Of each reply that a thread wrote: the bytes, which of the book's files the thread had written and not synced by then, and what it
    had written to the log since its reply before."""
    left, written = {}, {}
    for thread, name, number, file, given in calls_of(trace):
        if file.startswith(path):
            if name in ("fsync", "fdatasync"):
                left.setdefault(thread, set()).discard(file)
            else:
                left.setdefault(thread, set()).add(file)
                written[thread] = written.get(thread, b"") + (given if file == path + "-wal" else b"")
        elif is_reply(number, given):
            yield given, sorted(left.get(thread, ())), written.pop(thread, b"")


def is_folder_synced(trace, folder):
    """Whether the folder was synced before anything was written to standard output."""
    for _, name, number, file, _ in calls_of(trace):
        if name == "fsync" and file == folder:
            return True
        if number == 1:
            return False
    return False


def traced(tries, trace):
    return ["strace", "-f", "-y", "-xx", "-s", "100000", "-o", trace, "-e", CALLS]


def batch_order(tries, count):
    """Units with a name of their own, and between them what leaves nothing in the file: a question, a repeat, a refusal."""
    path, trace = tries.path("order.book"), tries.path("order.trace")
    acts = LINES + [unit_line(request) for request in range(10, 10 + count)]
    quiet = [ASK_HOUSEHOLD, LINES[0], unit_line(2)]
    lines = [it for at, act in enumerate(acts) for it in (act, quiet[at % 3])]
    status, out, err = tries.run(path, ["batch"], b"".join(lines), before=traced(tries, trace))
    replies = list(unsynced(trace, path, lambda number, given: number == 1))
    tries.says("a traced batch", (status, out, err, len(replies)), (0, b"".join(it[0] for it in replies), b"", len(lines)))
    tries.says("its folder", is_folder_synced(trace, os.path.realpath(tries.folder)), True)
    for at, (reply, left, written) in enumerate(replies):
        name = re.search(rb'"name":"([^"]*)"', lines[at])
        is_there = at % 2 == 1 or bool(written) and (not name or name[0] in written)
        tries.says(f"reply {at}: {reply!r}", (left, is_there, at % 2 == 1 and bool(written)), ([], True, False))


def serve_order(tries, count):
    """Four clerks at four workers, each with acts of names of their own."""
    path, trace, clerks = tries.path("served.book"), tries.path("served.trace"), 4
    tries.run(path, ["batch"], LINES[0])
    serving = Serving(tries, path, clerks, clerks, before=traced(tries, trace))

    def posts(clerk):
        with serving.connect() as connection:
            for request in range(1, 1 + count):
                connection.posted(call(clerk, request, unit(f"C{clerk}R{request}")))

    run_together([threading.Thread(target=posts, args=(clerk,)) for clerk in range(2, 2 + clerks)])
    serving.ends("a traced server", 1 + clerks * count)
    acts = {it[0]: it for it in rows(path, "acts", "n")}
    replies = [it for it in unsynced(trace, path, lambda number, given: given.startswith(b"HTTP/1.1 201"))]
    tries.says("traced responses", len(replies), clerks * count)
    for reply, left, written in replies:
        act = acts[int(re.search(rb'"act":(\d+)', reply)[1])]
        name = re.search(r'"name":"[^"]*"', act[5])[0].encode()
        tries.says(f"response to act {act[0]}", (left, name in written), ([], True))


def try_order(tries, count):
    if not shutil.which("strace"):
        print("strace isn't there, so the order of writes, syncs and replies is not tried", flush=True)
        return
    batch_order(tries, count)
    serve_order(tries, count)
    print(f"the order of writes, syncs and replies: {count + 9} acts of a batch and {4 * count} of a server", flush=True)


# ---- disks

class Room:
    """A small file system in memory, if one may be mounted."""

    def __init__(self, tries, size):
        self.path = tempfile.mkdtemp(prefix="room-", dir=tries.folder)
        self.is_there = not subprocess.run(["mount", "-t", "tmpfs", "-o", f"size={size},mode=777", "tmpfs", self.path], capture_output=True).returncode

    def __enter__(self):
        return os.path.join(self.path, "book") if self.is_there else None

    def grow(self, size):
        subprocess.run(["mount", "-o", f"remount,size={size}", self.path], check=True)

    def fill(self):
        """Leaves no room, until the file that it gives is removed."""
        path = os.path.join(self.path, "filling")
        with contextlib.suppress(OSError), open(path, "wb", buffering=0) as file:
            while True:
                file.write(bytes(4096))
        return path

    def __exit__(self, *_):
        if self.is_there:
            # Where a check broke off, a program may still have the file.
            subprocess.run(["umount", "--lazy", self.path], check=True)


def sends_the_rest(tries, name, path, words, told, header, lines):
    """A book whose acts have so many replies holds these, or one more; what has no reply is sent once more, and all is there."""
    copy = copied(path, tries.path("full.book"))
    tries.says(f"{name}: what it keeps opens", tries.run(copy, ["batch"]), (0, b"", b""))
    held = [it[3] for it in rows(copy, "acts", "n")]
    tries.says(f"{name}: what it keeps", (len(held) in (told, told + 1), held == list(range(1, len(held) + 1))), (True, True))
    status, replies, said = tries.run(path, words, header + b"".join(lines))
    tries.says(f"{name}: the rest", (status, replies.count(b"\n"), b"refused" in replies, said), (0, len(lines), False, b""))


def full_disks(tries, chance):
    """Batches and an import, until there is no room; then there is."""
    units, applicants = list(map(unit_line, range(2, 2000))), applicant_rows(2, 2000)
    for number in range(6):
        size = f"{chance.randrange(500, 1200)}k"
        room = Room(tries, size)
        with room as path:
            if not path:
                print("no file system can be mounted here, so full disks are not tried", flush=True)
                return False
            tries.says("the plan", tries.run(path, ["batch"], LINES[0])[0], 0)
            words, header, lines = (["batch"], b"", units) if number % 2 else (["import", "1"], APPLICANTS, applicants)
            status, replies, said = tries.run(path, words, header + b"".join(lines))
            told, name = replies.count(b"\n"), f"{words[0]} in {size}"
            tries.says(f"{name}: it is full", (status, said, replies[-1:], 0 < told < len(lines)), (5, b"", b"\n", True))
            room.grow("16m")
            sends_the_rest(tries, name, path, words, told + 1, header, lines)
    return True


def full_server(tries):
    """503 while there is no room, with questions answered all the while; and acts again once there is."""
    room = Room(tries, "700k")
    with room as path:
        tries.run(path, ["batch"], LINES[0])
        serving, told = Serving(tries, path, 2, 1), []
        post = lambda connection, request: connection.posted(call(2, request, unit(f"S{request}")))
        with serving.connect() as connection:
            while not told or told[-1].status == 201 and len(told) < 2000:
                told.append(post(connection, len(told) + 1))
            tries.says("the full disk's answer", (told[-1].status, told[-1].body), (503, b'{"refused":{"kind":"Store"}}'))
            tries.says("its point", told[-1].book, len(told))
            tries.says("a question at a full disk", connection.sent(get("/due/2024-01-01"))[:2], (200, len(told)))
            room.grow("16m")
            again = [post(connection, len(told)) for _ in range(2)]
        tries.says("the act once there is room, and again", ([it.status for it in again], again[0].body == again[1].body), ([201, 201], True))
        serving.ends("the end of a server at a full disk", len(told) + 1)
        tries.says("its acts", [it[2:4] for it in rows(path, "acts", "n")][1:], [(2, request) for request in range(1, len(told) + 1)])
        tries.says("its book opens", tries.run(path, ["batch"]), (0, b"", b""))


def full_at_the_end(tries):
    """No room is left when the log is copied, at the end of a batch and of a server: all was answered, and the exit status tells of the log."""
    room, lines, posts = Room(tries, "4m"), [*LINES, *map(unit_line, range(10, 100))], range(1, 100)
    requests = [(1, request) for request in range(1, 100)] + [(2, request) for request in posts]
    with room as path:
        process = subprocess.Popen(tries.words(path, "batch"), stdin=subprocess.PIPE, stdout=subprocess.PIPE, stderr=subprocess.PIPE)
        process.stdin.write(b"".join(lines))
        process.stdin.flush()
        told = [process.stdout.readline() for _ in lines]
        filling = room.fill()
        rest, said = process.communicate(timeout=60)
        tries.says("a batch whose log isn't copied", (process.returncode, sum(b'"act":' in it for it in told), rest, said), (5, len(lines), b"", b""))
        os.remove(filling)
        tries.says("the next run copies the batch's log", tries.run(path, ["batch"]), (0, b"", b""))
        tries.says("the batch's acts", [it[2:4] for it in rows(path, "acts", "n")], requests[:len(lines)])
        serving = Serving(tries, path, 1, 1)
        with serving.connect() as connection:
            told = {connection.posted(call(2, request, unit(f"S{request}"))).status for request in posts}
            filling = room.fill()
        tries.says("a server whose log isn't copied", (serving.end(), told), ((5, b"book %d\n" % len(requests), b""), {201}))
        os.remove(filling)
        tries.says("the next run copies the server's log", tries.run(path, ["batch"]), (0, b"", b""))
        tries.says("the server's acts", [it[2:4] for it in rows(path, "acts", "n")], requests)


def in_mid_run(tries, path, change):
    """The answers of a batch of nine acts, to which something happens once the third is answered."""
    process = subprocess.Popen([*AS_NOBODY, *tries.words(path, "batch")], stdin=subprocess.PIPE, stdout=subprocess.PIPE, stderr=subprocess.PIPE)
    process.stdin.write(b"".join(LINES[:3]))
    process.stdin.flush()
    first = b"".join(process.stdout.readline() for _ in range(3))
    change()
    rest, said = process.communicate(b"".join(LINES[3:]), timeout=60)
    return process.returncode, first + rest, said, lambda: tries.run(path, ["batch"], b"".join(LINES), before=AS_NOBODY)


def made_read_only(tries):
    """The file, or its folder, may no longer be written: a run that has them goes on, and the next one is told."""
    for what, next_status in (("file", 5), ("folder", 0)):
        folder = tries.path(f"read-only-{what}")
        os.mkdir(folder)
        os.chmod(folder, 0o777)
        path = os.path.join(folder, "book")
        changed, mode, back = (path, 0o444, 0o666) if what == "file" else (folder, 0o555, 0o777)
        *came, again = in_mid_run(tries, path, lambda: os.chmod(changed, mode))
        tries.says(f"a {what} that becomes read-only in mid-run", came, [0, replied(9), b""])
        tries.says(f"a {what} that is read-only", again(), (next_status, replied(9) if next_status == 0 else b"", b""))
        os.chmod(changed, back)
        tries.says(f"a {what} that is writable again", again(), (0, replied(9), b""))


def frozen_log(tries):
    """No write to the log succeeds from some moment on, if the file system can do that."""
    path = tries.path("frozen.book")
    freeze = lambda sign: subprocess.run(["chattr", sign + "i", path + "-wal"], capture_output=True).returncode
    open(path + "-wal", "wb").close()
    if not shutil.which("chattr") or freeze("+"):
        print("this file system has no mark against writing, so a log that can't be written is not tried", flush=True)
        return
    freeze("-")
    os.chmod(path + "-wal", 0o666)
    *came, again = in_mid_run(tries, path, lambda: freeze("+"))
    freeze("-")
    tries.says("a log that can't be written in mid-run", came, [5, replied(3), b""])
    tries.says("the log written again", again(), (0, replied(9), b""))


def nobody_reads(tries):
    """A batch whose replies can't be written ends with status 4, and the act of the reply that wasn't is kept."""
    path = tries.path("unread.book")
    with open("/dev/full", "wb") as full:
        status, _, said = tries.run(path, ["batch"], b"".join(LINES), stdout=full)
    tries.says("replies to a full device", (status, said, len(rows(path, "acts", "n"))), (4, b"", 1))
    process = subprocess.Popen(tries.words(path, "batch"), stdin=subprocess.PIPE, stdout=subprocess.PIPE, stderr=subprocess.PIPE)
    process.stdin.write(LINES[0])
    process.stdin.flush()
    tries.says("a reply that is read", process.stdout.readline(), replied(1))
    process.stdout.close()
    with contextlib.suppress(BrokenPipeError):
        process.stdin.write(b"".join(LINES[1:]))
        process.stdin.flush()
    with contextlib.suppress(BrokenPipeError):
        process.stdin.close()
    tries.says("replies that nobody reads", (process.wait(60), process.stderr.read(), len(rows(path, "acts", "n"))), (4, b"", 2))
    tries.says("the acts again", tries.run(path, ["batch"], b"".join(LINES)), (0, replied(9), b""))


def limited_files(tries):
    """A limit on the length of files ends the program by a signal, as a kill does."""
    if not shutil.which("prlimit"):
        print("prlimit isn't there, so a limit on the length of files is not tried", flush=True)
        return
    for limit in (1_000, 50_000, 300_000):
        path = tries.path(f"limit-{limit}.book")
        status, replies, said = tries.run(path, ["batch"], b"".join(LINES), before=["prlimit", f"--fsize={limit}"])
        told = replies.count(b"\n")
        tries.says(f"files of {limit} bytes", (status, replies, said), (-signal.SIGXFSZ, replied(told), b""))
        sends_the_rest(tries, f"files of {limit} bytes", path, ["batch"], told, b"", LINES)


def read_by_sqlite(path):
    """The acts that another program of SQLite finds, or why it finds none."""
    reader = sqlite3.connect(path, timeout=0.1)
    try:
        return reader.execute("SELECT n FROM acts").fetchall()
    except sqlite3.OperationalError as fault:
        return str(fault)
    finally:
        reader.close()


def second_program(tries):
    """While a server has the file no other program gets it, and the server goes on."""
    path = tries.book("shared.book")
    serving = Serving(tries, path, 1, 2)
    with serving.connect() as connection:
        ask = get("/households/1")
        tries.says("the first program", connection.sent(ask)[:2], (200, 9))
        for words in (["batch"], ["export"], ["serve", str(free_port()), "1", "1"]):
            tries.says(f"a second program, {words[0]}", tries.run(path, words, LINES[0]), (5, b"", b""))
        tries.says("a reader of SQLite", read_by_sqlite(path), "database is locked")
        tries.says("the first program again", connection.sent(ask)[:2], (200, 9))
    serving.connect().reset()
    serving.ends("its end", 9)


# ---- logs

def killed_after(tries, path, lines):
    """A batch that is killed once all these lines are answered: the file, and the log as it lies beside it."""
    process = subprocess.Popen(tries.words(path, "batch"), stdin=subprocess.PIPE, stdout=subprocess.PIPE)
    process.stdin.write(b"".join(lines))
    process.stdin.flush()
    for _ in lines:
        process.stdout.readline()
    process.kill()
    process.communicate()
    return content(path), content(path + "-wal")


def opened(tries, file, log):
    """How the program opens these two, and the requests that the file then has."""
    path = tries.path("put.book")
    copied(tries.path("none"), path)
    for end, held in (("", file), ("-wal", log)):
        if held is not None:
            with open(path + end, "wb") as put:
                put.write(held)
    ran = tries.run(path, ["batch"])
    return ran, [it[2:4] for it in rows(path, "acts", "n")] if ran[0] == 0 else None


def other_logs(tries, chance, count):
    nine = [(1, request) for request in range(1, 10)]
    whole, own = content(tries.book("whole.book")), content(tries.path("whole.book-wal"))
    killed, log = killed_after(tries, tries.path("killed.book"), LINES[:6])
    other = killed_after(tries, tries.path("other.book"), [LINES[0], *map(unit_line, range(2, 60))])[1]
    fit = [own, None, b"", log[:31], log[:55], *(chance.randbytes(chance.randrange(1, 100_000)) for _ in range(count))]
    for held in fit:
        tries.says(f"a whole file beside {held and held[:60]!r}", opened(tries, whole, held), ((0, b"", b""), nine))
    tries.says("a killed file with its log", opened(tries, killed, log), ((0, b"", b""), nine[:6]))
    for at in range(count):
        cut = chance.randrange(len(log))
        ran, acts = opened(tries, killed, log[:cut])
        tries.says(f"a log cut to {cut} bytes", (ran, acts == nine[:len(acts or ())]), ((0, b"", b""), True))
        damaged = log[:cut] + bytes([log[cut] ^ 1 << chance.randrange(8)]) + log[cut + 1:]
        ran, acts = opened(tries, killed, damaged)
        tries.says(f"a log whose byte {cut} is damaged", (ran[0] in (0, 5, 6), ran[2], acts is None or acts == nine[:len(acts)]), (True, b"", True))
    for name, file, held in (("an older log of the same book", whole, log), ("another book's log", whole, other), ("a log without its file", None, log), ("no log", killed, None)):
        ran, acts = opened(tries, file, held)
        tries.says(name, (ran[0] in (0, 5, 6), ran[2], acts is None or [it[1] for it in acts] == list(range(1, len(acts) + 1))), (True, b"", True))


def try_disks(tries, chance, count):
    if full_disks(tries, chance):
        full_server(tries)
        full_at_the_end(tries)
    made_read_only(tries)
    frozen_log(tries)
    nobody_reads(tries)
    limited_files(tries)
    second_program(tries)
    other_logs(tries, chance, count)
