"""Torn writes: what an act wrote to the file and its log before the machine stopped, of which a part reached the disk. By the time that an
act is answered all of it is there, so only what is written from one answer to the next is torn. Each byte is as it was or as it was
written, as docs/PROMISES.md supposes of a disk."""
import subprocess

from hostile_disk import opened
from office_tests import LINES, content, replied, unit_line

SECTOR = 512
ACTS = [*LINES, *map(unit_line, range(10, 40))]


def held_after_each(tries, path):
    """The file and its log after each act's reply, and the reply."""
    process = subprocess.Popen(tries.words(path, "batch"), stdin=subprocess.PIPE, stdout=subprocess.PIPE)
    for line in ACTS:
        process.stdin.write(line)
        process.stdin.flush()
        reply = process.stdout.readline()
        yield (content(path), content(path + "-wal")), reply
    process.kill()
    process.communicate()


def by_sectors(chance, old, new, changed):
    """Few, some or most of the sectors that were written, each whole."""
    kept, share = bytearray(old.ljust(len(new), b"\0")), chance.choice((0.1, 0.5, 0.95))
    for at in changed:
        if chance.random() < share:
            kept[at:at + SECTOR] = new[at:at + SECTOR]
    return bytes(kept)


def by_front(chance, old, new, changed):
    """What was written before some byte, and nothing from there on."""
    end = chance.randrange(changed[0], min(changed[-1] + SECTOR, len(new)) + 1)
    return new[:end] + old[end:]


def by_rest(chance, old, new, changed):
    """What was written from some byte on, and nothing before."""
    begin = chance.randrange(changed[0], min(changed[-1] + SECTOR, len(new)) + 1)
    return old[:begin].ljust(begin, b"\0") + new[begin:]


def torn(chance, old, new):
    changed = [at for at in range(0, len(new), SECTOR) if new[at:at + SECTOR] != old[at:at + SECTOR]]
    return chance.choice((by_sectors, by_front, by_rest))(chance, old, new, changed) if changed else new


def try_torn(tries, chance, count, seed):
    held, replies = zip(*held_after_each(tries, tries.path("torn.book")))
    tries.says("the first acts", b"".join(replies[:len(LINES)]), replied(len(LINES)))
    more = 0
    for number in range(count):
        acts = chance.randrange(1, len(ACTS))
        (file, log), (new_file, new_log) = held[acts - 1], held[acts]
        name = f"torn write {number} of seed {seed}, of act {acts + 1}"
        ran, found = opened(tries, torn(chance, file, new_file), torn(chance, log, new_log))
        wanted = [(1, request) for request in range(1, acts + 2)]
        tries.says(f"{name}: its acts are those that were acknowledged, or one more", (ran, found in (wanted[:-1], wanted)), ((0, b"", b""), True))
        again = tries.run(tries.path("put.book"), ["batch"], b"".join(ACTS))
        tries.says(f"{name}: again", again, (0, b"".join(replies), b""))
        more += found == wanted
    print(f"{count} torn writes of seed {seed}: {more} acts were whole", flush=True)
