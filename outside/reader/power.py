"""Power cuts by the rules of a disk: what a program has written is there after a cut only if it was synced, and may be there or not if it was
not. A kill leaves all that was written; a power cut need not.

From the calls of one command, in their order (calls.c), all folders are made that a cut could leave at each of its steps, and the program is
started on each. Of a file that was not synced since it was written, nothing, half or all may be there; of names that were made or changed since
the folder was synced, the first few may be. Lengths are in bytes."""
import os

import client as keycard
from checks import check, same
from cuts import WRONG_PIN, initialised
from sitting import PIN

LOST = "lost"


class Disk:
    """A folder as a program sees it, and what of it is certain."""

    def __init__(self, files):
        self.contents = list(files.values())        # of each file, as written
        self.synced = list(files.values())          # the same, as far as it is certain
        self.names = {name: number for number, name in enumerate(files)}
        self.opened = {}                            # files by the name under which they were opened last
        self.certain, self.pending = dict(self.names), []  # names that are certain, and the changes of names after them

    def call(self, what, name, data):
        """One call of the program. A name is that in the folder; the folder itself has none."""
        if what == "open":
            number = self.names.get(name)
            if number is None:
                self.contents.append(b"")
                self.synced.append(b"")
                number = len(self.contents) - 1
                self.change(lambda names: names.__setitem__(name, number))
            self.contents[number], self.opened[name] = b"", number
        elif what == "write":
            self.contents[self.opened[name]] += data
        elif what == "fsync" and name:
            self.synced[self.opened[name]] = self.contents[self.opened[name]]
        elif what == "fsync":
            self.certain, self.pending = dict(self.names), []
        elif what == "rename":
            old, new = name
            self.change(lambda names: names.__setitem__(new, names.pop(old, LOST)))
        elif what == "unlink":
            self.change(lambda names: names.pop(name, None))

    def change(self, act):
        act(self.names)
        self.pending.append(act)

    def possible(self):
        """Every folder that a cut could leave now."""
        found = set()
        for count in range(len(self.pending) + 1):
            names = dict(self.certain)
            for act in self.pending[:count]:
                act(names)
            found |= self.filled(sorted(names.items()))
        return found

    def filled(self, names):
        folders = {()}
        for name, number in names:
            if number == LOST:
                continue
            written, certain = self.contents[number], self.synced[number]
            contents = {certain} if written == certain else {certain, b"", written[:len(written) // 2], written}
            folders = {folder + ((name, content),) for folder in folders for content in contents}
        return folders


def within(folder, name):
    """The name of a file in the folder, or none for the folder itself; of a rename both."""
    if ">" in name:
        return tuple(within(folder, each) for each in name.split(">"))
    return os.path.relpath(name, folder) if name != folder else ""


def replay(bench, folder, begin, act):
    """For each step of the act: the folders that a cut could leave, and whether a byte of the answer has gone out before."""
    copy, log = bench.folder(folder), os.path.join(bench.work, f"calls-{bench.made}")
    with open(os.path.join(copy, "card"), "rb") as file:
        disk = Disk({"card": file.read()})
    with bench.sit(copy, log=log) as sitting:
        begin(sitting)
        before = len(sitting.settled())
        act(sitting)
        steps = sitting.settled()
    sending, found = False, []
    for number, what, name, data in steps:
        if number > before:
            found.append((disk.possible(), sending))
            sending = sending or what == "send"
        if what in ("send", "sent"):
            continue
        disk.call(what, within(copy, name), data)
    return found


def start_on(bench, files):
    folder = bench.folder()
    os.mkdir(folder, 0o700)
    for name, content in files:
        with open(os.path.join(folder, name), "wb") as file:
            file.write(content)
    return folder


def every_cut(bench):
    """Wrong PIN and LOAD. Gives the number of folders that were tried."""
    folder, pairing = initialised(bench)
    tries = lambda sitting: (sitting.begin(pairing), sitting.client.tries()[0])[1]
    key_uid = lambda sitting: sitting.begin()["key_uid"]
    with bench.sit(bench.folder(folder)) as sitting:
        old = key_uid(sitting)
    loaded = []
    load = lambda sitting: loaded.append(sitting.client.load(0x03, bytes(64)))
    tried = judged(bench, replay(bench, folder, lambda s: s.begin(pairing), lambda s: s.client.verify(WRONG_PIN)), tries, 3, 2, "a wrong PIN")
    steps = replay(bench, folder, lambda s: s.begin(pairing, PIN), load)
    return tried + judged(bench, steps, key_uid, old, loaded[0], "LOAD")


def looked_at(bench, files, look, what):
    with bench.sit(start_on(bench, files)) as sitting:
        try:
            return look(sitting)
        except TimeoutError:
            check(False, f"{what}: on what a power cut could leave the program says: {sitting.program.text()}")


def judged(bench, steps, look, before, after, what):
    """Each folder is the card before or after; and the one after, once a byte of the answer is out."""
    seen = {}
    for files, sending in steps:
        check(files, "a cut leaves no folder at all")
        for each in files:
            if each not in seen:
                seen[each] = looked_at(bench, each, look, what)
            check(seen[each] in (before, after), f"{what}: after a power cut the card is neither the one before nor the one after")
            check(not sending or seen[each] == after, f"{what}: an answer goes out, and a power cut could still take the command back")
    same(set(seen.values()), {before, after}, f"what power cuts leave of {what}")
    return len(seen)
