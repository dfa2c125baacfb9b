"""Makes the disks that a power loss in a run of the program may leave, and runs the same command again on each.

What it does and how it judges is told in bench/power.sh, which calls it:

power.py PROGRAM SCRATCH NAME START WORDS..
"""
import multiprocessing
import os
import random
import re
import shutil
import subprocess
import sys
from collections import Counter

STAGE = "tree/nix/var/nixswitch.stage"
MANAGER = "manager"
DRAFT = "manager.new"
STORE = "tree/nix/store"
MENU = "tree/boot/loader"
PROFILES = "tree/nix/var/nix/profiles"

# How many states of each moment have their folders' moments by the throw of a die.
DRAWS = 4

# How many different findings of one kind are told.
MOST_TOLD = 3

# The calls that change a file or a folder, or that say when something is on the disk.
CALLS = (
    "open,openat,openat2,creat,write,writev,pwrite64,pwritev,pwritev2,truncate,ftruncate,fallocate,copy_file_range,"
    "sendfile,splice,rename,renameat,renameat2,link,linkat,symlink,symlinkat,unlink,unlinkat,rmdir,mkdir,mkdirat,"
    "fsync,fdatasync,sync,syncfs,sync_file_range,msync"
)


# --- The disk, and what stood on it at each moment of a run ---


class File:
    """A file: its bytes after each change, each with the moment of the change, and the moments at which it was synced."""

    def __init__(self, moment, data):
        self.versions = [(moment, data)]
        self.syncs = [moment] if moment == 0 else []

    def now(self):
        return self.versions[-1][1]

    def at(self, moment):
        return [data for when, data in self.versions if when <= moment][-1]

    def synced_at(self, moment):
        """The bytes that the disk has for sure at this moment: none where the file was never synced."""
        last = max((when for when in self.syncs if when <= moment), default=None)
        return b"" if last is None else self.at(last)


class Folder:
    """A folder: what each change made of one of its names, and the moments at which it was synced."""

    def __init__(self, moment):
        self.changes = []
        self.syncs = [0] if moment == 0 else []

    def at(self, moment):
        names = {}
        for when, name, what in self.changes:
            if when > moment:
                break
            if what is None:
                names.pop(name, None)
            else:
                names[name] = what
        return names

    def now(self):
        return self.at(float("inf"))

    def points(self, moment):
        """The moments to which this folder may go back at a moment: that of the last sync, and each change since."""
        least = max((when for when in self.syncs if when <= moment), default=0)
        later = {when for when, _, _ in self.changes if least < when <= moment}
        return [least] + sorted(later)


class Disk:
    """A root folder through a run. Moment 0 is the one before it, when everything was on the disk."""

    def __init__(self, root):
        self.moment = 0
        self.top = self.load(root)
        self.put_done = None
        self.changed = []

    def load(self, place):
        folder = Folder(0)
        for entry in sorted(os.scandir(place), key=lambda entry: entry.name):
            if entry.is_dir(follow_symlinks=False):
                what = self.load(entry.path)
            else:
                with open(entry.path, "rb") as file:
                    what = File(0, file.read())
            folder.changes.append((0, entry.name, what))
        return folder

    def find(self, path):
        what = self.top
        for name in [] if path == "." else path.split("/"):
            what = what.now()[name]
        return what

    def folder_of(self, path):
        above, _, name = path.rpartition("/")
        return self.find(above or "."), name

    def set(self, path, what):
        folder, name = self.folder_of(path)
        folder.changes.append((self.moment, name, what))
        if path != STAGE:
            self.changed.append(self.moment)

    def folders(self):
        """Each folder that was there at any time, with its path at that time."""
        found = {}
        ahead = [(self.top, ".")]
        for folder, path in ahead:
            found[folder] = path
            for _, name, what in folder.changes:
                if isinstance(what, Folder) and what not in found:
                    ahead.append((what, name if path == "." else path + "/" + name))
        return found

    def everything(self):
        """Each folder and each file that was there at any time."""
        found = set(self.folders())
        return found | {what for folder in found for _, _, what in folder.changes if isinstance(what, File)}

    def kept_for_sure(self):
        """Where folders are kept in order, the last moment whose change a sync has kept, with all before it."""
        kept = 0
        for folder in self.folders():
            for sync in folder.syncs:
                kept = max([kept] + [when for when, _, _ in folder.changes if when <= sync])
        return kept

    def state(self, folder_at, data_of):
        """The files, each with its bytes, and the folders, each with None, where each folder stands at a moment."""
        state = {}

        def walk(folder, path):
            for name, what in folder.at(folder_at(folder)).items():
                place = path + name
                if isinstance(what, Folder):
                    state[place] = None
                    walk(what, place + "/")
                else:
                    state[place] = data_of(what)

        walk(self.top, "")
        return state


# --- Reading the calls of a run ---


def words_of(text):
    """The arguments of a call as strace writes them: those in quotes as bytes, those in brackets as they stand."""
    words, at, depth, word = [], 0, 0, ""
    while at < len(text):
        if text[at] == '"':
            end = text.index('"', at + 1)
            word += text[at : end + 1]
            at = end + 1
            continue
        if text[at] == "<" and ">" in text[at:]:
            end = text.index(">", at)
            word += text[at : end + 1]
            at = end + 1
            continue
        depth += (text[at] in "[{") - (text[at] in "]}")
        if text[at] == "," and depth == 0:
            words.append(word.strip())
            word = ""
        else:
            word += text[at]
        at += 1
    return words + [word.strip()]


def from_hex(text):
    return bytes.fromhex(text.replace("\\x", ""))


class Reader:
    """Reads the calls of a run and has a disk follow them."""

    def __init__(self, disk, root):
        self.disk = disk
        self.root = root
        self.ends = {}

    def below(self, path):
        """The path below the root, or None for a place outside it."""
        path = os.path.normpath(path)
        if path == self.root:
            return "."
        return path[len(self.root) + 1 :] if path.startswith(self.root + "/") else None

    def path_of(self, word, folder=None):
        path = os.fsdecode(from_hex(word.strip('"')))
        if folder is not None and not path.startswith("/"):
            path = os.path.join(self.open_at(folder), path)
        return self.below(path)

    def open_at(self, word):
        """The path that stands behind an open file's number."""
        found = re.search(r"<((?:\\x[0-9a-f]{2})*)>", word)
        return os.fsdecode(from_hex(found.group(1))) if found else ""

    def read(self, line):
        found = re.match(r"(?:\d+ +)?([a-z_0-9]+)\((.*)\) += (-?\d+)", line)
        if not found or found.group(3) == "-1":
            return
        kind, words, answer = found.group(1), words_of(found.group(2)), int(found.group(3))
        if '"...' in line:
            raise SystemExit("strace cut a text short: " + line[:200])
        self.disk.moment += 1
        getattr(self, "on_" + kind, self.on_other)(words, answer, line)

    def on_other(self, words, answer, line):
        if any(self.below(self.open_at(word)) is not None for word in words):
            raise SystemExit("a call that isn't known here: " + line[:200])

    def opened(self, path, flags, line):
        if path is None or not re.search("O_(WRONLY|RDWR|CREAT|TRUNC)", flags):
            return
        folder, name = self.disk.folder_of(path)
        if name not in folder.now():
            self.disk.set(path, File(self.disk.moment, b""))
        elif "O_TRUNC" in flags:
            self.write(path, b"")
        number = line.rpartition("= ")[2].split("<")[0]
        self.ends[number] = None if "O_APPEND" in flags else 0

    def on_openat(self, words, answer, line):
        self.opened(self.path_of(words[1], words[0]), words[2], line)

    def on_open(self, words, answer, line):
        self.opened(self.path_of(words[0]), words[1], line)

    def write(self, path, data):
        self.disk.find(path).versions.append((self.disk.moment, data))

    def on_write(self, words, answer, line):
        number = words[0].split("<")[0]
        data = from_hex(words[1].strip('"'))[:answer]
        if number == "1":
            if data.endswith(b"done\n"):
                self.disk.put_done = self.disk.moment
            return
        path = self.below(self.open_at(words[0]))
        if path is None:
            return
        before = self.disk.find(path).now()
        at = self.ends[number]
        if at is None:
            at = len(before)
        else:
            self.ends[number] = at + answer
        self.write(path, before[:at] + data + before[at + answer :])

    def sync(self, words):
        path = self.below(self.open_at(words[0]))
        if path is not None:
            self.disk.find(path).syncs.append(self.disk.moment)

    def on_fsync(self, words, answer, line):
        self.sync(words)

    def on_fdatasync(self, words, answer, line):
        self.sync(words)

    def on_sync(self, words, answer, line):
        def walk(folder):
            folder.syncs.append(self.disk.moment)
            for what in folder.now().values():
                if isinstance(what, Folder):
                    walk(what)
                else:
                    what.syncs.append(self.disk.moment)

        walk(self.disk.top)

    def on_syncfs(self, words, answer, line):
        if self.below(self.open_at(words[0])) is not None:
            self.on_sync(words, answer, line)

    def renamed(self, old, new):
        if old is None and new is None:
            return
        what = self.disk.find(old)
        self.disk.set(old, None)
        self.disk.set(new, what)

    def on_rename(self, words, answer, line):
        self.renamed(self.path_of(words[0]), self.path_of(words[1]))

    def on_renameat(self, words, answer, line):
        self.renamed(self.path_of(words[1], words[0]), self.path_of(words[3], words[2]))

    def on_renameat2(self, words, answer, line):
        self.on_renameat(words, answer, line)

    def put(self, path, what):
        if path is not None:
            self.disk.set(path, what)

    def on_mkdir(self, words, answer, line):
        self.put(self.path_of(words[0]), Folder(self.disk.moment))

    def on_mkdirat(self, words, answer, line):
        self.put(self.path_of(words[1], words[0]), Folder(self.disk.moment))

    def on_unlink(self, words, answer, line):
        self.put(self.path_of(words[0]), None)

    def on_rmdir(self, words, answer, line):
        self.put(self.path_of(words[0]), None)

    def on_unlinkat(self, words, answer, line):
        self.put(self.path_of(words[1], words[0]), None)


# --- What a root holds, and how it is judged ---


def read_root(root):
    """The files of a root, each with its bytes, and its folders, each with None."""
    state = {}
    for place, folders, files in os.walk(root):
        below = os.path.relpath(place, root)
        for name in folders:
            state[os.path.normpath(os.path.join(below, name))] = None
        for name in files:
            with open(os.path.join(place, name), "rb") as file:
                state[os.path.normpath(os.path.join(below, name))] = file.read()
    return state


def calls_of(manager):
    """Of a manager's file each line that tells a state, and of its journal which units were stopped, and which were
    called in another way under which definitions: each once, in no order."""
    lines = set()
    for line in manager.decode().splitlines():
        words = line.split(" ")
        if words[0] == "stop":
            lines.add("stopped " + words[1])
        elif words[0] in ("reload", "restart", "start"):
            lines.add("called " + " ".join(words[1:]))
        else:
            lines.add(line)
    return lines


def leaves_of(state):
    """The files of a state but for the stage, the manager's and its draft: an empty folder is no leaf."""
    return {place: data for place, data in state.items() if data is not None and place not in (STAGE, MANAGER, DRAFT)}


def difference(wanted, end, units):
    """The first place at which an end differs from the wanted one. Of the manager's file the states and the calls are
    compared, where the units count."""
    ours, theirs = leaves_of(wanted), leaves_of(end)
    for place in sorted(ours.keys() | theirs.keys()):
        if place not in theirs:
            return place + " is missing"
        if place not in ours:
            return place + " is left"
        if ours[place] != theirs[place]:
            return place + " is another"
    odd = sorted(calls_of(wanted.get(MANAGER, b"")) ^ calls_of(end.get(MANAGER, b""))) if units else []
    return "the manager: " + odd[0] if odd else None


def lines_of(state, place):
    return state.get(place, b"").decode(errors="replace").splitlines()[1:]


def menu_fault(first, last, state):
    """What keeps a firmware from booting by the menu of a disk, if anything does."""
    for place in sorted(state):
        if place.startswith(MENU + "/") and state[place] is not None:
            if state[place] != first.get(place) and state[place] != last.get(place):
                return "the menu has another " + place[len(MENU) + 1 :]
    for place in sorted(first):
        found = re.fullmatch(MENU + r"/entries/nixos-generation-(\d+)\.conf", place)
        if found and "%s/system-%s-link" % (PROFILES, found.group(1)) in state and place not in state:
            return "the menu has lost " + place[len(MENU) + 1 :]
    for line in lines_of(state, MENU + "/loader.conf"):
        if line.startswith("default ") and "%s/entries/%s" % (MENU, line[8:]) not in state:
            return "the boot loader boots no entry"
    return None


# --- The states of a run ---


def more_than(old, new):
    """The bytes that new ones have more than old ones, after which they stand, or all of them where they don't."""
    return (old, new[len(old) :]) if new.startswith(old) else (b"", new)


def half_of(old, new):
    """Old bytes, and half of what new ones have more."""
    start, more = more_than(old, new)
    return start + more[: len(more) // 2]


def lines_but_last(old, new):
    """Old bytes, and all lines but the last of what new ones have more."""
    start, more = more_than(old, new)
    return start + b"".join(more.splitlines(keepends=True)[:-1])


# What may have come to the disk of bytes that weren't synced: none, half of them, and all lines but the last.
PICKS = (lambda old, new: old, half_of, lines_but_last)


def unsynced(disk, moment):
    """The files that stand at a moment and whose bytes the disk may lack, each with whether it came there just then."""
    found = {}

    def walk(folder):
        came = {name for when, name, _ in folder.changes if when == moment}
        for name, what in folder.at(moment).items():
            if isinstance(what, Folder):
                walk(what)
            elif what.at(moment) != what.synced_at(moment):
                found[what] = name in came

    walk(disk.top)
    return found


def ordered_states(disk):
    """The first model: all folders stand as at one moment, and a file that wasn't synced lacks its bytes or some of them:
    all such files do, or one alone, once when it comes to its place and once at the end."""
    kept = disk.kept_for_sure()
    for moment in range(disk.moment + 1):
        late = disk.put_done is not None and moment >= kept
        yield moment, late, disk.state(lambda folder: moment, lambda file: file.at(moment))
        lacking = unsynced(disk, moment)
        for pick in PICKS:
            lost = {file: pick(file.synced_at(moment), file.at(moment)) for file in lacking}
            yield moment, late, disk.state(lambda folder: moment, lambda file: lost.get(file, file.at(moment)))
            for one, came in lacking.items():
                if came or moment == disk.moment:
                    yield moment, late, disk.state(lambda folder: moment, lambda file: lost[one] if file is one else file.at(moment))


def chosen_points(disk, moment, draws, picks):
    """Moments to which some folders went back, while all others stand as they were last: one folder alone behind the
    others or ahead of them, all folders of one place so, and some by the throw of a die."""
    folders = disk.folders()
    points = {folder: folder.points(moment) for folder in folders}
    early = {folder: points[folder][0] for folder in folders}
    yield early
    for folder in folders:
        for point in points[folder]:
            yield {folder: point}
            yield early | {folder: point}
    places = {}
    for folder, path in folders.items():
        places.setdefault("/".join(path.split("/")[:2]), []).append(folder)
    for place in places.values():
        for point in sorted({point for folder in place for point in points[folder]}):
            here = {folder: max(early[folder], point) for folder in place}
            yield here
            yield early | here
    for _ in range(draws):
        yield {folder: picks.choice(points[folder]) for folder in folders}


def apart_states(disk, draws):
    """The second model: each folder stands as at a moment of its own, no earlier than its last sync."""
    picks = random.Random(1)
    for moment in sorted(set(disk.changed) | {disk.moment}):
        late = disk.put_done is not None and moment >= disk.put_done
        for chosen in chosen_points(disk, moment, draws, picks):
            yield moment, late, disk.state(lambda folder: chosen.get(folder, moment), lambda file: file.at(moment))


class Trial:
    """One root, whose states are tried."""

    def __init__(self, program, scratch, name, start, words):
        self.program = program
        self.scratch = scratch
        self.name = name
        self.words = words
        self.start = start
        self.store = os.path.join(scratch, "store")
        self.further = None

    def run(self, root, before=()):
        with open(os.devnull, "wb") as nowhere:
            done = subprocess.run([*before, self.program, root, *self.words], stdout=nowhere, stderr=nowhere)
        return done.returncode

    def trace(self):
        """Runs the command uncut, and has a disk follow its calls."""
        root = os.path.join(self.scratch, "root")
        calls = os.path.join(self.scratch, "calls")
        for place in root, self.store:
            shutil.rmtree(place, ignore_errors=True)
        shutil.copytree(self.start, root)
        shutil.copytree(os.path.join(self.start, STORE), self.store)
        self.first = read_root(root)
        disk = Disk(root)
        strace = ["strace", "-f", "-y", "-xx", "-s", "100000000", "-o", calls, "-e", "trace=" + CALLS]
        self.status = self.run(root, strace)
        reader = Reader(disk, root)
        with open(calls, encoding="ascii") as lines:
            for line in lines:
                reader.read(line)
        self.last = read_root(root)
        if list(self.words) == ["rollback"]:
            self.further_status = self.run(root)
            self.further = read_root(root)
        self.put_done = disk.put_done
        followed = disk.state(lambda folder: disk.moment, lambda file: file.now())
        if followed != self.last:
            raise SystemExit("the calls don't lead to what the run has left: %s" % difference(self.last, followed, True))
        return disk

    def make(self, root, state):
        """Makes a root of a state. The store, in which nothing is ever changed, is linked."""
        shutil.rmtree(root, ignore_errors=True)
        os.mkdir(root)
        for place, data in sorted(state.items()):
            path = os.path.join(root, place)
            if data is None:
                os.mkdir(path)
            elif place.startswith(STORE + "/"):
                os.link(os.path.join(self.store, place[len(STORE) + 1 :]), path)
            else:
                with open(path, "wb") as file:
                    file.write(data)

    def rerun(self, state, units):
        """Runs the same command on a state, and says how it ended. Where a rollback had come to its end, a further one is wanted."""
        root = os.path.join(self.scratch, "root-%d" % os.getpid())
        self.make(root, state)
        over = self.further is not None and difference(self.last, state, units) is None
        last, wanted, word = (self.further, self.further_status, "further the same") if over else (self.last, self.status, "same")
        status = self.run(root)
        if status not in ((wanted,) if units else (0, 4)):
            return "stuck with %d" % status
        differs = difference(last, read_root(root), units)
        return "another end: " + differs if differs else word

    def verdicts(self, kept, state):
        """What is found of a state, each with the word by which it is counted."""
        found = [self.rerun(state, True)]
        fault = menu_fault(self.first, self.last, state)
        if fault:
            found.append("no boot: " + fault)
        if kept and difference(self.last, state, True):
            found.append("not kept: " + difference(self.last, state, True))
        if state.get(MANAGER) is not None:
            nothing = {place: data for place, data in state.items() if place != MANAGER}
            found.append("next boot " + self.rerun(nothing, False))
        return found

    def judge(self, model, states, pool):
        """Judges each state once, prints the counts, and says whether all are the same."""
        counts, places = Counter(), {}
        each = once(states)
        for moment, found in pool.imap(judged, ((self, *each_one) for each_one in each), chunksize=8):
            counts["states"] += 1
            for verdict in found:
                counts[verdict.split(":")[0]] += 1
                places.setdefault(verdict, moment)
        total = counts.pop("states")
        words = sorted(counts, key=lambda word: (not word.endswith("same"), word))
        print("  %-8s %5d states: %s" % (model, total, ", ".join("%d %s" % (counts[word], word) for word in words)))
        bad = [verdict for verdict in sorted(places, key=places.get) if not verdict.endswith("same")]
        told = Counter()
        for verdict in bad:
            told[verdict.split(":")[0]] += 1
            if told[verdict.split(":")[0]] <= MOST_TOLD:
                print("    first at call %d: %s" % (places[verdict], verdict))
        sys.stdout.flush()
        return not bad


def judged(work):
    trial, moment, kept, state = work
    return moment, trial.verdicts(kept, state)


def once(states):
    """Each state once. What a stage holds is never read, so only whether there is one counts of it."""
    seen = set()
    for moment, kept, state in states:
        stage = state.get(STAGE)
        key = hash((kept, stage is not None, tuple(sorted((place, data) for place, data in state.items() if place != STAGE))))
        if key not in seen:
            seen.add(key)
            yield moment, kept, state


def try_states(program, scratch, name, start, *words):
    trial = Trial(program, scratch, name, start, words)
    disk = trial.trace()
    syncs = Counter(type(what).__name__ for what in disk.everything() for when in what.syncs if when)
    print(
        "%s: status %d, %d calls, %d syncs of files and %d of folders"
        % (name, trial.status, disk.moment, syncs["File"], syncs["Folder"])
    )
    with multiprocessing.Pool(int(os.environ.get("JOBS", os.cpu_count()))) as pool:
        ordered = trial.judge("ordered", ordered_states(disk), pool)
        apart = trial.judge("apart", apart_states(disk, DRAWS), pool)
    return 0 if ordered and apart else 1


if __name__ == "__main__":
    sys.exit(try_states(*sys.argv[1:]))
