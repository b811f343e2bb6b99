"""What a loss of power may leave of files, by the calls that changed them and the syncs between these."""
import random


class Folder:
    """A folder: it has no bytes, and what is in it is there only where it is."""


class File:
    """A file: the bytes that a loss of power leaves, the changes since, and the bytes as they are read."""

    def __init__(self, data=b""):
        self.kept, self.doubted, self.now = data, [], data

    def change(self, at, data):
        self.doubted.append((at, data))
        self.now = changed(self.now, at, data)

    def sync(self):
        self.kept, self.doubted = self.now, []


def changed(old, at, data):
    """Bytes after a write; without data they get this length."""
    if data is None:
        return old[:at].ljust(at, b"\0")
    return old[:at].ljust(at, b"\0") + data + old[at + len(data) :]


class Pick:
    """What a loss of power keeps of what isn't synced: nothing, all of it, or by chance some of it, and some writes in part."""

    def __init__(self, seed):
        self.chance = random.Random(seed)
        self.share = self.chance.choice([0, 0.3, 0.5, 0.8, 1])

    def keeps(self):
        return self.chance.random() < self.share

    def bytes_of(self, file):
        data = file.kept
        for at, part in file.doubted:
            if self.keeps():
                whole = part is None or self.share == 1 or self.chance.random() < 0.5
                data = changed(data, at, part if whole else part[: self.chance.randrange(len(part) + 1)])
        return data


class Disk:
    """The files below a folder, which are there for sure at first, as the folder is. `without` leaves out the syncs of files, or of folders."""

    def __init__(self, root, files, without=""):
        self.root, self.without = root, without
        self.kept, self.doubted = {root: Folder()}, {}
        for name, data in files.items():
            path = f"{root}/{name}"
            self.kept[path] = File(data)
            for folder in self.above(path):
                self.kept[folder] = Folder()
        self.now = dict(self.kept)

    def above(self, path):
        """The folders above a file, to the root."""
        folder = path.rpartition("/")[0]
        while len(folder) >= len(self.root):
            yield folder
            folder = folder.rpartition("/")[0]

    def call(self, call, path, second="", data=None):
        """Takes one call that was made, in its order."""
        if call == "create":
            self.note(path, "link", path, File())
        elif call == "mkdir":
            self.note(path, "link", path, Folder())
        elif call == "unlink":
            self.note(path, "unlink", path, None)
        elif call == "rename":
            self.note(path, "rename", path, second)
        elif call == "truncate" and path in self.now:
            self.now[path].change(int(second or 0), None)
        elif call == "write" and path in self.now:
            self.now[path].change(second, data)
        elif call == "sync" or call == "datasync" and isinstance(self.now.get(path), File):
            # The bytes of a file and its length are there after an fdatasync too, the names in a folder needn't be.
            self.sync(path)

    def note(self, path, *change):
        if path == self.root or path.startswith(self.root + "/"):
            if change[0] == "rename":
                change = (*change, self.now[path])
            apply(self.now, change)
            self.doubted.setdefault(path.rpartition("/")[0], []).append(change)

    def sync(self, path):
        if isinstance(self.now.get(path), File):
            if self.without != "files":
                self.now[path].sync()
        elif self.without != "folders":
            for change in self.doubted.pop(path, []):
                apply(self.kept, change)

    def after(self, pick):
        """The bytes of each file that is left, by its name below the root."""
        names = dict(self.kept)
        for changes in self.doubted.values():
            for change in changes:
                if pick.keeps():
                    apply(names, change)
        return {path[len(self.root) + 1 :]: pick.bytes_of(it) for path, it in names.items() if isinstance(it, File) and all(folder in names for folder in self.above(path))}


def apply(names, change):
    kind, path, *more = change
    if kind == "link":
        names[path] = more[0]
        return
    names.pop(path, None)
    if kind == "rename":
        names[more[0]] = more[1]
