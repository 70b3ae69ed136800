"""Folders: where an agent's commands look for files, as `cd`, `pushd`, `popd` and `source` set it in Soar."""
import os
from contextlib import contextmanager
from pathlib import Path


class Folders:
    """The stack of folders, the one at hand last. It begins with the folder of the agent's first file."""

    def __init__(self, first):
        self.stack = [first]

    @property
    def here(self):
        return self.stack[-1]

    def obey(self, command):
        """Obeys `cd`, `pushd` or `popd`, and returns what is wrong with it, or nothing."""
        if command.name == "popd":
            if len(self.stack) == 1:
                return "no `pushd` is left for this `popd`"
            self.stack.pop()
            return ""
        folder = joined(self.here, command.arguments[0]) if command.arguments else self.stack[0]
        if command.name == "cd":
            self.stack.pop()
        self.stack.append(folder)
        return "" if folder.is_dir() else f"there is no folder {folder}"

    @contextmanager
    def of(self, path, name):
        """Makes the folder of a file the one at hand while the file is read, if its name has a folder."""
        has_folder = len(Path(name).parts) > 1
        if has_folder:
            self.stack.append(path.parent)
        yield
        if has_folder and len(self.stack) > 1:
            self.stack.pop()

    def find(self, name):
        """Returns the path of a file: as Soar finds it, or as this program does, from where it was started."""
        path, started = joined(self.here, name), joined(Path(), name)
        return started if not path.is_file() and started.is_file() else path


def joined(folder, name):
    """Returns the path that a name has from a folder."""
    return Path(os.path.normpath(folder / name.replace("\\", "/")))
