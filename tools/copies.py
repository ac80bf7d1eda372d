"""Copies of this checkout, in which libraries are proved side by side.

While `rt` proves a library it lets nobody else work in the folders of the libraries below it. What it built of a library
is the same in each checkout of the same text, and a stamp beside it says of which text it is. So each library is proved
in one copy, and what was built goes to the others.
"""
import os
import pathlib
import shutil

TOP = pathlib.Path(__file__).resolve().parent.parent
FILES = ("crates.txt", "HANDLES")
OUT = "out"
# In a crate's folder: the library that was built, and the work that a later check goes on with.
BUILT, KEPT = pathlib.Path(OUT, "rlib"), pathlib.Path(OUT, "incremental")


def make_copy(top: pathlib.Path) -> None:
    """Makes the crates' sources at this place those of this checkout; what was made of earlier ones there stays."""
    top.mkdir(parents=True, exist_ok=True)
    for name in FILES:
        shutil.copy2(TOP / name, top / name)
    names = {it.name for it in (TOP / "crates").iterdir()}
    for old in (top / "crates").glob("*"):
        for part in old.iterdir() if old.name in names else [old]:
            if part.name != OUT:
                remove(part)
    shutil.copytree(TOP / "crates", top / "crates", ignore=shutil.ignore_patterns(OUT), dirs_exist_ok=True)


def remove(path: pathlib.Path) -> None:
    if path.is_dir():
        shutil.rmtree(path)
    else:
        path.unlink(missing_ok=True)


def stamp(built: pathlib.Path) -> str:
    """Which text this library was built of; nothing where it isn't whole."""
    file = built / "stamp"
    return file.read_text() if file.is_file() else ""


def link(old: pathlib.Path, new: pathlib.Path) -> None:
    """Puts this folder's files in another place, whole or not at all; `rt` makes such files anew and changes none."""
    part = new.with_name(new.name + ".part")
    remove(part)
    part.parent.mkdir(parents=True, exist_ok=True)
    shutil.copytree(old, part, copy_function=os.link)
    remove(new)
    part.rename(new)


class Copies:
    """So many places in which libraries are proved; this checkout is the first."""

    def __init__(self, folder: pathlib.Path, number: int) -> None:
        self.folder = folder
        self.places = [TOP] + [folder / str(it) for it in range(1, number)]
        self.free = list(self.places)
        self.taken: dict[str, pathlib.Path] = {}
        for top in self.places[1:]:
            make_copy(top)
        for built in sorted((TOP / "crates").glob(f"*/{BUILT}")):
            self.share(built.parent.parent.name, TOP)

    def remove(self) -> None:
        shutil.rmtree(self.folder, ignore_errors=True)

    def take(self, name: str) -> pathlib.Path:
        """The folder of this crate in a place in which nothing goes on; `give` gives the place back."""
        self.taken[name] = self.free.pop(0)
        self.move_kept(name, self.taken[name])
        return self.taken[name] / "crates" / name

    def give(self, name: str) -> None:
        """What was built there goes to all places, and what was kept for later checks to this checkout."""
        place = self.taken.pop(name)
        self.share(name, place)
        self.move_kept(name, TOP)
        self.free.append(place)

    def share(self, name: str, place: pathlib.Path) -> None:
        built = place / "crates" / name / BUILT
        for other in (it / "crates" / name / BUILT for it in self.places if stamp(built)):
            if stamp(other) != stamp(built):
                link(built, other)

    def move_kept(self, name: str, place: pathlib.Path) -> None:
        new = place / "crates" / name / KEPT
        for old in (it / "crates" / name / KEPT for it in self.places if it != place):
            if old.is_dir():
                remove(new)
                new.parent.mkdir(parents=True, exist_ok=True)
                old.rename(new)
