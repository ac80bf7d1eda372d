"""What crates.txt and the crates' folders say, for the tools of this folder."""
import dataclasses
import pathlib
import re

TOP = pathlib.Path(__file__).resolve().parent.parent
HEADING = re.compile(r"#\s*==\s*([^:]+?)\s*(?::\s*(.*?)\s*)?$")


@dataclasses.dataclass
class Group:
    """A heading of crates.txt, `# == name: about`, and the crates below it."""

    name: str
    about: str
    crates: list[str]


@dataclasses.dataclass
class Crate:
    name: str
    uses: list[str]
    """The repository's crates that stand in its line."""

    @property
    def folder(self) -> pathlib.Path:
        return TOP / "crates" / self.name

    @property
    def is_program(self) -> bool:
        return (self.folder / "src/main.rt").exists()

    def lines(self, *suffixes: str) -> int:
        """The lines of its files with these suffixes, in src/, specs/ and proofs/."""
        files = (it for part in ("src", "specs", "proofs") for it in (self.folder / part).rglob("*"))
        return sum(it.read_bytes().count(b"\n") for it in files if it.suffix in suffixes)

    def proof_seconds(self) -> float:
        """About how many processor seconds its proof takes from nothing; what was measured is mostly within a third."""
        return 9 + 0.09 * self.lines(".rt") + 0.003 * self.lines(".antt")

    def about(self) -> str:
        """The first line behind the title of its README.md, or nothing."""
        page = self.folder / "README.md"
        lines = [it for it in page.read_text().splitlines()[1:] if it.strip()] if page.is_file() else []
        return lines[0].strip() if lines and lines[0][0] not in "#|" else ""


def read() -> tuple[dict[str, Crate], list[Group]]:
    """The crates in their order, and the groups; the first group has no name, and the crates above all headings."""
    crates, groups = {}, [Group("", "", [])]
    for line in (TOP / "crates.txt").read_text().splitlines():
        if heading := HEADING.match(line):
            groups.append(Group(heading[1], heading[2] or "", []))
        head, colon, uses = line.partition("#")[0].partition(":")
        if colon:
            name = head.split()[0]
            crates[name] = Crate(name, uses.split())
            groups[-1].crates.append(name)
    for crate in crates.values():
        crate.uses = [it for it in crate.uses if it in crates]
    return crates, groups


def measured() -> dict[str, dict[str, tuple[float, str]]]:
    """By crate and kind of work, the processor seconds in bench/gate.table and the day on which they were measured."""
    rows: dict[str, dict[str, tuple[float, str]]] = {}
    table = TOP / "bench" / "gate.table"
    for line in table.read_text().splitlines() if table.exists() else []:
        if not line.startswith("#"):
            kind, name, seconds, day = line.split()
            rows.setdefault(name, {})[kind] = float(seconds), day
    return rows


def above(crates: dict[str, Crate]) -> dict[str, list[str]]:
    """The crates in whose lines each crate stands."""
    return {name: [it.name for it in crates.values() if name in it.uses] for name in crates}


def reach(names: list[str], edges) -> set[str]:
    """The names, and all that is reached from them along the edges."""
    seen, open_names = set(), list(names)
    while open_names:
        name = open_names.pop()
        if name not in seen:
            seen.add(name)
            open_names += edges(name)
    return seen


def below(crates: dict[str, Crate], names: list[str]) -> set[str]:
    """The crates that are named and all that they use, themselves or by others."""
    return reach(names, lambda it: crates[it].uses)
