"""What a certificate is judged on: an executable and a plan, with cells, or as one task sees them.

`report` and `cfg` know no cells and no tasks. For a certificate of `cellcert` they get the plan in
which each cell is a device, for one of `taskcert` the executable and the plan of the task's view.
"""
import json
import pathlib
import tempfile

from tcdlib import formats as readers
from tcdlib import plans
from tcdlib import program as tcd
from tcdlib.arguments import Refused
from tcdlib.frames import Listing
from tcdlib.sources import Unusable, bytes_of, shown


class Shared(Unusable):
    """An executable whose segments have more bytes than its file."""


def add_to(parser):
    """Adds --cells FILE and --tasks FILE TASK to the arguments of a script."""
    views = parser.add_mutually_exclusive_group()
    views.add_argument("--cells", metavar="FILE")
    views.add_argument("--tasks", nargs=2, metavar=("FILE", "TASK"))


def read(path, reader):
    """A file by its reader."""
    try:
        return reader(bytes_of(path))
    except readers.Bad as e:
        raise Unusable(f"{shown(path)}: bad {e} (docs/errors.md says what it means)") from None


def image_of(path):
    """The entry and the segments of an executable, which have no more bytes than its file.

    Else a small file would take minutes, and print megabytes.
    """
    entry, segments = read(path, readers.elf)
    if sum(len(held) for _, held in segments) > len(bytes_of(path)):
        raise Shared(f"{shown(path)}: its segments share bytes of the file")
    return entry, segments


def demand_bounded(path):
    """Raises Shared if segments share bytes. What else is wrong with an executable, tcd says."""
    try:
        image_of(path)
    except Shared:
        raise
    except Unusable:
        pass


def board_of(path):
    """The plan of a file as numbers, as tcd reads it; a key that is there twice is refused."""
    plans.demand_single_keys(path)
    return read(path, readers.plan)


class Judged:
    """An executable and a plan, and those that `report` and `cfg` get in their place.

    `elf` and `plan` are what `report` gets, `played` is the plan that `run` gets. Files that differ
    from the given ones are written into `folder`.
    """

    def __init__(self, program, elf, plan, folder, cells=None, tasks=None):
        self.program, self.given = program, (elf, plan)
        self.elf, self.plan, self.played = elf, plan, plan
        self.folder, self.cells, self.tasks = pathlib.Path(folder), cells, None
        #: what `cells` printed of a certificate
        self.line = None
        #: the switch routine's address in the view of a task
        self.routine = None
        plans.demand_single_keys(plan)
        demand_bounded(elf)
        if cells:
            board = board_of(plan)
            found = read(cells, lambda data: readers.cells(data, board))
            self.plan = self.put("cells.json", readers.with_cells(board, found))
        elif tasks:
            self.view(*tasks)

    def put(self, name, board):
        """Writes a plan."""
        path = self.folder / name
        path.write_text(json.dumps(board))
        return str(path)

    def view(self, file, task):
        """Takes the view of one task."""
        image, board = self.image(), self.board()
        found = read(file, lambda data: readers.tasks(data, board))
        if task not in [str(u) for u in range(len(found[2]))]:
            last = len(found[2]) - 1
            raise Unusable(f"--tasks {shown(file)} {shown(task)}: tasks are 0 to {last}")
        fault = readers.routine_fault(image, board, found)
        if fault is not None:
            raise Unusable(f"{shown(self.elf)}: the switch routine isn't there, see {fault:08X}")
        self.tasks, self.routine = (file, int(task), len(found[2])), found[0]
        self.plan = self.played = self.put(
            f"task{task}.json", readers.view_plan(board, found, int(task))
        )
        elf = self.folder / f"task{task}.elf"
        elf.write_bytes(readers.view_image(image, found, int(task)))
        self.elf = str(elf)

    def image(self):
        """The entry and the segments that are judged."""
        return image_of(self.elf)

    def board(self):
        """The plan that `run` gets, as numbers."""
        return board_of(self.played)

    def command(self):
        """The words of the command that makes certificates, and how many it makes."""
        if self.cells:
            return ["cellcert", *self.given, self.cells], 1
        if self.tasks:
            return ["taskcert", *self.given, self.tasks[0]], self.tasks[2]
        return ["cert", *self.given], 1

    def made(self, folder):
        """Makes the certificates in a folder: the judged one, the line, and whether it refuses."""
        command, count = self.command()
        certs = [f"{folder}/{number}.cert" for number in range(count)]
        line, is_refused = tcd.printed(self.program, *command, *certs)
        return certs[self.tasks[1] if self.tasks else 0], line.strip(), is_refused

    def made_again(self, cert):
        """The command that makes a certificate, its line, and whether it refuses."""
        command, count = self.command()
        certs = [f"{task}.cert" for task in range(count)] if self.tasks else [cert]
        with tempfile.TemporaryDirectory() as folder:
            _, line, is_refused = self.made(folder)
        return [self.program, *command, *certs], line, is_refused

    def report(self, cert):
        """What `report` prints, and whether it is refused. With cells, `cells` judges first."""
        if self.cells:
            line, is_refused = tcd.printed(self.program, "cells", *self.given, self.cells, cert)
            self.line = line.strip()
            if is_refused:
                return line, True
        return tcd.printed(self.program, "report", self.elf, self.plan, cert)

    def accepted(self, cert):
        """What `report` prints of a certificate; Refused unless it is accepted."""
        report, is_refused = self.report(cert)
        if is_refused:
            raise Refused(shown(report.strip()))
        return report

    def edges(self):
        """What `cfg` prints."""
        return tcd.printed(self.program, "cfg", self.elf, self.plan)[0]

    def listing(self):
        """The listing."""
        return Listing(tcd.printed(self.program, "dis", self.elf)[0])
