"""Asks a warehouse of the Star Schema Benchmark, makes one and loads it, by the library of `c/ssbcube.h`.

    import ssbcube
    with ssbcube.open("star.dev") as star:
        star.load("lineorder.tbl", first=1)
        for row in star.query(by=["d_year"], agg=["sum:revenue", "avg:quantity"], where=["c_region=ASIA"]):
            print(row["d_year"], row["sum(revenue)"], row["avg(quantity)"])

The shared library is `libssbcube.so`, which `c/build.sh` links, or the one that the variable SSBCUBE_LIBRARY names. `query`, `report`,
`load` and `create` are its calls: each opens the file, holds the lock that the program ssbcube takes too, and closes it. A query maps the
file. A change is a journal of writes and syncs, which is applied to the file here, in order, once the library has all of it: where it
refuses, the file stays as it was, and where the process ends meanwhile, the warehouse has the first batches of the load, maybe none.

The library has no call for these, so they run the program ssbcube, `ssbcube` on the path or the one that the variable SSBCUBE names:
`status` (also within `open`, and within `load` where its number is left out), `merge`, `run`, and `create` by a number of rows.

A row is a dict by the names of the report's header: a member is a str, and None for ALL; a count, sum, minimum or maximum is an int, an
average a Fraction, exactly.
"""
import builtins
import ctypes
import fcntl
import json
import mmap
import os
import subprocess
from fractions import Fraction

SECTOR = 512
MOST_BATCH_ROWS = 65536

# The names of the faults, by their numbers from 1.
FAULTS = (
    "Memory Device Failed Full NotFormatted AlreadyFormatted BadLayout DeviceSize FieldCount BadNumber FieldTooLong DuplicateKey"
    " HierarchyBroken ReservedMember UnknownCustomer UnknownSupplier UnknownPart UnknownDate SumRange TooManyRows TooManyBatches"
    " Repeated Gap BadQuery NoSuchPrefix TooManyCells TooManyMembers Worn Input Output NotRunning TooManyAdditions"
).split()


class Refused(Exception):
    """What was refused: its fault, such as 24 and BadQuery, and the explanation after it."""

    def __init__(self, number, name, said):
        super().__init__(said)
        self.number, self.name = number, name


def fault(number, said=""):
    """The refusal of a number of a fault."""
    name = FAULTS[number - 1]
    return Refused(number, name, f"fault {number} {name}" + (said and f": {said}"))


class Library:
    """The shared library."""

    def __init__(self, path=None):
        self.calls = ctypes.CDLL(path or os.environ.get("SSBCUBE_LIBRARY", "libssbcube.so"))

    def text(self, name, *given):
        """The bytes of a report."""
        return self.handed(name, given, room=1 << 16)

    def journal(self, name, *given, room):
        """The bytes of a journal, with the line of the fault where it is refused."""
        message = bytearray(80)
        try:
            return self.handed(name, given, words_of(message), room)
        except Refused as refused:
            said = bytes(message).partition(b"\0")[0].decode(errors="replace")
            raise Refused(refused.number, refused.name, said or str(refused)) from None

    def handed(self, name, given, more=(), room=0):
        """What a call gives: it is made once more with so much room where there was too little. Refused at a fault."""
        call = getattr(self.calls, name)
        call.restype = ctypes.c_int64
        words = [word for value in given for word in words_of(value)]
        while True:
            out = bytearray(room)
            length = call(*words, *words_of(out), *more)
            if length < 0:
                raise fault(-length)
            if length <= room:
                return memoryview(out)[:length]
            room = length


def words_of(value):
    """What C is passed of a value: the address of bytes and how many there are, or a number."""
    if isinstance(value, (ctypes.c_uint32, ctypes.c_int64)):
        return (value,)
    if isinstance(value, bytes):
        return ctypes.c_char_p(value), ctypes.c_size_t(len(value))
    return ctypes.byref((ctypes.c_char * len(value)).from_buffer(value)), ctypes.c_size_t(len(value))


library = None


def loaded_library():
    """The library, which is loaded at the first call."""
    global library
    library = library or Library()
    return library


class Locked:
    """The file of a warehouse, open and locked against programs that write it, or against all others."""

    def __init__(self, path, flags, lock):
        self.path = path
        try:
            self.fd = os.open(path, flags, 0o666)
        except OSError as error:
            raise fault(2, error) from None
        try:
            fcntl.flock(self.fd, lock | fcntl.LOCK_NB)
        except OSError:
            os.close(self.fd)
            raise fault(2, f"{path}: another program has it open") from None

    def __enter__(self):
        return self

    def __exit__(self, *_):
        os.close(self.fd)

    def image(self):
        """Its bytes, mapped: what is written to them goes nowhere."""
        if os.fstat(self.fd).st_size == 0:
            return bytearray()
        return mmap.mmap(self.fd, 0, access=mmap.ACCESS_COPY)

    def apply(self, journal):
        """Gives it the calls of a journal, in order. An OSError where one fails: the file is then as a crash may leave it."""
        at = 0
        while at < len(journal):
            sector = int.from_bytes(journal[at:at + 4], "little")
            at += 4
            if sector == 0xFFFFFFFF:
                os.fsync(self.fd)
                continue
            done = 0
            while done < SECTOR:
                done += os.pwrite(self.fd, journal[at + done:at + SECTOR], sector * SECTOR + done)
            at += SECTOR


def run(*words, program=None):
    """Runs a command of the program, and gives what it prints; Refused where it refuses."""
    program = program or os.environ.get("SSBCUBE", "ssbcube")
    done = subprocess.run([program, *map(str, words)], capture_output=True)
    if done.returncode == 0:
        return done.stdout
    said = done.stderr.decode(errors="replace").strip()
    found = said.split()[1:3] if said.startswith("fault ") else [None, None]
    raise Refused(found[0] and int(found[0]), found[1], said)


def open(path):
    """The warehouse in a file, which has to be one."""
    star = Warehouse(path)
    star.status()
    return star


def create(path, tables, rows=None, sectors=None):
    """Makes a warehouse of the dimension tables in a folder, with room for so many fact rows, or of so many sectors.

    The file is absent or empty before, or has so many sectors and no warehouse. At a refusal a file that was absent or empty is removed."""
    if sectors is None:
        run("create", path, "--tables", tables, "--rows", rows)
        return Warehouse(path)
    texts = [read(os.path.join(tables, f"{name}.tbl")) for name in ("customer", "supplier", "part", "date")]
    with Locked(path, os.O_RDWR | os.O_CREAT, fcntl.LOCK_EX) as file:
        is_new = os.fstat(file.fd).st_size == 0
        try:
            if is_new:
                os.ftruncate(file.fd, sectors * SECTOR)
            image = file.image()
            if len(image) != sectors * SECTOR:
                raise fault(8, f"{path}: it has {len(image)} bytes")
            if any(image[:2 * SECTOR]):
                raise fault(6, f"{path}: its first two sectors are not all zero")
            file.apply(loaded_library().journal("ssbcube_create", image, *texts, room=1 << 20))
        except BaseException:
            if is_new:
                os.remove(path)
            raise
    keep_name(path)
    return Warehouse(path)


def keep_name(path):
    """Has the folder of a new file keep its name on the disk."""
    folder = os.open(os.path.dirname(path) or ".", os.O_RDONLY)
    try:
        os.fsync(folder)
    finally:
        os.close(folder)


def read(path):
    """The bytes of a table."""
    try:
        with builtins.open(path, "rb") as file:
            return file.read()
    except OSError as error:
        raise fault(29, error) from None


class Warehouse:
    """A warehouse in a file."""

    def __init__(self, path):
        self.path = path

    def __enter__(self):
        return self

    def __exit__(self, *_):
        return None

    def load(self, *files, first=None, rows=None):
        """Loads fact tables, in batches from a number on, the next one if left out; gives how many batches there are.

        A batch whose number is there already is passed over where it has exactly these rows. All batches are loaded, or none."""
        first = self.status()["batches"] + 1 if first is None else first
        text = b"\n".join(table[:-1] if table.endswith(b"\n") else table for table in filter(None, map(read, files)))
        cut = ctypes.c_uint32(first), ctypes.c_uint32(MOST_BATCH_ROWS if rows is None else rows)
        with Locked(self.path, os.O_RDWR, fcntl.LOCK_EX) as file:
            room = (1 << 20) + 2 * len(text)
            file.apply(loaded_library().journal("ssbcube_load", file.image(), *cut, text, room=room))
        return self.status()["batches"]

    def query(self, agg=("count",), by=(), where=(), set=None, as_of=None):
        """The rows of an ad-hoc query: aggregates such as "sum:revenue", columns, conditions such as "d_year=1997"."""
        if any("\n" in condition for condition in where):
            raise fault(24, "a condition is one line")
        words = [set or "", ",".join(by), ",".join(agg), "\n".join(where)]
        return self.rows("ssbcube_cube", *words, as_of=as_of)

    def report(self, number, as_of=None):
        """The rows of a query of the benchmark, such as "3.1"."""
        return self.rows("ssbcube_report", number, as_of=as_of)

    def rows(self, call, *words, as_of=None):
        """The rows that a call of the library reports."""
        prefix = ctypes.c_int64(-1 if as_of is None else as_of)
        with Locked(self.path, os.O_RDONLY, fcntl.LOCK_SH) as file:
            text = loaded_library().text(call, file.image(), *map(str.encode, words), prefix, b"json")
        lines = bytes(text).decode().splitlines()
        return [{name: value_of(value) for name, value in json.loads(line).items()} for line in lines]

    def frame(self, **asked):
        """The same as query, as a data frame of pandas."""
        import pandas
        return pandas.DataFrame(self.query(**asked))

    def status(self):
        """The numbers of the warehouse by their names."""
        lines = run("status", self.path, "--format", "json").decode().splitlines()
        records = map(json.loads, lines)
        return {record["name"]: record["value"] for record in records if record["name"] != "cuboid"}


def merge(*paths):
    """The report over all rows as text, of the files of all its partial reports, in any order."""
    return run("merge", *paths).decode(errors="surrogateescape")


def value_of(value):
    """A value of a row: an average is the fraction of its sum and its count."""
    return Fraction(value["sum"], value["count"]) if isinstance(value, dict) else value
