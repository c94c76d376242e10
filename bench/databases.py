#!/usr/bin/env python3
"""Measures ssbcube and the databases that are installed over the same tables, in turn, and prints tables of medians.

Usage, in a folder with the tables in text/, the program plain, and ssbcube on the path: databases.py SCALE ROUNDS
(databases.sh calls it)

Each database has its settings as installed, primary keys of the dimensions where it knows them, and no other index. A load begins with
nothing and ends when all is durable: SQLite and PostgreSQL see to that themselves and then gather their statistics; the files of
ClickHouse are synced afterwards. A query is a process of its own (ClickHouse: one HTTP request), with the files in the page cache.
CPU time is that of the process and of the server together (of a server in steps of 10 ms), memory the peak of the process or, looked at in the
first round and summed over its processes, of the server.
"""
import collections
import contextlib
import glob
import http.client
import os
import re
import shutil
import socket
import statistics
import subprocess
import sys
import threading
import time

Cost = collections.namedtuple("Cost", "elapsed cpu memory")
TICK = os.sysconf("SC_CLK_TCK")
CREATE = [word for table in ("customer", "supplier", "part", "date") for word in ("--" + table, "text/%s.tbl" % table)]

# Of each table the columns in order: a number of 32 bits ends in :n, one of 8 bits in :b, any other is a text.
COLUMNS = {
    "customer": "c_custkey:n c_name c_address c_city c_nation c_region c_phone c_mktsegment",
    "supplier": "s_suppkey:n s_name s_address s_city s_nation s_region s_phone",
    "part": "p_partkey:n p_name p_mfgr p_category p_brand1 p_color p_type p_size:b p_container",
    "date": "d_datekey:n d_date d_dayofweek d_month d_year:n d_yearmonthnum:n d_yearmonth d_daynuminweek:b d_daynuminmonth:b d_daynuminyear:n "
            "d_monthnuminyear:b d_weeknuminyear:b d_sellingseason d_lastdayinweekfl:b d_lastdayinmonthfl:b d_holidayfl:b d_weekdayfl:b",
    "lineorder": "lo_orderkey:n lo_linenumber:b lo_custkey:n lo_partkey:n lo_suppkey:n lo_orderdate:n lo_orderpriority lo_shippriority:b "
                 "lo_quantity:b lo_extendedprice:n lo_ordtotalprice:n lo_discount:b lo_revenue:n lo_supplycost:n lo_tax:b lo_commitdate:n lo_shipmode",
}
# The queries of plain.rs, one of each flight.
BY_HAND = ["1.1", "2.1", "3.1", "4.1"]
# The key of each dimension, and the column of lineorder that names it.
KEYS = {"part": ("p_partkey", "lo_partkey"), "supplier": ("s_suppkey", "lo_suppkey"), "customer": ("c_custkey", "lo_custkey"),
        "date": ("d_datekey", "lo_orderdate")}

# Of each query what it groups by, what it adds up, and its conditions by table.
DISCOUNTED = "lo_extendedprice * lo_discount"
PROFIT = "lo_revenue - lo_supplycost"
KINGDOM = "_city IN ('UNITED KI1', 'UNITED KI5')"
YEARS = "d_year BETWEEN 1992 AND 1997"
MAKERS = "p_mfgr IN ('MFGR#1', 'MFGR#2')"
QUERIES = {
    "1.1": ("", DISCOUNTED, {"lineorder": "lo_discount BETWEEN 1 AND 3 AND lo_quantity < 25", "date": "d_year = 1993"}),
    "1.2": ("", DISCOUNTED, {"lineorder": "lo_discount BETWEEN 4 AND 6 AND lo_quantity BETWEEN 26 AND 35", "date": "d_yearmonthnum = 199401"}),
    "1.3": ("", DISCOUNTED, {"lineorder": "lo_discount BETWEEN 5 AND 7 AND lo_quantity BETWEEN 26 AND 35",
                             "date": "d_weeknuminyear = 6 AND d_year = 1994"}),
    "2.1": ("d_year p_brand1", "lo_revenue", {"part": "p_category = 'MFGR#12'", "supplier": "s_region = 'AMERICA'", "date": ""}),
    "2.2": ("d_year p_brand1", "lo_revenue", {"part": "p_brand1 BETWEEN 'MFGR#2221' AND 'MFGR#2228'", "supplier": "s_region = 'ASIA'", "date": ""}),
    "2.3": ("d_year p_brand1", "lo_revenue", {"part": "p_brand1 = 'MFGR#2239'", "supplier": "s_region = 'EUROPE'", "date": ""}),
    "3.1": ("c_nation s_nation d_year", "lo_revenue", {"customer": "c_region = 'ASIA'", "supplier": "s_region = 'ASIA'", "date": YEARS}),
    "3.2": ("c_city s_city d_year", "lo_revenue", {"customer": "c_nation = 'UNITED STATES'", "supplier": "s_nation = 'UNITED STATES'", "date": YEARS}),
    "3.3": ("c_city s_city d_year", "lo_revenue", {"customer": "c" + KINGDOM, "supplier": "s" + KINGDOM, "date": YEARS}),
    "3.4": ("c_city s_city d_year", "lo_revenue", {"customer": "c" + KINGDOM, "supplier": "s" + KINGDOM, "date": "d_yearmonth = 'Dec1997'"}),
    "4.1": ("d_year c_nation", PROFIT, {"part": MAKERS, "supplier": "s_region = 'AMERICA'", "customer": "c_region = 'AMERICA'", "date": ""}),
    "4.2": ("d_year s_nation p_category", PROFIT, {"part": MAKERS, "supplier": "s_region = 'AMERICA'", "customer": "c_region = 'AMERICA'",
                                                   "date": "d_year IN (1997, 1998)"}),
    "4.3": ("d_year s_city p_brand1", PROFIT, {"part": "p_category = 'MFGR#14'", "supplier": "s_nation = 'UNITED STATES'",
                                               "customer": "c_region = 'AMERICA'", "date": "d_year IN (1997, 1998)"}),
}


def statement(query, source, conditions):
    """The SELECT of a query over what joins its tables."""
    group, added, _ = QUERIES[query]
    group = group.split()
    order = ["d_year", "total DESC"] + group[:2] if query.startswith("3") else group
    parts = ["SELECT", ", ".join(group + ["SUM(%s) AS total" % added]), "FROM", source]
    parts += ["WHERE", " AND ".join(conditions)] if conditions else []
    parts += ["GROUP BY", ", ".join(group), "ORDER BY", ", ".join(order)] if group else []
    return " ".join(parts)


def joined(query):
    """A query as standard SQL."""
    tables = QUERIES[query][2]
    used = [table for table in KEYS if table in tables]
    conditions = ["%s = %s" % KEYS[table] for table in used] + [condition for condition in tables.values() if condition]
    return statement(query, ", ".join(["lineorder"] + used), conditions)


def nested(query):
    """A query for a ClickHouse that joins two tables at a time: each dimension is joined to what the ones before it left."""
    group, added, tables = QUERIES[query]
    carried = sorted(set(re.findall(r"lo_\w+", added)))
    used = [table for table in KEYS if table in tables]
    facts = [KEYS[table][1] for table in used]
    source = "SELECT %s FROM lineorder" % ", ".join(facts + carried)
    if tables.get("lineorder"):
        source += " WHERE " + tables["lineorder"]
    for table in used:
        key, fact = KEYS[table]
        facts.remove(fact)
        attributes = [name for name in group.split() if name[0] == table[0]]
        side = "SELECT %s FROM %s" % (", ".join(["%s AS %s" % (key, fact)] + attributes), table)
        if tables[table]:
            side += " WHERE " + tables[table]
        carried = carried + attributes
        source = "SELECT %s FROM (%s) ALL INNER JOIN (%s) USING %s" % (", ".join(facts + carried), source, side, fact)
    return statement(query, "(%s)" % source, [])


def schema(types, ending):
    """The CREATE TABLE of each table, by the types of numbers of 32 and 8 bits and of texts, and what follows a table's columns."""
    for table, columns in COLUMNS.items():
        named = [column.partition(":") for column in columns.split()]
        yield "CREATE TABLE %s (%s%s" % (table, ", ".join("%s %s" % (name, types[kind]) for name, _, kind in named), ending(table))


def family(server):
    """A process and its children."""
    with contextlib.suppress(OSError):
        with open("/proc/%d/task/%d/children" % (server, server), encoding="ascii") as children:
            return [server] + [int(child) for child in children.read().split()]
    return [server]


def cpu_of(server):
    """The CPU seconds of a server's processes, those that have ended too."""
    ticks = 0
    for process in family(server) if server else []:
        with contextlib.suppress(OSError), open("/proc/%d/stat" % process, encoding="ascii") as stat:
            ticks += sum(map(int, stat.read().rpartition(")")[2].split()[11:15]))
    return ticks / TICK


def memory_of(server):
    """The bytes in memory of a server's processes, what they share counted once."""
    total = 0
    for process in family(server):
        with contextlib.suppress(OSError), open("/proc/%d/smaps_rollup" % process, encoding="ascii") as rollup:
            total += 1024 * int(re.search(r"^Pss: +(\d+)", rollup.read(), re.M)[1])
    return total


@contextlib.contextmanager
def watched(server, often):
    """Looks at the memory of a server, so many times a second, and gives a list with its peak; none of a server that is not watched."""
    peak = [0]
    if not often:
        yield peak
        return
    ended = threading.Event()

    def look():
        while not ended.wait(1 / often):
            peak[0] = max(peak[0], memory_of(server))
    thread = threading.Thread(target=look)
    thread.start()
    yield peak
    ended.set()
    thread.join()


def run(words, server=None, often=0, text=None):
    """Runs a command, and gives what it took, its server included, and the lines that it printed."""
    before = cpu_of(server)
    with watched(server, often) as peak, open("printed", "wb") as printed, open("complaints", "wb") as complaints:
        begin = time.monotonic()
        # Started by a small process, since a process's peak is at least the memory of the one that started it.
        process = subprocess.Popen(["/usr/bin/time", "-q", "-o", "took", "-f", "%M", *words], stdout=printed, stderr=complaints,
                                   stdin=subprocess.PIPE if text else subprocess.DEVNULL)
        if text:
            process.stdin.write(text.encode())
            process.stdin.close()
        _, status, usage = os.wait4(process.pid, 0)
        process.returncode = os.waitstatus_to_exitcode(status)
        elapsed = time.monotonic() - begin
    with open("printed", encoding="utf-8") as printed, open("complaints", encoding="utf-8") as complaints, open("took", encoding="ascii") as took:
        if process.returncode or (server is None and os.path.getsize("complaints")):
            sys.exit("%s: status %d, %s" % (" ".join(words), process.returncode, complaints.read()))
        memory = peak[0] if server else 1024 * int(took.read())
        return Cost(elapsed, usage.ru_utime + usage.ru_stime + cpu_of(server) - before, memory), printed.read().splitlines()


def added(*costs):
    """What several commands took, one after the other."""
    return Cost(sum(cost.elapsed for cost in costs), sum(cost.cpu for cost in costs), max(cost.memory for cost in costs))


class Ours:
    """A warehouse, without stored cuboids."""
    name = "ssbcube"

    def load(self, _):
        with contextlib.suppress(OSError):
            os.remove("star.dev")
        # 146 sectors for 1,000 rows of some 100 bytes of text.
        sectors = 65536 + os.path.getsize("text/lineorder.tbl") // 500
        made, _ = run(["ssbcube", "create", "star.dev", "--sectors", str(sectors), *CREATE])
        loaded, _ = run(["ssbcube", "load", "star.dev", "--first", "1", "text/lineorder.tbl"])
        return added(made, loaded)

    def ask(self, query, _):
        cost, lines = run(["ssbcube", "report", "star.dev", query])
        return cost, lines[1:-1]

    def size(self):
        return os.stat("star.dev").st_blocks * 512

    def stop(self):
        pass


class SQLite:
    """The shell of SQLite over one file."""
    name = "SQLite"

    def __init__(self):
        self.name += " " + subprocess.run(["sqlite3", "--version"], capture_output=True, text=True, check=True).stdout.split()[0]

    def load(self, _):
        with contextlib.suppress(OSError):
            os.remove("star.sqlite")
        types = {"n": "INTEGER", "b": "INTEGER", "": "TEXT"}
        script = [line + ";" for line in schema(types, lambda table: ", PRIMARY KEY (%s))" % KEYS[table][0] if table in KEYS else ")")]
        script += [".separator |"] + [".import text/%s.tbl %s" % (table, table) for table in COLUMNS] + ["ANALYZE;", ""]
        return run(["sqlite3", "-bail", "star.sqlite"], text="\n".join(script))[0]

    def ask(self, query, _):
        return run(["sqlite3", "star.sqlite", joined(query)])

    def size(self):
        return os.path.getsize("star.sqlite")

    def stop(self):
        pass


class PostgreSQL:
    """A server of its own, and psql over a socket in the folder."""
    name = "PostgreSQL"

    def __init__(self):
        at = os.path.dirname(os.path.realpath(shutil.which("postgres")))
        self.name += " " + subprocess.run([at + "/postgres", "--version"], capture_output=True, text=True, check=True).stdout.split()[2]
        folder = os.path.abspath("postgres")
        os.mkdir(folder)
        # It does not run as root.
        user = []
        if os.getuid() == 0:
            shutil.chown(folder, "postgres", "postgres")
            user = ["setpriv", "--reuid", "postgres", "--regid", "postgres", "--clear-groups"]
        subprocess.run([*user, at + "/initdb", "-D", folder + "/data", "-U", "postgres", "-A", "trust", "--locale=C", "-E", "UTF8"], check=True,
                       stdout=subprocess.DEVNULL, cwd="/")
        self.server = subprocess.Popen([*user, at + "/postgres", "-D", folder + "/data", "-k", folder, "-c", "listen_addresses="],
                                       stdout=subprocess.DEVNULL, stderr=subprocess.DEVNULL, cwd="/")
        # The program itself, and not the script that some systems have in its place.
        self.psql = [at + "/psql", "-X", "-q", "-A", "-t", "-v", "ON_ERROR_STOP=1", "-h", folder, "-U", "postgres", "-d"]
        until_true(lambda: subprocess.run([*self.psql, "postgres", "-c", "SELECT 1"], capture_output=True, check=False).returncode == 0)

    def load(self, watch):
        run([*self.psql, "postgres"], self.server.pid, text="DROP DATABASE IF EXISTS star; \n CREATE DATABASE star;\n")
        types = {"n": "INTEGER", "b": "SMALLINT", "": "TEXT"}
        script = [line + ";" for line in schema(types, lambda table: ", PRIMARY KEY (%s))" % KEYS[table][0] if table in KEYS else ")")]
        script += ["\\copy %s FROM 'text/%s.tbl' (DELIMITER '|')" % (table, table) for table in COLUMNS] + ["VACUUM ANALYZE;", ""]
        return run([*self.psql, "star"], self.server.pid, 10 if watch else 0, "\n".join(script))[0]

    def ask(self, query, watch):
        return run([*self.psql, "star", "-c", joined(query)], self.server.pid, 50 if watch else 0)

    def size(self):
        return int(run([*self.psql, "star", "-c", "SELECT pg_database_size('star')"], self.server.pid)[1][0])

    def stop(self):
        self.server.terminate()
        self.server.wait()


class ClickHouse:
    """A server of its own, asked over HTTP."""
    name = "ClickHouse"

    def __init__(self):
        folder = os.path.abspath("clickhouse")
        os.mkdir(folder)
        self.port, other = free_ports()
        with open(folder + "/config.xml", "w", encoding="ascii") as config:
            config.write("""<yandex><logger><level>error</level><log>%s/log</log><errorlog>%s/errors</errorlog></logger>
                <listen_host>127.0.0.1</listen_host><http_port>%d</http_port><tcp_port>%d</tcp_port><path>%s/data/</path><tmp_path>%s/temporary/</tmp_path>
                <mark_cache_size>5368709120</mark_cache_size><users_config>%s/config.xml</users_config><default_profile>default</default_profile>
                <default_database>default</default_database><profiles><default></default></profiles><quotas><default></default></quotas>
                <users><default><password></password><networks><ip>127.0.0.1</ip></networks><profile>default</profile><quota>default</quota></default></users>
                </yandex>""" % (folder, folder, self.port, other, folder, folder, folder))
        os.mkdir(folder + "/data")
        self.data = folder + "/data"
        self.server = subprocess.Popen(["clickhouse-server", "--config-file=" + folder + "/config.xml"], stdout=subprocess.DEVNULL,
                                       stderr=subprocess.DEVNULL, cwd=folder)
        until_true(lambda: self.say("SELECT version()"))
        self.name += " " + self.say("SELECT version()")[0]

    def say(self, words, body=None):
        """A statement, with a table's text for one that inserts it, and the lines of its answer."""
        connection = http.client.HTTPConnection("127.0.0.1", self.port, timeout=3600, blocksize=1 << 20)
        place = "/?database=%s&format_csv_delimiter=%%7C" % ("default" if "DATABASE" in words or "version" in words else "star")
        if body:
            place += "&query=" + words.replace(" ", "%20")
        connection.request("POST", place, body or words.encode())
        answer = connection.getresponse()
        text = answer.read().decode()
        connection.close()
        if answer.status != 200:
            sys.exit("ClickHouse: %s: %s" % (words, text))
        return text.splitlines()

    def timed(self, often, action):
        before = cpu_of(self.server.pid)
        with watched(self.server.pid, often) as peak:
            begin = time.monotonic()
            result = action()
            elapsed = time.monotonic() - begin
        return Cost(elapsed, cpu_of(self.server.pid) - before, peak[0]), result

    def load_all(self):
        types = {"n": "UInt32", "b": "UInt8", "": "String"}
        keys = {table: key for table, (key, _) in KEYS.items()} | {"lineorder": "(lo_orderdate, lo_orderkey)"}
        for line in schema(types, lambda table: ") ENGINE = MergeTree ORDER BY " + keys[table]):
            self.say(line)
        for table in COLUMNS:
            with open("text/%s.tbl" % table, "rb") as text:
                self.say("INSERT INTO %s FORMAT CSV" % table, text)
        for path in glob.glob(self.data + "/**", recursive=True):
            with contextlib.suppress(FileNotFoundError):
                file = os.open(path, os.O_RDONLY)
                os.fsync(file)
                os.close(file)

    def load(self, watch):
        self.say("DROP DATABASE IF EXISTS star")
        self.say("CREATE DATABASE star")
        return self.timed(10 if watch else 0, self.load_all)[0]

    def ask(self, query, watch):
        cost, lines = self.timed(50 if watch else 0, lambda: self.say(nested(query)))
        return cost, [line.replace("\t", "|") for line in lines]

    def size(self):
        return int(self.say("SELECT sum(bytes_on_disk) FROM system.parts WHERE active AND database = 'star'")[0])

    def stop(self):
        self.server.terminate()
        self.server.wait()


class FromTables:
    """A program that answers queries from the tables, without a load."""
    def __init__(self, name, words):
        self.name, self.words = name, words

    def ask(self, query, _):
        cost, lines = run([*self.words, query])
        return cost, lines[1:-1]


def until_true(question):
    """Asks until a server is up, for half a minute at most."""
    for _ in range(300):
        with contextlib.suppress(OSError):
            if question():
                return
        time.sleep(0.1)
    sys.exit("a server does not start")


def free_ports():
    """Two ports that no program listens on."""
    with socket.socket() as one, socket.socket() as other:
        one.bind(("127.0.0.1", 0))
        other.bind(("127.0.0.1", 0))
        return one.getsockname()[1], other.getsockname()[1]


def median(costs):
    """The medians of elapsed and CPU time, and the greatest memory that was seen."""
    return Cost(statistics.median(cost.elapsed for cost in costs), statistics.median(cost.cpu for cost in costs), max(cost.memory for cost in costs))


def table(head, rows):
    print("| %s |" % " | ".join(head))
    print("|" + "---|" * len(head))
    for row in rows:
        print("| %s |" % " | ".join(row))
    print()


def seconds(cost):
    return "%.2f s (%.2f)" % (cost.elapsed, cost.cpu)


def mebibytes(cost):
    return "%.0f MiB" % (cost.memory / (1 << 20))


def milliseconds(cost):
    return "%.0f (%.0f)" % (1000 * cost.elapsed, 1000 * cost.cpu)


def measure_loads(engines, rounds):
    loads = {engine: [] for engine in engines}
    for _ in range(rounds):
        for engine in engines:
            loads[engine].append(engine.load(not loads[engine]))
    return {engine: median(costs) for engine, costs in loads.items()}


def measure_queries(engines, queries, rounds, answers):
    """Of each engine and query what each round took. Answers are compared with those of the first engine; unequal ones end the program."""
    costs = {(engine, query): [] for engine in engines for query in queries}
    for _ in range(rounds):
        for query in queries:
            for engine in engines:
                cost, lines = engine.ask(query, not costs[engine, query])
                costs[engine, query].append(cost)
                if lines != answers.setdefault(query, lines):
                    sys.exit("%s answers %s otherwise: %s in place of %s" % (engine.name, query, lines[:3], answers[query][:3]))
    return costs


def print_queries(engines, queries, costs):
    """Rows of medians, of the queries one by one and of all together."""
    rows = [[query] + [milliseconds(median(costs[engine, query])) for engine in engines] for query in queries]
    rounds = range(len(costs[engines[0], queries[0]]))
    together = {engine: median([added(*(costs[engine, query][one] for query in queries)) for one in rounds]) for engine in engines}
    rows.append(["together"] + [milliseconds(together[engine]) for engine in engines])
    return rows, together


def main(scale, rounds):
    with open("text/lineorder.tbl", "rb") as facts:
        count = sum(1 for _ in facts)
    engines = [Ours()]
    try:
        for program, kind in ("sqlite3", SQLite), ("postgres", PostgreSQL), ("clickhouse-server", ClickHouse):
            if shutil.which(program):
                engines.append(kind())
            else:
                print("%s is not installed" % program)
        begin = os.getloadavg()[0]
        loads = measure_loads(engines, rounds)
        sizes = {engine: engine.size() for engine in engines}
        answers = {}
        costs = measure_queries(engines, list(QUERIES), rounds, answers)
        readers = [FromTables("`eval`", ["ssbcube", "eval", *CREATE, "--lineorder", "text/lineorder.tbl", "--query"]),
                   FromTables("`plain.rs`", ["./plain", "text"])]
        read = measure_queries(readers, BY_HAND, rounds, answers)
    finally:
        for engine in engines:
            engine.stop()
    text = sum(os.path.getsize(path) for path in glob.glob("text/*.tbl"))
    print("Scale %s: %s fact rows, %.0f MB of text. Medians of %d, in turn; %d processors, load average %.1f to %.1f. All answers are equal.\n"
          % (scale, format(count, ","), text / 1e6, rounds, os.cpu_count(), begin, os.getloadavg()[0]))
    rows, together = print_queries(engines, list(QUERIES), costs)
    table(["", "Load: elapsed (CPU time)", "Peak memory of a load", "On disk", "Thirteen queries: elapsed (CPU time)", "Peak memory of a query"],
          [[engine.name, seconds(loads[engine]), mebibytes(loads[engine]), "%.0f MB" % (sizes[engine] / 1e6), seconds(together[engine]),
            mebibytes(together[engine])] for engine in engines])
    print("Milliseconds elapsed (CPU time) of each query:\n")
    table(["Query"] + [engine.name for engine in engines], rows)
    print("From the tables, without a load, milliseconds elapsed (CPU time):\n")
    rows, together = print_queries(readers, BY_HAND, read)
    table(["Query"] + [reader.name for reader in readers], rows[:-1] + [["peak memory"] + [mebibytes(together[reader]) for reader in readers]])


if __name__ == "__main__":
    main(sys.argv[1], int(sys.argv[2]))
