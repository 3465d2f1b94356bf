"""The cases: which program, what is selected in it, what the change is, and on which machine."""
import os
from collections import namedtuple

CASES = os.path.realpath(f"{os.path.dirname(os.path.realpath(__file__))}/..")
OUT = f"{CASES}/out"
SRC = f"{OUT}/src"

# A region as coz-functions takes it, and the line that it is.
Region = namedtuple("Region", "text line")


class Lines:
    """The lines of a file from the one that has a text to the one before the next that has another.

    Without another text they go to the next row that is a closing brace.
    """

    def __init__(self, file, first, after=None):
        self.file, self.first, self.after = file, first, after

    def region(self, program, variant):
        """Returns the region of these lines in the variant's source that has the file's name."""
        path = next(it for it in program.sources[variant] if os.path.basename(it) == self.file)
        with open(path, encoding="utf-8", errors="replace") as file:
            rows = file.read().split("\n")
        start = next(at for at, row in enumerate(rows, 1) if self.first in f"{row}\n")
        if self.after:
            end = next(at for at, row in enumerate(rows[start:], start) if self.after in row)
        else:
            end = next(at for at, row in enumerate(rows[start:], start + 1) if row == "}")
        return Region(f"{self.file}:{start}-{end}", f"{self.file}:{start}")


class Whole:
    """All lines of a file of the C library, which is another one after the change."""

    def __init__(self, before, after):
        self.files = {"before": before, "after": after}

    def region(self, _, variant):
        """Returns the region of the variant's file."""
        return Region(f"{self.files[variant]}:1-9999", f"{self.files[variant]}:1")


class Program:
    """A program in two variants: the sources of each, its progress point, and the files that it reads."""

    def __init__(self, name, before, after, point, files=()):
        self.name, self.sources, self.point, self.files = name, {"before": before, "after": after}, point, files


class Case:
    """A question: a program with its words, what is selected in it, and the options of coz-gain.

    `selected` has Lines, or names of functions; the predictions of several are added. `charged` names functions that count for
    the lines that call them, and `shown` functions of libraries that are selected. If the change is another number of
    threads, `after` is the words with it, and `part` the cost after over the cost before; if it is a variable in the
    environment, `environment` has it. `native` is the words for the host.
    """

    def __init__(self, name, program, words, about, selected, options=(), charged=(), after=None, part=None, native=None, quick=False,
                 shown=(), environment=()):
        self.name, self.program, self.words, self.about, self.selected = name, program, words, about, selected
        self.options, self.charged, self.after, self.part = options, charged, after or words, part
        self.native, self.quick, self.shown, self.environment = native, quick, shown, environment


def model(name, point):
    """Returns the program of a model, whose variants have one source."""
    source = f"{CASES}/models/{name}.c"
    return Program(name, [source], [source], Lines(f"{name}.c", point))


def sqlite(name, after):
    """Returns a program that inserts rows by SQLite, with the folder of the changed source."""
    insert = f"{CASES}/programs/insert.c"
    return Program(name, [insert, f"{SRC}/sqlite3/sqlite3.c"], [insert, f"{SRC}/{after}/sqlite3.c"], Lines("insert.c", "*count += 1"))


DEDUP = model("dedup", "total += n")
FERRET = model("ferret", "total += n")
BARRIER = model("barrier", "*n += 1")
MEMCACHED = model("memcached", "*count += 1")
BLACKSCHOLES = model("blackscholes", "*count += 1")
SWAPTIONS = model("swaptions", "*count += 1")
JSON_FILES = [f"{CASES}/programs/json.c", f"{SRC}/cjson/cJSON.c"]
JSON = Program("json", JSON_FILES, [JSON_FILES[0], f"{SRC}/cjson-after/cJSON.c"], Lines("json.c", "*sum += n"),
               (f"data.json={CASES}/programs/data.json",))
DEFLATE_FILES = [f"{CASES}/programs/deflater.c", f"{SRC}/zlib/deflate.c"]
DEFLATER = Program("deflater", DEFLATE_FILES, DEFLATE_FILES, Lines("deflater.c", "*sum += n"))
PIGZ = Program("pigz", [f"{SRC}/pigz/pigz.c", f"{SRC}/zlib/deflate.c"], [f"{SRC}/pigz/pigz.c", f"{SRC}/zlib-after/deflate.c"],
               Lines("pigz.c", "*prior = job;"), (f"text={OUT}/text",))
GZIP = Program("gzip", [f"{SRC}/gzip/zip.c", f"{SRC}/gzip/util.c"], [f"{SRC}/gzip-after/zip.c", f"{SRC}/gzip-after/util.c"],
               Lines("zip.c", "updcrc ((uch *) buf, len);"), (f"text={OUT}/text",))
HASH_FILES = [f"{SRC}/xxhash/cli/xxhsum.c", f"{SRC}/xxhash/xxhash.h"]
HASH = Program("xxhsum", HASH_FILES, HASH_FILES, Lines("xxhsum.c", "(void)XXH64_update(&state64"), (f"text={OUT}/text",))
LZ4_FILES = [f"{SRC}/lz4/programs/lz4io.c", f"{SRC}/lz4/lib/lz4.c"]
LZ4 = Program("lz4", LZ4_FILES, LZ4_FILES, Lines("lz4io.c", "size_t const outSize = LZ4F_compressUpdate(ctx"), (f"text={OUT}/text",))
MALLOC_THREADS = [f"{CASES}/../guests/programs/malloc-threads.c"]
BLOCKS = Program("blocks", MALLOC_THREADS, MALLOC_THREADS, Lines("malloc-threads.c", "free(block);"))

LOOKUP = [Lines("dedup.c", "static uint32_t hash", "static int is_new")]
RANK = [Lines("ferret.c", "static uint32_t rank", "static uint32_t (*const stages")]
WAIT = [Lines("barrier.c", "#ifdef FIXED", "static uint32_t cluster")]
REFERENCES = [Lines("memcached.c", "static item *get", "__attribute__")]
NORMAL = [Lines("blackscholes.c", "static double normal", "__attribute__")]
LOOPS = [Lines("swaptions.c", "#ifdef FIXED", "#endif")]
NUMBER = [Lines("cJSON.c", "static cJSON_bool compare_double", "/* parse 4 digit")]
MATCH = [Lines("deflate.c", "local uInt longest_match(s, cur_match)")]
CHECK = [Lines("util.c", "ulg updcrc(s, n)")]
HASH_LOOP = ["XXH64_update"]
LZ4_LOOP = ["LZ4_compress_fast_extState_fastReset"]
CALLS = [Lines("sqlite3.c", it) for it in (
    "SQLITE_API void sqlite3_mutex_leave(sqlite3_mutex *p){", "static void pthreadMutexLeave(sqlite3_mutex *p){",
    "SQLITE_PRIVATE int sqlite3MallocSize(const void *p){", "static int sqlite3MemSize(void *pPrior){\n",
    "SQLITE_PRIVATE sqlite3_pcache_page *sqlite3PcacheFetch(\n", "static sqlite3_pcache_page *pcache1Fetch(\n")]
ALLOCATE = ["sqlite3Malloc", "sqlite3_free"]
ALLOCATOR = [Whole("src/malloc/oldmalloc/malloc.c", "src/malloc/arenas.c")]
MUTEXES = ("sqlite3_mutex_enter", "sqlite3_mutex_leave", "pthreadMutexEnter", "pthreadMutexLeave")
FOUR_CORES = ("--cores", "4")
ECALL = ("--costs", "ecall=1000")
BUSY = (*FOUR_CORES, *ECALL)
POOLS, MOVED = (60, 2, 2, 2, 2), (60, 2, 1, 2, 3)

MODELS = [
    Case("dedup, 1 thread", DEDUP, (1, 500), "hash and find", LOOKUP, native=(1, 6000), quick=True),
    Case("dedup, 3 threads", DEDUP, (3, 500), "hash and find", LOOKUP, native=(3, 6000)),
    Case("dedup, 8 threads", DEDUP, (8, 500), "hash and find", LOOKUP, native=(8, 6000)),
    Case("dedup, 8 threads, one lock", DEDUP, (8, 500, 1), "hash and find", LOOKUP),
    Case("ferret, a thread more ranks", FERRET, POOLS, "rank", RANK, after=MOVED, part=2 / 3),
    Case("ferret, a thread more, 4 cores", FERRET, POOLS, "rank", RANK, FOUR_CORES, after=MOVED, part=2 / 3),
    Case("ferret, half the ranking, 4 cores", FERRET, POOLS, "rank", RANK, FOUR_CORES, native=(3000, 2, 2, 2, 2)),
    Case("barrier, 4 threads", BARRIER, (4, 40), "the barrier", WAIT, ECALL, native=(4, 3000), quick=True),
    Case("barrier, 8 threads", BARRIER, (8, 40), "the barrier", WAIT, ECALL),
    Case("barrier, 16 threads", BARRIER, (16, 40), "the barrier", WAIT, ECALL),
    Case("barrier, 8 threads, 4 cores", BARRIER, (8, 40), "the barrier", WAIT, BUSY, native=(8, 3000)),
    Case("barrier, 16 threads, 4 cores", BARRIER, (16, 40), "the barrier", WAIT, BUSY, native=(16, 1500)),
    Case("memcached, 4 threads", MEMCACHED, (4, 300, 4), "get, removed", REFERENCES, (), ("hash",), native=(4, 100000, 4)),
    Case("memcached, 8 threads", MEMCACHED, (8, 150, 4), "get, removed", REFERENCES, (), ("hash",), native=(8, 50000, 4)),
    Case("blackscholes", BLACKSCHOLES, (4, 40), "normal", NORMAL, native=(4, 100000), quick=True),
    Case("swaptions, rows for columns", SWAPTIONS, (4, 8, 60, 60), "the loops over the matrix", LOOPS, native=(4, 64, 1000, 1000)),
]
PROGRAMS = [
    Case("cJSON, whole numbers by %d", JSON, (1, "data.json"), "print_number, compare_double", NUMBER,
         native=(200, f"{CASES}/programs/data.json")),
    Case("malloc-threads, two arenas", BLOCKS, (4, 10), "eset_init of jemalloc", ["eset_init"],
         shown=("eset_init",), environment=("MALLOC_CONF=narenas:2",)),
    Case("pigz, eight bytes at a time, 3 threads", PIGZ, ("-p", 3, "-b", 32, "-1", "-n", "-c", "text"), "longest_match", MATCH,
         native=("-p", 3, "-b", 32, "-1", "-n", "-c", f"{OUT}/large")),
    Case("gzip, four bytes of a check at a time", GZIP, ("-1", "-n", "-c", "text"), "updcrc", CHECK),
    Case("xxhsum, words read at once", HASH, ("-H1", "text"), "XXH64_update", HASH_LOOP),
    Case("lz4, words read at once", LZ4, ("-1", "-B4", "-c", "text"), "the compressing function", LZ4_LOOP),
    Case("zlib, two bytes at a time, 2 threads", DEFLATER, (2, 16384, 6), "longest_match", MATCH, native=(4, 4000000, 6)),
    Case("SQLite, three calls direct, 4 threads", sqlite("calls", "sqlite3-after"), (4, 20), "six functions of these calls", CALLS,
         native=(4, 40000)),
    Case("SQLite, no statistics, 4 threads", sqlite("statistics", "sqlite3"), (4, 20), "sqlite3Malloc, sqlite3_free", ALLOCATE, (), MUTEXES,
         native=(4, 40000)),
    Case("SQLite, no statistics, 4 cores, dear calls", sqlite("statistics", "sqlite3"), (4, 20), "sqlite3Malloc, sqlite3_free", ALLOCATE, BUSY, MUTEXES),
    Case("SQLite, another allocator, 4 threads", sqlite("allocator", "sqlite3"), (4, 20), "the allocator", ALLOCATOR, (), ("__wait",)),
]
