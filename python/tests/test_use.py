"""The package as it is used: what a file may be given as, threads and processes, notebooks, and what the tools answer."""

import array
import concurrent.futures
import doctest
import gzip
import hashlib
import importlib
import io
import json
import mmap
import multiprocessing
import os
import pathlib
import pickle
import pkgutil
import re
import shutil
import subprocess
import sys
import threading
import time
import tracemalloc

import p21
import pytest

ROOT = pathlib.Path(__file__).resolve().parents[2]
EXAMPLES = ROOT / "examples"
PRODUCT = EXAMPLES / "product.step"
COUNTS = (128, 4872)
POINTS = "SCHEMA s; ENTITY point; x, y : REAL; END_ENTITY; END_SCHEMA;"
HEAD = b"ISO-10303-21;HEADER;FILE_DESCRIPTION((''),'2;1');FILE_NAME('','',(''),(''),'','','');FILE_SCHEMA(('S'));ENDSEC;DATA;\n"


@pytest.fixture(scope="module")
def product():
    return p21.Schema.read(EXAMPLES / "product.exp")


def many_points(count):
    """A file of so many points."""
    return HEAD + b"".join(b"#%d=POINT(%d.5,-%d.25E2);\n" % (name, name, name) for name in range(1, count + 1)) + b"ENDSEC;END-ISO-10303-21;\n"


@pytest.fixture(scope="module")
def program():
    """The program that the tools run: $P21, or that of the clone."""
    found = os.environ.get("P21") or str(ROOT / "crates/p21/out/p21")
    if not os.path.isfile(found):
        pytest.skip("the program is not built")
    os.environ["P21"] = found
    return found


# --- What a file and a schema may be given as ---


@pytest.mark.parametrize("kind", [str, pathlib.Path])
def test_a_schema_by_its_path(kind):
    schema, read = kind(EXAMPLES / "product.exp"), p21.Schema.read(EXAMPLES / "product.exp")
    for source in (PRODUCT, PRODUCT.read_bytes()):
        assert p21.check(schema, source) == COUNTS
        assert p21.canonical(schema, source) == p21.canonical(read, source)
        assert p21.same(schema, source, EXAMPLES / "product-other.step")
        assert p21.hash(schema, source) == p21.hash(read, source)
        assert p21.diff(schema, source, source)[-1]["verdict"] == "same"
    assert p21.accept(schema, PRODUCT).report == COUNTS
    with p21.Session(schema) as session:
        session.feed(PRODUCT.read_bytes())
        assert session.finish().report == COUNTS


def test_what_is_no_schema():
    with pytest.raises(FileNotFoundError):
        p21.check("examples/none.exp", PRODUCT)
    with pytest.raises(p21.SchemaRefused):
        p21.check(PRODUCT, PRODUCT)
    with pytest.raises(ValueError, match="is the path of a schema here: p21.Schema.text. reads a text"):
        p21.check(POINTS, PRODUCT)
    with pytest.raises(TypeError, match="and no bytes: p21.Schema.text. reads a text"):
        p21.check(POINTS.encode(), PRODUCT)
    with pytest.raises(TypeError, match="a schema is a p21.Schema, or the path of its text, and no NoneType$"):
        p21.same(None, PRODUCT, PRODUCT)


def given_as(kind, tmp_path):
    """The same file in another way."""
    text = PRODUCT.read_bytes()
    if kind == "mmap":
        with open(PRODUCT, "rb") as file:
            return mmap.mmap(file.fileno(), 0, access=mmap.ACCESS_READ)
    if kind == "numpy":
        return pytest.importorskip("numpy").frombuffer(text, dtype="uint8")
    if kind == "numpy of words":
        padded = text + b" " * (-len(text) % 8)
        return pytest.importorskip("numpy").frombuffer(padded, dtype="uint64").reshape(2, -1) if len(padded) % 16 == 0 else pytest.importorskip("numpy").frombuffer(padded + b" " * 8, dtype="uint64").reshape(2, -1)
    if kind == "gzip":
        (tmp_path / "product.step.gz").write_bytes(gzip.compress(text))
        return gzip.open(tmp_path / "product.step.gz")
    return {
        "str": lambda: str(PRODUCT),
        "path": lambda: PRODUCT,
        "bytes": lambda: text,
        "bytearray": lambda: bytearray(text),
        "memoryview": lambda: memoryview(text),
        "memoryview to write": lambda: memoryview(bytearray(text)),
        "array": lambda: array.array("B", text),
        "BytesIO": lambda: io.BytesIO(text),
        "open file": lambda: open(PRODUCT, "rb"),
        "raw file": lambda: open(PRODUCT, "rb", buffering=0),
    }[kind]()


KINDS = [
    *("str", "path", "bytes", "bytearray", "memoryview", "memoryview to write", "array", "BytesIO", "open file", "raw file", "mmap"),
    *("numpy", "numpy of words", "gzip"),
]


@pytest.mark.parametrize("kind", KINDS)
def test_a_file_in_each_way(product, tmp_path, kind):
    canonical = p21.canonical(product, PRODUCT)
    assert p21.check(product, given_as(kind, tmp_path)) == COUNTS
    assert p21.canonical(product, given_as(kind, tmp_path)) == canonical
    assert p21.same(product, given_as(kind, tmp_path), EXAMPLES / "product-other.step")
    assert p21.same(product, (EXAMPLES / "product-other.step").read_bytes(), given_as(kind, tmp_path))
    assert not p21.same(product, given_as(kind, tmp_path), (EXAMPLES / "product-changed.step").read_bytes())
    assert p21.hash(product, given_as(kind, tmp_path)).sha256 == hashlib.sha256(canonical).hexdigest()


def test_what_is_no_file(product):
    for wrong, error, words in (
        (PRODUCT.read_text(), ValueError, "a str is the path of a file"),
        ("ISO-10303-21;HEADER;", ValueError, "a str is the path of a file"),
        (7, TypeError, "and no int"),
        (None, TypeError, "and no NoneType"),
        (io.StringIO("ISO"), TypeError, "open it for bytes"),
        (memoryview(b"IxSxOx")[::2], BufferError, "don't lie one behind the other"),
        (EXAMPLES / "none.step", FileNotFoundError, "none.step"),
        (EXAMPLES, IsADirectoryError, "examples"),
    ):
        for call in (p21.check, p21.canonical, p21.hash):
            with pytest.raises(error, match=words):
                call(product, wrong)
        with pytest.raises(error, match=words):
            p21.same(product, PRODUCT, wrong)


def test_buffers_are_not_copied(tmp_path):
    path = tmp_path / "points.step"
    path.write_bytes(many_points(200_000))
    size = path.stat().st_size
    assert size > 5_000_000
    schema = p21.Schema(POINTS)
    with open(path, "rb") as file, mmap.mmap(file.fileno(), 0, access=mmap.ACCESS_READ) as data:
        for source in (data, memoryview(data), path, file):
            tracemalloc.start()
            assert p21.check(schema, source).instances == 200_000
            _, most = tracemalloc.get_traced_memory()
            tracemalloc.stop()
            assert most < size / 2, type(source)


def test_a_buffer_is_held_while_a_call_runs():
    data = bytearray(b"ISO")
    session = p21.Session(p21.Schema(POINTS))
    session.feed(data)
    # It isn't held any more: a bytearray that is can't grow.
    data += b"-10303-21;"
    with pytest.raises(p21.Refused):
        session.feed(b"\xff")
    data += b"more"


def test_pipes(product):
    reading, writing = os.pipe()
    threading.Thread(target=lambda: (os.write(writing, PRODUCT.read_bytes()), os.close(writing))).start()
    with open(reading, "rb") as file:
        assert p21.check(product, file) == COUNTS


def test_schemas_by_text_and_path(product, tmp_path):
    text = (EXAMPLES / "product.exp").read_text()
    for given in (text, text.encode(), bytearray(text.encode()), memoryview(text.encode())):
        with p21.Schema(given) as schema:
            assert schema.text == text.encode()
            assert p21.check(schema, PRODUCT) == COUNTS
    assert p21.check(p21.Schema.read(str(EXAMPLES / "product.exp")), PRODUCT) == COUNTS
    (tmp_path / "odd name").write_text(POINTS)
    for path in ("product.exp", "some/where.exp", "AP203.EXP", EXAMPLES / "product.exp", str(EXAMPLES / "product.exp"), str(tmp_path / "odd name")):
        with pytest.raises(ValueError) as found:
            p21.Schema(path)
        assert str(found.value) == f"p21: this is the path of a schema, and no text: p21.Schema.read({os.fspath(path)!r}) reads the file"
    for wrong in ("", "SCHEMA s", "(* not closed", "a word"):
        with pytest.raises(p21.SchemaRefused):
            p21.Schema(wrong)
    with pytest.raises(FileNotFoundError):
        p21.Schema.read(tmp_path / "none.exp")
    with pytest.raises(TypeError):
        p21.Schema(7)


# --- Refusals ---


def test_what_a_refusal_says(product):
    with pytest.raises(p21.Refused) as found:
        p21.check(product, EXAMPLES / "refused" / "Count.step")
    refusal = found.value
    assert refusal.number is p21.RefusalNumber.COUNT and refusal.number == 45 and f"{refusal.number}" == "45"
    assert refusal.sentence == "The record has another number of values than the entity."
    assert refusal.advice.endswith("Mostly the file was written for another edition of the schema.")
    assert repr(refusal) == "<p21.Refused: refused 45 Count in #3: The record has another number of values than the entity.>"
    assert "<td" in refusal._repr_html_() and "#3" in refusal._repr_html_()
    with pytest.raises(p21.SchemaRefused) as found:
        p21.Schema("SCHEMA s; USE FROM t; END_SCHEMA;")
    assert found.value.number is p21.SchemaRefusalNumber.LEFT_OUT and found.value.number != p21.RefusalNumber.LEFT_OUT
    assert found.value.sentence == "A form of EXPRESS that is not read." and "EXTENSIBLE" in found.value.advice


def test_each_refusal_has_words():
    for number in p21.RefusalNumber:
        refusal = p21.Refused(number, "Name")
        assert refusal.sentence.endswith(".") and len(refusal.advice) > 20 and "    " not in refusal.advice
    for number in p21.SchemaRefusalNumber:
        refusal = p21.SchemaRefused(number, "Name")
        assert refusal.sentence.endswith(".") and len(refusal.advice) > 20


@pytest.mark.parametrize(
    "refusal",
    [
        p21.Refused(45, "Count", instance=3),
        p21.Refused(26, "LeftOut(Scope)", statement=8, which="second"),
        p21.Refused(49, "WrongKind", instance=1, place=p21.RefusalPlace(278, 9, 30, "CARTESIAN_POINT", "COORDINATES", (1,))),
        p21.SchemaRefused(5, "Circular"),
    ],
)
def test_refusals_pickle(refusal):
    copy = pickle.loads(pickle.dumps(refusal))
    assert (type(copy), str(copy), vars(copy)) == (type(refusal), str(refusal), vars(refusal))


def test_which_of_two(product):
    refused = EXAMPLES / "refused" / "Count.step"
    for make in (lambda path: path, lambda path: path.read_bytes(), lambda path: open(path, "rb")):
        for first, second, which in ((refused, PRODUCT, "first"), (PRODUCT, refused, "second"), (refused, refused, "first")):
            for call in (p21.same, p21.diff):
                with pytest.raises(p21.Refused) as found:
                    call(product, make(first), make(second))
                assert found.value.which == which and str(found.value) == f"{which}: refused 45 Count in #3"
                assert pickle.loads(pickle.dumps(found.value)).which == which


# Where the files of examples/refused are refused: byte, line and column, entity, attribute and indices.
PLACES = {
    "BadByte": (0, 1, 1, None, None, ()),
    "BadDirective": (135, 5, 15, None, None, ()),
    "Count": (355, 11, 31, "AXIS2_PLACEMENT_3D", "REF_DIRECTION", ()),
    "Dangling": None,
    "EndsEarly": (332, 11, 24, None, None, ()),
    "Missing": (289, 10, 11, "PERSON", "ID", ()),
    "NotUtf8": (263, 9, 19, None, None, ()),
    "SchemaName": (202, 6, 14, None, None, ()),
    "UnknownEntity": (312, 11, 4, None, None, ()),
    "WrongKind": (278, 9, 30, "CARTESIAN_POINT", "COORDINATES", (1,)),
}


def refusal_of(call, *words):
    with pytest.raises(p21.Refused) as found:
        call(*words)
    return found.value


@pytest.mark.parametrize("name", PLACES)
def test_where_a_file_is_refused(product, name):
    path, wanted = EXAMPLES / "refused" / f"{name}.step", PLACES[name]
    for source in (path, str(path), path.read_bytes(), memoryview(path.read_bytes())):
        for call in (p21.check, p21.canonical, p21.accept):
            assert refusal_of(call, product, source).place == wanted
        assert refusal_of(p21.same, product, PRODUCT.read_bytes(), source).place == wanted
        assert refusal_of(p21.same, product, source, PRODUCT).place == wanted
    # What came in pieces, or was given open, isn't read again.
    unread = wanted and (wanted[0], None, None, *wanted[3:])
    with open(path, "rb") as file:
        assert refusal_of(p21.check, product, file).place == unread
    for size in (1, 7, 100):
        with p21.Session(product) as session:

            def feed(size=size, session=session):
                text = path.read_bytes()
                for at in range(0, len(text), size):
                    session.feed(text[at : at + size])
                session.finish()

            assert refusal_of(feed).place == unread


def test_a_place_under_a_schema_that_is_closed():
    schema = p21.Schema(POINTS)
    session = p21.Session(schema)
    schema.close()
    place = refusal_of(session.feed, HEAD + b"#1=POINT(1.,2);").place
    assert (place.entity, place.attribute, place.byte) == ("POINT", "Y", len(HEAD) + 12)


def test_lines_and_columns():
    from p21._places import position

    text = b"ab\nc\r\n\rd\n\n"
    wanted = {0: (1, 1), 1: (1, 2), 2: (1, 3), 3: (2, 1), 4: (2, 2), 6: (3, 1), 7: (4, 1), 8: (4, 2), 9: (5, 1), 10: (6, 1), 11: None}
    for byte, found in wanted.items():
        for size in (1, 2, 3, 100):
            assert position((text[at : at + size] for at in range(0, len(text), size)), byte) == found, (byte, size)


def test_the_places_of_the_program(product, program):
    for path in sorted((EXAMPLES / "refused").glob("*.step")):
        words = [program, "check", "--format", "jsonl", EXAMPLES / "product.exp", path]
        row = json.loads(subprocess.run(words, stderr=subprocess.PIPE, check=False).stderr)
        place = refusal_of(p21.check, product, path).place
        if row["number"] != p21.RefusalNumber.DANGLING:
            # The entity of a part that is refused for no attribute the program finds by a second reading.
            if "attribute" not in row:
                row.pop("entity", None)
            named = tuple(row.get(name) for name in ("byte", "line", "column", "entity", "attribute"))
            assert place == (*named, tuple(row.get("indices", ()))), path.name


# --- Files by themselves ---


def test_syntax(product):
    for source in (PRODUCT, PRODUCT.read_bytes(), open(PRODUCT, "rb")):
        found = p21.syntax(source)
        assert (found.instances, found.schema) == (128, "PRODUCT_MODEL")
        assert found.header[:3] == [("description", "A block with six faces"), ("implementation level", "2;1"), ("file name", "block.step")]
        assert ("author", "Edda Kr\u00fcger") in found.header and ("originating system", "") in found.header
        assert found.keywords["ADVANCED_FACE"] == 6 and list(found.keywords) == sorted(found.keywords)
    assert repr(found) == "<p21.Syntax of PRODUCT_MODEL, 128 instances>" and "ADVANCED_FACE" in found._repr_html_()
    by_themselves = {"BadByte": 1, "BadDirective": 4, "Dangling": 56, "EndsEarly": 24, "NotUtf8": 6}
    for name, place in PLACES.items():
        path = EXAMPLES / "refused" / f"{name}.step"
        if name not in by_themselves:
            assert p21.syntax(path).instances > 0
            continue
        refusal = refusal_of(p21.syntax, path)
        assert (refusal.number, refusal.place) == (by_themselves[name], place)
    with pytest.raises(FileNotFoundError):
        p21.syntax(EXAMPLES / "none.step")
    with pytest.raises(ValueError):
        p21.syntax("ISO-10303-21;HEADER;")


# --- A canonical file piece by piece ---


def test_a_canonical_file_is_read(product, tmp_path):
    whole = p21.canonical(product, PRODUCT)
    with p21.accept(product, PRODUCT) as accepted:
        for size in (1, 7, 4096, len(whole), len(whole) + 1):
            with accepted.open() as file:
                assert b"".join(iter(lambda: file.read(size), b"")) == whole
        with accepted.open() as file, open(tmp_path / "copy", "wb") as copy:
            shutil.copyfileobj(file, copy, 100)
        assert (tmp_path / "copy").read_bytes() == whole == accepted.open().read()
        assert list(accepted.open()) == whole.splitlines(keepends=True)
        room = bytearray(b"." * 20)
        with accepted.open() as file:
            assert file.raw.readinto(room) == 20 and room == whole[:20]
            assert file.raw.readinto(memoryview(room)[:3]) == 3 and room == whole[20:23] + whole[3:20]
            assert file.raw.readinto(array.array("I", [0])) == 4 and file.raw.readinto(bytearray()) == 0
            with pytest.raises(BufferError, match="it is read only"):
                file.raw.readinto(b"read only")
            assert file.raw.readall() == whole[27:] and file.raw.readinto(room) == 0
        assert file.closed


def test_canonical_files_are_read_side_by_side(product):
    whole = p21.canonical(product, PRODUCT)
    with p21.accept(product, PRODUCT) as accepted:
        with concurrent.futures.ThreadPoolExecutor(8) as pool:
            assert list(pool.map(lambda _: accepted.open().read(), range(32))) == [whole] * 32
        first, second = accepted.open(), accepted.open()
        assert first.read(100) + second.read(10) + first.read() == whole[:100] + whole[:10] + whole[100:]
        left = second.raw
    with pytest.raises(ValueError, match="closed"):
        left.readinto(bytearray(9))


# --- Threads and processes ---


def test_threads_share_a_schema(product):
    canonical = p21.canonical(product, PRODUCT)

    def work(number):
        for _ in range(5):
            assert p21.check(product, PRODUCT.read_bytes()) == COUNTS
            assert p21.canonical(product, EXAMPLES / "product-other.step") == canonical
            with p21.accept(product, PRODUCT) as accepted:
                assert accepted.line(1) == b"#1=DIMENSIONAL_EXPONENTS(1.,0.,0.);"
            with pytest.raises(p21.Refused):
                p21.check(product, EXAMPLES / "refused" / "Count.step")
        return number

    with concurrent.futures.ThreadPoolExecutor(8) as pool:
        assert list(pool.map(work, range(16))) == list(range(16))


def test_threads_feed_one_session(product):
    """Pieces of one session from several threads: one call runs at a time, so that nothing breaks."""
    session = p21.Session(product)
    with concurrent.futures.ThreadPoolExecutor(8) as pool:
        list(pool.map(lambda _: session.feed(b"   "), range(400)))
    session.feed(PRODUCT.read_bytes())
    assert session.finish().report == COUNTS


def test_a_session_goes_to_another_thread(product):
    session = p21.Session(product)
    thread = threading.Thread(target=session.feed, args=(PRODUCT.read_bytes(),))
    thread.start()
    thread.join()
    assert session.finish().report == COUNTS


def test_a_schema_that_is_closed_while_it_is_used():
    schema = p21.Schema(POINTS)
    begun = threading.Event()
    text = many_points(100_000)

    def work():
        begun.set()
        return p21.check(schema, text).instances

    with concurrent.futures.ThreadPoolExecutor(1) as pool:
        found = pool.submit(work)
        begun.wait()
        time.sleep(0.01)
        schema.close()
        # It was begun in time, or finds the schema closed.
        try:
            assert found.result() == 100_000
        except ValueError:
            pass


def test_the_interpreter_goes_on_while_a_call_runs():
    """While a call runs, other threads run Python: the calling thread alone waits."""
    schema, text = p21.Schema(POINTS), many_points(300_000)
    done = threading.Event()
    counted = 0

    def work():
        p21.check(schema, text)
        done.set()

    thread = threading.Thread(target=work)
    thread.start()
    while not done.is_set():
        counted += 1
        time.sleep(0)
    thread.join()
    assert counted > 20


@pytest.mark.skipif(len(os.sched_getaffinity(0)) < 2, reason="there is one processor")
def test_two_threads_are_faster_than_one():
    schema, text = p21.Schema(POINTS), many_points(400_000)
    check = lambda _: p21.check(schema, text)

    def seconds(threads):
        with concurrent.futures.ThreadPoolExecutor(threads) as pool:
            begun = time.perf_counter()
            list(pool.map(check, range(4)))
            return time.perf_counter() - begun

    # A machine that does other work may be slow in one of the tries.
    found = []
    for _ in range(8):
        found.append((seconds(1), seconds(2)))
        if found[-1][1] < 0.8 * found[-1][0]:
            return
    pytest.fail(f"seconds of one thread and of two: {found}")


def counts_of(job):
    """The work of a process: a schema and a path come to it."""
    schema, path = job
    return p21.check(schema, path)


@pytest.mark.parametrize("method", ["spawn", "forkserver"])
def test_processes(product, method):
    with concurrent.futures.ProcessPoolExecutor(2, mp_context=multiprocessing.get_context(method)) as pool:
        assert list(pool.map(counts_of, [(product, PRODUCT)] * 6)) == [COUNTS] * 6
        with pytest.raises(p21.Refused) as found:
            pool.submit(p21.check, product, EXAMPLES / "refused" / "Count.step").result()
        assert str(found.value) == "refused 45 Count in #3"


def test_schemas_pickle(product):
    for _ in range(3):
        copy = pickle.loads(pickle.dumps(product))
        assert p21.check(copy, PRODUCT) == COUNTS and copy.text == product.text
        copy.close()
        assert copy.closed and not product.closed
    with pytest.raises(TypeError):
        pickle.dumps(p21.Session(product))


# --- The recipes of docs/LIBRARY.md ---


def recipe(title):
    """The program that the page has below a title, and what it prints."""
    page = (ROOT / "docs" / "LIBRARY.md").read_text()
    part = page.split(f"\n#### {title}\n")[1].split("\n#### ")[0]
    return re.search(r"```python\n(.*?)```\n\nprints\n\n```\n(.*?)```", part, re.S).groups()


@pytest.mark.parametrize("title", ["Many files in threads", "Many files in processes", "Many files with Dask"])
def test_recipes(title, tmp_path):
    if "Dask" in title:
        pytest.importorskip("distributed")
    program, printed = recipe(title)
    (tmp_path / "program.py").write_text(program)
    (tmp_path / "examples").symlink_to(EXAMPLES)
    environment = dict(os.environ, PYTHONPATH=str(ROOT / "python"), PYTHONDONTWRITEBYTECODE="1")
    run = subprocess.run([sys.executable, "program.py"], cwd=tmp_path, env=environment, stdout=subprocess.PIPE, stderr=subprocess.PIPE, text=True)
    assert (run.stdout, run.returncode) == (printed, 0), run.stderr


# --- Notebooks, help and types ---


def test_what_a_notebook_shows(product):
    assert repr(product) == "<p21.Schema product_model, 6319 bytes>"
    with p21.Session(product) as session:
        session.feed(b"ISO")
        assert repr(session) == "<p21.Session under product_model, 3 bytes taken>"
    assert repr(session) == "<p21.Session under product_model, closed>"
    with p21.accept(product, PRODUCT) as accepted:
        assert repr(accepted) == "<p21.Accepted under product_model, 128 instances, 4872 canonical bytes>"
        assert accepted._repr_html_() == accepted.report._repr_html_()
    assert repr(accepted) == "<p21.Accepted under product_model, closed>"
    found = p21.diff(product, PRODUCT, EXAMPLES / "product-changed.step")
    assert repr(found) == "<p21.Differences: different, 1 listed>"
    assert re.findall(r"<td[^>]*>(.*?)</td>", found._repr_html_())[:4] == ["changed", "24", "CARTESIAN_POINT", "COORDINATES"]
    assert "&lt;" in p21.Refused(1, "<", statement=1)._repr_html_()
    assert p21.Schema("(* SCHEMA no; *) schema -- x\n yes; END_SCHEMA;").__repr__().startswith("<p21.Schema yes,")


def test_help(program):
    schema = p21.Schema(POINTS)
    point = HEAD.replace(b"\n", b"") + b"#1=POINT(0.50,1.E0);ENDSEC;END-ISO-10303-21;"
    names = dict(p21=p21, schema=schema, point=point, moved=point.replace(b"1.E0", b"3."))
    folder, tried = os.getcwd(), 0
    os.chdir(ROOT)
    try:
        # The library stands in the package too, where the build puts it, and is no module.
        names_of_modules = [it.name for it in pkgutil.iter_modules(p21.__path__) if it.name not in ("__main__", "libp21")]
        for module in [p21, *(importlib.import_module(f"p21.{name}") for name in names_of_modules)]:
            found = doctest.testmod(module, extraglobs={**names, **vars(module)} if module is not p21 else None)
            assert found.failed == 0, module.__name__
            tried += found.attempted
    finally:
        os.chdir(folder)
    assert tried >= 30
    documented = [name for name in p21.__all__ if ">>>" in (getattr(p21, name).__doc__ or "")]
    answers = {"Report", "Hash", "Differences", "Place", "Survey", "Syntax", "Aggregate", "Attribute", "Bits", "DERIVED", "Entity", "EntityAttribute", "Typed", "Use"}
    assert set(p21.__all__) - set(documented) <= {"Buffer", "Source", "survey", "syntax_survey", "accept", "frame", *answers}


# --- What the tools answer ---


# A program that doesn't answer, and what is raised.
NO_ANSWERS = [
    ("kill -9 $$", OSError, "ended by signal 9"),
    ("echo 'refused 45 Count in #3' >&2; kill -9 $$", OSError, "ended by signal 9"),
    ("echo 'out of memory' >&2; exit 3", MemoryError, "out of memory"),
    ("exit 1", OSError, "ended with status 1"),
    ("echo usage >&2; exit 2", OSError, "usage"),
]


def program_that(lines, folder):
    """A program of these lines of a shell."""
    path = folder / "p21"
    path.write_text(f"#!/bin/sh\n{lines}\n")
    path.chmod(0o755)
    return str(path)


@pytest.mark.parametrize("lines, raised, said", [*NO_ANSWERS, ("exit 0", OSError, "no answer")])
def test_a_survey_without_an_answer(product, tmp_path, monkeypatch, lines, raised, said):
    monkeypatch.setenv("P21", program_that(lines, tmp_path))
    with pytest.raises(raised, match=said):
        p21.survey(product, PRODUCT)


@pytest.mark.parametrize("lines, raised, said", NO_ANSWERS)
def test_a_place_without_an_answer(product, tmp_path, monkeypatch, lines, raised, said):
    monkeypatch.setenv("P21", program_that(lines, tmp_path))
    with pytest.raises((OSError, MemoryError)):
        p21.where(product, EXAMPLES / "refused" / "Count.step")


def test_hashes(product, program):
    names = ["product.step", "product-other.step", "product-changed.step"]
    for data in (False, True):
        words = [sys.executable, ROOT / "tools/p21-table", *(["--data"] if data else []), "--format", "json", EXAMPLES / "product.exp"]
        rows = subprocess.run([*words, *(EXAMPLES / name for name in names)], stdout=subprocess.PIPE, check=True).stdout.splitlines()
        for name, row in zip(names, map(json.loads, rows)):
            assert p21.hash(product, EXAMPLES / name, data=data) == (row["sha256"], row["instances"]), name


def test_where(product, program):
    path = EXAMPLES / "refused" / "Count.step"
    for source in (path, path.read_bytes(), open(path, "rb")):
        place = p21.where(product, source)
        assert (place.number, place.name, place.instance, place.line, place.column) == (p21.RefusalNumber.COUNT, "Count", 3, 11, 31)
        assert place.attribute == "AXIS2_PLACEMENT_3D.REF_DIRECTION" and "REF_DIRECTION" in place._repr_html_()
        assert str(place).startswith("11:31: refused 45 Count in #3; ")
    place = p21.where(product, b"")
    assert (place.answer, place.statement, place.instance) == ("refused 24 EndsEarly at statement 1", 1, None)
    assert p21.where(product, PRODUCT) is None
    with pytest.raises(FileNotFoundError):
        p21.where(product, EXAMPLES / "none.step")


def test_survey(product, program):
    said = subprocess.run([program, "check", "--all", EXAMPLES / "product.exp", PRODUCT], stdout=subprocess.PIPE, stderr=subprocess.PIPE)
    if said.returncode == 2:
        with pytest.raises(OSError, match="--all"):
            p21.survey(product, PRODUCT)
        pytest.skip("the program has no check --all")
    assert p21.survey(product, PRODUCT) == p21.Survey([], True)
    text = many_points(5).replace(b"#2=POINT(2.5,", b"#2=POINT(").replace(b"#4=POINT(4.5,", b"#4=POINT(4,")
    schema = p21.Schema(POINTS)
    found = p21.survey(schema, text)
    assert [str(it) for it in found.refusals] == ["refused 45 Count in #2", "refused 49 WrongKind in #4"] and found.is_whole
    assert found.refusals[1].sentence == "The value is of another kind than its type."
    assert found.refusals[1].place == (text.index(b"(4,") + 1, 5, 10, "POINT", "X", ()) and "POINT.X" in found._repr_html_()
    assert found.read is None and repr(found) == "<p21.Survey, 2 refusals>"
    found = p21.survey(schema, text, most=1)
    assert [str(it) for it in found.refusals] == ["refused 45 Count in #2"] and not found.is_whole and found.read is None
    assert repr(found) == "<p21.Survey, 1 refusals, no more were looked for>"
    found = p21.survey(schema, text[:-20])
    assert [it.number for it in found.refusals][-1] == p21.RefusalNumber.ENDS_EARLY and not found.is_whole
    assert found.read == text.index(b"ENDSEC;END-") and repr(found) == f"<p21.Survey, 3 refusals, read {found.read} bytes>"
    with pytest.raises(FileNotFoundError):
        p21.survey(schema, EXAMPLES / "none.step")


def test_a_survey_that_goes_on(program):
    text = many_points(5).replace(b"#2=POINT(2.5,", b"#2=point(2.5,").replace(b"#3=POINT(3.5,", b"#3=POINT(;").replace(b"#5=POINT(5.5,", b"#5=POINT(")
    schema = p21.Schema(POINTS)
    found = p21.survey(schema, text)
    assert [str(it) for it in found.refusals] == ["refused 1 BadByte at statement 9", "refused 20 Unexpected at statement 10", "refused 45 Count in #5"]
    assert found.is_whole and found.read is None
    assert found.refusals[0].place == (text.index(b"point"), 3, 4, None, None, ())
    assert found.refusals[1].place == (text.index(b"(;") + 1, 4, 10, None, None, ())
    found = p21.survey(schema, text, most=2)
    assert len(found) == 2 and not found.is_whole and found.read is None
    # A refusal of what opens a data section ends the reading.
    found = p21.survey(schema, text.replace(b"DATA;", b"DATA"))
    assert [it.number for it in found.refusals] == [p21.RefusalNumber.UNEXPECTED] and not found.is_whole
    assert found.read == text.index(b"DATA;")


def test_a_survey_of_a_file_by_itself(program):
    text = many_points(5).replace(b"#2=POINT(2.5,", b"#2=point(2.5,").replace(b"#3=POINT(3.5,", b"#3=POINT(;").replace(b"#5=", b"#4=")
    assert p21.syntax_survey(PRODUCT) == p21.Survey([], True)
    assert p21.syntax_survey(many_points(5)) == p21.Survey([], True)
    found = p21.syntax_survey(text)
    assert [str(it) for it in found.refusals] == ["refused 1 BadByte at statement 9", "refused 20 Unexpected at statement 10", "refused 40 DuplicateName in #4"]
    assert found.is_whole and found.read is None
    assert found.refusals[0].place == (text.index(b"point"), 3, 4, None, None, ())
    assert found.refusals[1].place == (text.index(b"(;") + 1, 4, 10, None, None, ())
    assert found.refusals[2].place.byte == text.rindex(b"#4=")
    found = p21.syntax_survey(text, most=2)
    assert len(found) == 2 and not found.is_whole and found.read is None
    found = p21.syntax_survey(text.replace(b"DATA;", b"DATA"))
    assert [it.number for it in found.refusals] == [p21.RefusalNumber.UNEXPECTED] and not found.is_whole
    # A reference has no place.
    dangling = p21.syntax_survey(EXAMPLES / "refused" / "Dangling.step").refusals
    assert [it.number for it in dangling] == [p21.RefusalNumber.DANGLING] and dangling[0].place is None
    with pytest.raises(FileNotFoundError):
        p21.syntax_survey(EXAMPLES / "none.step")


def test_the_program_by_its_module(program):
    environment = dict(os.environ, PYTHONPATH=str(ROOT / "python"))
    run = lambda *words: subprocess.run([sys.executable, "-m", "p21", *words], cwd=ROOT, env=environment, stdout=subprocess.PIPE, stderr=subprocess.PIPE, text=True)
    done = run("check", "examples/product.exp", "examples/product.step")
    assert (done.stdout, done.returncode) == ("accepted, instances 128, canonical bytes 4872\n", 0)
    done = run("where", "examples/product.exp", "examples/refused/Count.step")
    assert done.stdout.startswith("refused 45 Count in #3\n") and done.returncode == 1
    assert run("nothing").returncode == 2
    # Where there is no program, the status is none of its answers.
    environment["P21"] = str(ROOT / "nowhere")
    assert run("check", "examples/product.exp", "examples/product.step").returncode == 127
    for name in ("P21", "P21_LIBRARY"):
        environment.update({"P21": program, name: str(ROOT / "README.md")})
        assert run("check", "examples/product.exp", "examples/product.step").returncode == 126
