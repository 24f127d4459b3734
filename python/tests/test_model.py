"""The instances of a file as objects: every value of the rows of tests/bindings/model.py against the plain reading, and what a user
does with them."""

import decimal
import pathlib
import sqlite3
import sys
import threading

import p21
import pytest

ROOT = pathlib.Path(__file__).resolve().parents[2]
sys.path[:0] = [str(ROOT / "tests"), str(ROOT / "tests" / "bindings")]

import model as rows  # noqa: E402
from plain import canonical, scalars  # noqa: E402
from plain.files import read_file  # noqa: E402
from plain.schema import DERIVED, TWO, read_schema  # noqa: E402

EXAMPLES = ROOT / "examples"
FILES = {name: (schema, file) for name, schema, file in rows.files()}


def wanted(meant):
    """A value as the package must give it; a reference by its name."""
    match meant:
        case ("$",):
            return None
        case ("*",):
            return p21.DERIVED
        case ("whole", digits):
            return int(digits)
        case ("real" | "number", ratio):
            return float(scalars.spelled_ratio(ratio))
        case ("text", characters):
            return str(characters)
        case ("item" | "bits", _):
            return scalars.spelled(meant)
        case ("name", name):
            return ("reference", name)
        case ("typed", word, inside):
            return (word, wanted(inside))
        case ("list" | "array", elements):
            return [wanted(x) for x in elements]
        case ("set", elements):
            return [wanted(x) for x in sorted(elements, key=canonical.value)]
        case ("bag", counted):
            return [wanted(x) for x in sorted((x for x, often in counted for _ in range(often)), key=canonical.value)]
    raise ValueError(meant)


def plain(value):
    """What the package gave, in the same form."""
    if isinstance(value, p21.Instance):
        return ("reference", value.name)
    if isinstance(value, p21.Typed):
        return (value.type, plain(value.value))
    if isinstance(value, p21.Aggregate):
        return [plain(x) for x in value]
    if isinstance(value, (p21.Enum, p21.Bits)):
        return repr(value)
    return value


@pytest.fixture(params=FILES)
def both(request):
    """A model, with the schema and the meaning of its file by the plain reading."""
    schema_text, file = FILES[request.param]
    schema = read_schema(schema_text)
    return p21.read(p21.Schema(schema_text), file), schema, read_file(schema, file)


def test_every_value(both):
    model, schema, meaning = both
    assert [instance.name for instance in model] == sorted(meaning.instances) and len(model) == len(meaning.instances)
    for name, (section, meant) in meaning.instances.items():
        instance, values = model[name], dict(meant.values)
        leaves = schema.leaves(meant.entities)
        entities = schema.order(leaves[0]) if len(leaves) == 1 else sorted(meant.entities)
        assert repr(instance) == canonical.instance(schema, name, meant)
        assert instance.section == canonical.section_line(section)
        assert list(instance.entities) == entities
        assert instance.type == (leaves[0] if len(leaves) == 1 else "+".join(entities))
        places = schema.places(leaves[0]) if len(leaves) == 1 else [(e, a) for e in entities for a in schema.entities[e].own]
        found = instance.attributes()
        assert [(x.entity, x.name) for x in found] == places
        for attribute, place in zip(found, places):
            assert plain(attribute.value) == wanted(values[place])
            if [x.name for x in found].count(attribute.name) == 1:
                assert plain(getattr(instance, attribute.name)) == wanted(values[place])
                if not hasattr(p21.Instance, attribute.name.lower()):
                    assert plain(getattr(instance, attribute.name.lower())) == wanted(values[place])


def test_every_user(both):
    model, schema, meaning = both
    used = {}
    for name, (_, meant) in meaning.instances.items():
        for place, value in meant.values:
            for target in set(rows.named(value)):
                used.setdefault(target, set()).add((name, *place))
    for name in meaning.instances:
        found = [(use.instance.name, use.entity, use.attribute) for use in model.users(name)]
        assert set(found) == used.get(name, set()) and len(set(found)) == len(found)
        assert [use[0] for use in found] == sorted(use[0] for use in found)
    assert model.users(2**63) == []


def test_every_entity(both):
    model, schema, _ = both
    for name, entity in schema.entities.items():
        found = model.schema.entity(name.lower())
        assert (found.name, found.is_abstract, list(found.supertypes)) == (name, entity.abstract, entity.supertypes)
        assert [(x.entity, x.name) for x in found.attributes] == schema.places(name)
        for attribute in found.attributes:
            decided = schema.type_at(schema.order(name), (attribute.entity, attribute.name))
            assert attribute.derived == (decided == DERIVED)
            assert attribute.optional == (decided not in (DERIVED, TWO) and decided[0])
    with pytest.raises(KeyError):
        model.schema.entity("nothing")


def test_by_type(both):
    model, schema, meaning = both
    for name in schema.entities:
        found = [instance.name for instance in model.by_type(name)]
        assert found == [n for n, (_, meant) in sorted(meaning.instances.items()) if name in meant.entities]
        alone = [instance.name for instance in model.by_type(name, subtypes=False)]
        assert alone == [n for n, (_, meant) in sorted(meaning.instances.items()) if name in schema.leaves(meant.entities) or (len(schema.leaves(meant.entities)) > 1 and name in meant.entities)]
    with pytest.raises(KeyError):
        list(model.by_type("nothing"))


def test_kinds_of_values():
    model = p21.read(p21.Schema(rows.SCHEMA), FILES["each kind"][1])
    assert [model[5].members.kind, model[5].again.kind, model[5].grid.kind] == ["SET", "BAG", "ARRAY"]
    assert model[5].table.kind is None and model[8].value.value.kind is None
    assert model[5].value == p21.Typed("MEASURE", 1e-7) and model[9].value.value == p21.Enum("GREEN")
    assert model[2].mark == "RED" and repr(model[2].flag) == ".T." and repr(model[2].bits) == '"01234"'
    assert model[3].weight is p21.DERIVED and repr(model[3].weight) == "*"
    assert model[11].words == ("", "it's", "\\", "é", "\U0001f600", "/*no remark*/", "#1", "a,b)")
    exact = p21.read(p21.Schema(rows.SCHEMA), FILES["each kind"][1], real=decimal.Decimal)
    assert exact[3].x == decimal.Decimal("9007199254740993") and exact[1].weight == decimal.Decimal("0.1")
    with pytest.raises(AttributeError):
        model[1].colour


def test_names():
    model = p21.read(EXAMPLES / "product.exp", EXAMPLES / "product.step")
    assert 15 in model and 999 not in model and "15" not in model and -1 not in model and 2**64 not in model
    assert model.get(999) is None
    with pytest.raises(KeyError, match="p21: the file has no #999"):
        model[999]
    for asked in (lambda: model["15"], lambda: model["#15"], lambda: model.users("#15"), lambda: model.users(None)):
        with pytest.raises(TypeError, match="p21: the name of an instance is a number, as 12 for #12, and not"):
            asked()
    assert [model.users(name) for name in (999, -1, 2**64, 2**64 + 15)] == [[]] * 4
    again = p21.read(EXAMPLES / "product.exp", EXAMPLES / "product-other.step")
    assert all(instance == again[instance.name] for instance in model) and len({*model, *again}) == len(model)
    changed = p21.read(EXAMPLES / "product.exp", EXAMPLES / "product-changed.step")
    assert any(changed.get(instance.name) != instance for instance in model)
    assert model[15] != 15 and "NAME" in dir(model[15])
    assert repr(model) == "<p21.Model under PRODUCT_MODEL, 128 instances>"
    assert [keyword for keyword, _ in model.header] == ["FILE_DESCRIPTION", "FILE_NAME", "FILE_SCHEMA"]
    assert model.header[2][1] == (("PRODUCT_MODEL",),)


def test_refused():
    with pytest.raises(p21.Refused):
        p21.read(EXAMPLES / "product.exp", EXAMPLES / "refused" / "Count.step")


def test_closed():
    model = p21.read(EXAMPLES / "product.exp", EXAMPLES / "product.step")
    users = model.users(15)
    instance = model[15]
    model.accepted.close()
    assert repr(instance).startswith("#15=PRODUCT(") and len(users) > 0
    for call in (lambda: model[15], lambda: list(model), lambda: instance.references()[0].type, lambda: instance.section):
        with pytest.raises(ValueError):
            call()


def test_a_schema_that_is_closed():
    schema = p21.Schema.read(EXAMPLES / "product.exp")
    model = p21.read(schema, EXAMPLES / "product.step")
    schema.close()
    assert model[15].type == "PRODUCT" and model[15].attributes()[0].name == "ID"


def test_threads():
    model = p21.read(EXAMPLES / "product.exp", EXAMPLES / "product.step")
    texts = [[(x.name, plain(x.value)) for x in instance.attributes()] for instance in model]
    uses = [len(model.users(instance.name)) for instance in model]
    right = []

    def work():
        right.append(texts == [[(x.name, plain(x.value)) for x in instance.attributes()] for instance in model])
        right.append(uses == [len(model.users(instance.name)) for instance in model])

    threads = [threading.Thread(target=work) for _ in range(4)]
    for thread in threads:
        thread.start()
    for thread in threads:
        thread.join()
    assert right == [True] * 8


def test_sqlite(tmp_path, both):
    model, schema, meaning = both
    path = tmp_path / "model.sqlite"
    model.to_sqlite(path)
    with pytest.raises(OSError):
        model.to_sqlite(path)
    database = sqlite3.connect(path)
    tables = {name for (name,) in database.execute("select name from sqlite_master where type = 'table'")}
    assert tables == {"_references"} | {instance.type for instance in model}
    for table in tables - {"_references"}:
        (count,) = database.execute(f'select count(*) from "{table}"').fetchone()
        assert count == sum(instance.type == table for instance in model)
    (count,) = database.execute("select count(*) from _references").fetchone()
    assert count == sum(len(model.users(name)) for name in meaning.instances)
    database.close()


def test_frame():
    pytest.importorskip("pandas")
    model = p21.read(EXAMPLES / "product.exp", EXAMPLES / "product.step")
    table = p21.frame(model, "cartesian_point")
    assert list(table.columns) == ["NAME", "COORDINATES"]
    assert list(table.index) == [instance.name for instance in model.by_type("CARTESIAN_POINT")]
    assert list(table["COORDINATES"]) == [instance.coordinates for instance in model.by_type("CARTESIAN_POINT")]
