/*
 * Uses each class of p21.hpp over files of `examples`, and prints what is wrong; the status is 1 where something is.
 *
 *   classes FOLDER      FOLDER is `examples`
 */
#include <cstdlib>
#include <fstream>
#include <functional>
#include <iostream>
#include <iterator>
#include <string>
#include <thread>
#include <type_traits>
#include <vector>

#include "p21.hpp"

static int wrong;

static void judge(bool holds, const char *what) {
    if (!holds) {
        std::cout << "wrong: " << what << '\n';
        wrong = 1;
    }
}

static std::string text_of(const std::string &path) {
    std::ifstream file(path, std::ios::binary);
    if (!file) {
        std::cerr << path << ": can't be opened\n";
        std::exit(2);
    }
    return {std::istreambuf_iterator<char>(file), {}};
}

/* The line of what is refused, or "accepted". */
static std::string line_of(const std::function<void()> &call) {
    try {
        call();
    } catch (const p21::refused &refusal) {
        return refusal.what();
    }
    return "accepted";
}

static bool is_misused(const std::function<void()> &call) {
    try {
        call();
    } catch (const std::logic_error &) {
        return true;
    }
    return false;
}

static bool is_past(const std::function<void()> &call) {
    try {
        call();
    } catch (const std::out_of_range &) {
        return true;
    }
    return false;
}

static_assert(!std::is_copy_constructible_v<p21::text> && std::is_nothrow_move_constructible_v<p21::text>);
static_assert(!std::is_copy_constructible_v<p21::session> && std::is_nothrow_move_constructible_v<p21::session>);
static_assert(!std::is_copy_constructible_v<p21::refusals> && std::is_nothrow_move_constructible_v<p21::refusals>);
static_assert(!std::is_copy_constructible_v<p21::accepted> && std::is_nothrow_move_constructible_v<p21::accepted>);
static_assert(!std::is_copy_constructible_v<p21::users> && std::is_nothrow_move_constructible_v<p21::users>);
static_assert(std::is_copy_constructible_v<p21::schema> && std::is_nothrow_move_constructible_v<p21::schema>);

static void test_files(const p21::schema &schema, const std::string &folder) {
    const std::string product = text_of(folder + "/product.step"), other = text_of(folder + "/product-other.step");
    const std::string changed = text_of(folder + "/product-changed.step"), refused = text_of(folder + "/refused/Count.step");
    const p21::counts counts = schema.check(product);
    judge(counts.instances == 128 && counts.canonical_bytes == 4872, "the counts of a file");
    judge(schema.check(product.data(), product.size()).instances == 128, "a pointer and a length");
    const p21::text canonical = schema.canonical(product);
    judge(canonical.view().size() == 4872, "a canonical file");
    judge(schema.canonical(canonical.view()).view() == canonical.view(), "the canonical file of a canonical file");
    judge(schema.canonical(product.data(), product.size()).view() == canonical.view(), "the same by a pointer and a length");
    judge(schema.same(product, other) && !schema.same(product, changed), "files that are the same, and that differ");
    judge(line_of([&] { schema.check(refused); }) == "refused 45 Count in #3", "a file that is refused");
    judge(line_of([&] { schema.same(refused, product); }) == "first: refused 45 Count in #3", "the first of two");
    judge(line_of([&] { schema.same(product, refused); }) == "second: refused 45 Count in #3", "the second of two");
    judge(line_of([&] { schema.check({}); }) == "refused 24 EndsEarly at statement 1", "no bytes at all");
    try {
        schema.canonical(refused);
    } catch (const p21::refused &refusal) {
        judge(refusal.number() == P21_COUNT && refusal.name() == "Count" && !refusal.is_schema(), "a number and a name");
        judge(refusal.sentence() == "The record has another number of values than the entity.", "a sentence");
        judge(refusal.instance() == 3 && !refusal.statement(), "an instance and no statement");
        judge(refusal.byte() == 355 && schema.place_name(refusal.place()) == "AXIS2_PLACEMENT_3D.REF_DIRECTION", "a byte and an attribute");
        const p21_position position = p21::position_of(refused, *refusal.byte());
        judge(position.line == 11 && position.column == 31, "a line and a column");
    }
    try {
        schema.same(product, text_of(folder + "/refused/Dangling.step"));
    } catch (const p21::refused &refusal) {
        judge(refusal.number() == P21_DANGLING && !refusal.byte() && !schema.place_name(refusal.place()), "a reference has no byte");
    }
}

/* Where names of instances don't count: examples of docs/CANONICAL.md. */
static void test_numbers() {
    const p21::schema schema("SCHEMA net; ENTITY node; label : OPTIONAL STRING; next : OPTIONAL node; END_ENTITY; END_SCHEMA;");
    const auto file_of = [](const std::string &data) {
        return "ISO-10303-21;\nHEADER;\nFILE_DESCRIPTION((''),'2;1');\nFILE_NAME('','',(''),(''),'','','');\nFILE_SCHEMA(('NET'));\n"
               "ENDSEC;\nDATA;\n" + data + "ENDSEC;\nEND-ISO-10303-21;\n";
    };
    const std::string chain = file_of("#7=NODE($,#3);#3=NODE($,#12);#12=NODE($,$);#5=NODE($,#7);#9=NODE($,#5);");
    const std::string numbers = file_of("#1=NODE($,#3);\n#2=NODE($,#4);\n#3=NODE($,#2);\n#4=NODE($,#5);\n#5=NODE($,$);\n");
    const std::string circle = file_of("#1=NODE($,#2);#2=NODE($,#1);"), other = file_of("#3=NODE($,#4);#4=NODE($,#3);");
    judge(schema.numbered(chain).view() == numbers, "a numbered file");
    judge(schema.numbered(numbers.data(), numbers.size()).view() == numbers, "a numbered file is its own");
    judge(schema.same_but_for_names(chain, numbers) && !schema.same(chain, numbers), "the same but for names");
    judge(!schema.same_but_for_names(chain, circle) && schema.same_but_for_names(circle, circle), "others, and itself");
    judge(line_of([&] { schema.numbered(circle); }) == "refused 59 Alike in #1", "no numbers");
    judge(line_of([&] { schema.same_but_for_names(other, circle); }) == "first: refused 59 Alike in #3", "neither has numbers");
    judge(line_of([&] { schema.same_but_for_names(chain, file_of("#8=NODE($);")); }) == "second: refused 45 Count in #8", "the second is refused");
    try {
        schema.numbered(file_of("#8=NODE($);"));
    } catch (const p21::refused &refusal) {
        judge(refusal.byte() == 134, "where it is refused");
    }
}

/* All refusals of a file, and what one says of itself. */
static void test_readings(const p21::schema &schema, const std::string &folder) {
    const std::string product = text_of(folder + "/product.step"), refused = text_of(folder + "/refused/Count.step");
    const p21::refusals none = schema.survey(product);
    judge(none.size() == 0 && none.extent() == P21_WHOLE, "nothing is refused");
    p21::refusals found = schema.survey(refused);
    judge(found.size() == 1 && found.extent() == P21_WHOLE && found.at(0).byte() == 355, "one refusal");
    judge(std::string(found.at(0).what()) == "refused 45 Count in #3", "its line");
    judge(is_past([&] { found.at(1); }), "no refusal behind the last one");
    const p21::refusals moved = std::move(found);
    judge(moved.size() == 1 && moved.at(0).number() == P21_COUNT, "a list that was moved");
    judge(moved.read() == std::nullopt && moved.begins(0) == refused.find("#3="), "no refusal ended it, and where the statement begins");
    judge(is_past([&] { moved.begins(1); }), "no statement of a refusal behind the last one");
    const p21::refusals cut = schema.survey(std::string_view(refused).substr(0, 300), 5);
    judge(cut.extent() == P21_PART && cut.read() == cut.begins(0) && cut.read() < 300u, "a list that the end of a file ends");
    const p21::refusals references = schema.survey(text_of(folder + "/refused/Dangling.step"));
    judge(references.size() == 1 && references.begins(0) == std::nullopt, "a reference has no statement of its own");
    const p21::overview overview = p21::syntax(product);
    judge(overview.instances == 128 && overview.schema.view() == "PRODUCT_MODEL", "the instances and the schema of a file");
    judge(overview.header.view().find("author: Edda Kr\303\274ger\n") != std::string_view::npos, "its header");
    judge(overview.keywords.view().substr(0, 16) == "ADVANCED_FACE 6\n", "its keywords");
    judge(p21::syntax(refused.data(), refused.size()).instances == 3, "a pointer and a length");
    judge(line_of([] { p21::syntax({}); }) == "refused 24 EndsEarly at statement 1", "no bytes at all");
}

static void test_schemas(const p21::schema &schema, const std::string &product) {
    judge(line_of([] { p21::schema("SCHEMA s; END_SCHEMA"); }) == "schema refused S2 Syntax", "a schema that is refused");
    p21::schema copy = schema;
    judge(copy.check(product).instances == 128, "a copy of a schema");
    const p21::schema moved = std::move(copy);
    judge(moved.check(product).instances == 128, "a schema that was moved");
    judge(is_misused([&] { copy.check(product); }), "what was moved away"); // NOLINT
    judge(is_misused([&] { p21::schema of_nothing = copy; }), "a copy of what was moved away");
    copy = moved;
    judge(copy.check(product).instances == 128 && moved.check(product).instances == 128, "a schema that was assigned");
}

static void test_sessions(const p21::schema &schema, const std::string &product) {
    p21::session session(schema);
    for (std::size_t at = 0; at < product.size(); at += 100) session.feed(std::string_view(product).substr(at, 100));
    session.feed(nullptr, 0);
    p21::accepted accepted = session.finish();
    judge(accepted.size().instances == 128, "the counts behind a session");
    judge(accepted.canonical().view() == schema.canonical(product).view(), "the canonical file behind a session");
    for (const std::size_t room : {std::size_t(1), std::size_t(100), std::size_t(10000)}) {
        accepted.rewind();
        std::string read, buffer(room, ' ');
        while (const std::size_t count = accepted.read(buffer.data(), buffer.size())) read.append(buffer, 0, count);
        judge(read == accepted.canonical().view(), "the canonical file piece by piece");
        judge(accepted.read(buffer.data(), buffer.size()) == 0 && accepted.read(nullptr, 0) == 0, "behind which nothing is left");
    }
    judge(accepted.line(1)->view() == "#1=DIMENSIONAL_EXPONENTS(1.,0.,0.);", "a statement");
    judge(!accepted.line(1000), "no such instance");
    judge(is_misused([&] { session.feed("X"); }) && is_misused([&] { session.finish(); }), "a session that ended");
    p21::session dead(schema);
    judge(line_of([&] { dead.feed("\xff"); }) == "refused 1 BadByte at statement 1", "a piece that is refused");
    try {
        dead.feed("X");
    } catch (const p21::refused &refusal) {
        judge(refusal.byte() == 0, "where it is refused");
    }
    judge(line_of([&] { dead.finish(); }) == "refused 1 BadByte at statement 1", "its end");
    p21::session cut(schema);
    cut.feed("ISO-10303-21;");
    try {
        cut.finish();
    } catch (const p21::refused &refusal) {
        judge(refusal.number() == P21_ENDS_EARLY && refusal.byte() == 13, "where a file that is cut ends");
    }
}

/* Threads that use one schema and one accepted file at once, each some files, sessions and copies. */
static void test_threads(const p21::schema &schema, const std::string &product, const std::string &other) {
    std::vector<std::thread> threads;
    std::vector<int> right(8);
    p21::session first(schema);
    first.feed(product);
    const p21::accepted accepted = first.finish();
    for (int &count : right) {
        threads.emplace_back([&] {
            const p21::schema own = schema;
            for (int round = 0; round < 4; round++) {
                p21::session session(schema);
                session.feed(product);
                count += schema.check(product).instances == 128;
                count += own.same(product, other);
                count += session.finish().canonical().view() == own.canonical(other).view();
                count += accepted.line(1)->view() == "#1=DIMENSIONAL_EXPONENTS(1.,0.,0.);";
                count += accepted.canonical().view().size() == 4872;
            }
        });
    }
    for (std::thread &thread : threads) thread.join();
    for (int count : right) judge(count == 20, "what a thread finds");
}

/* Whether a call throws std::out_of_range. */
static bool is_out_of_range(const std::function<void()> &call) {
    try {
        call();
    } catch (const std::out_of_range &) {
        return true;
    }
    return false;
}

/* The values of an instance, and what they hold. */
static void test_values(const p21::accepted &file) {
    const p21::schema schema = file.schema();
    const std::uint32_t product = schema.entity_named("PRODUCT")->number, person = schema.entity_named("PERSON")->number;
    const std::optional<p21::instance> found = file.instance(15);
    judge(found && found->name() == 15 && found->line().substr(0, 12) == "#15=PRODUCT(" && found->section() == "DATA;", "an instance by its name");
    judge(found->entities() == std::vector<std::uint32_t>{product}, "the entities of its set");
    const std::vector<p21::attribute> values = found->attributes();
    judge(values.size() == 4 && schema.attribute_name(values[1].entity, values[1].index) == "NAME", "its attributes");
    judge(values[1].value.of_kind() == p21::kind::text && values[1].value.view() == "'Block'" && values[1].value.utf8() == "Block", "a text");
    judge(values[3].value.of_kind() == p21::kind::aggregate && values[3].value.elements().size() == 2, "an aggregate");
    judge(values[3].value.elements()[0].reference() == 12 && !values[1].value.reference() && !values[3].value.nearest(), "a reference");
    judge(found->value(product, 0)->view() == "'B-100'" && !found->value(person, 0) && !found->value(product, 4), "a value at an attribute");
    judge(file.instance(8)->value(person, 1)->utf8() == "Kr\xC3\xBCger" && file.instance(8)->value(person, 1)->characters() == U"Kr\u00FCger", "characters");
    judge(file.instance(9)->value(person, 1)->utf8() == "O'Neill" && file.instance(9)->value(person, 2)->of_kind() == p21::kind::missing, "an apostrophe, and no value");
    const std::vector<p21::value> coordinates = file.instance(24)->attributes()[1].value.elements();
    const std::optional<p21_digits> digits = coordinates[2].digits();
    judge(coordinates.size() == 3 && coordinates[2].nearest() == 12.5 && digits && digits->exponent == 1 && digits->negative == 0, "a real");
    judge(values[0].value.elements().empty() && values[0].value.characters().size() == 5 && !values[0].value.typed() && !values[0].value.digits(), "what a text isn't");
    judge(!file.instance(999) && !file.instance_from(999), "no such instance");
}

/* What a schema declares. */
static void test_declared(const p21::schema &schema) {
    const std::optional<p21::entity> point = schema.entity_named("CARTESIAN_POINT"), item = schema.entity_named("GEOMETRIC_REPRESENTATION_ITEM");
    judge(schema.name() == "PRODUCT_MODEL" && !schema.entity_named("cartesian_point") && point && item, "entities by their names");
    judge(schema.entities().size() == 39 && schema.entities()[point->number].name == "CARTESIAN_POINT" && point->attributes == 1, "all entities");
    judge(schema.supertypes(point->number) == std::vector<std::uint32_t>{item->number}, "supertypes");
    judge(schema.order(point->number).back() == point->number && schema.order(point->number).size() > 2, "the order of a record");
    judge(schema.is(point->number, item->number) && !schema.is(item->number, point->number), "a subtype");
    judge(schema.attribute_name(point->number, 0) == "COORDINATES", "an attribute");
    const std::optional<p21_type> type = schema.attribute_type(point->number, point->number, 0), inside = schema.attribute_type(point->number, point->number, 0, 1);
    judge(type && type->kind == P21_TYPE_LIST && type->low == 1 && type->high == 3 && inside && inside->kind == P21_TYPE_DEFINED, "a type");
    judge(!schema.attribute_type(point->number, point->number, 0, 2) && !schema.attribute_type(point->number, point->number, 1), "none so deep, and none such");
    judge(is_out_of_range([&] { schema.entity(UINT32_MAX); }) && is_out_of_range([&] { schema.order(UINT32_MAX); }), "no such entity");
    judge(is_out_of_range([&] { schema.attribute_name(point->number, 1); }) && is_out_of_range([&] { schema.supertypes(UINT32_MAX); }), "no such attribute");
}

/* The instances of an accepted file in their order, and who refers to whom; by several threads at once. */
static void test_models(const p21::schema &given, const std::string &product) {
    p21::session session(given);
    session.feed(product);
    const p21::accepted file = session.finish();
    const p21::users users = file.users();
    test_values(file);
    test_declared(file.schema());
    std::vector<std::thread> threads;
    std::vector<int> right(8);
    for (int &count : right) {
        threads.emplace_back([&] {
            std::uint64_t last = 0;
            for (const p21::instance &it : file) {
                count += it.name() > last && it.line() == file.line(it.name())->view();
                last = it.name();
                for (const p21::attribute &attribute : it.attributes()) {
                    if (const auto name = attribute.value.reference()) {
                        bool is_told = false;
                        for (const p21_use &use : users.of(*name)) is_told = is_told || (use.user == it.name() && use.entity == attribute.entity && use.index == attribute.index);
                        count += is_told ? 0 : -1000;
                    }
                }
            }
        });
    }
    for (std::thread &thread : threads) thread.join();
    for (int count : right) judge(count == 128, "the instances of a file in a thread");
    const std::vector<p21_use> of_product = users.of(15);
    judge(of_product.size() == 1 && of_product[0].user == 16 && users.of(999).empty(), "who refers to an instance");
    p21::accepted::iterator at = file.begin();
    judge(at->name() == 1 && (at++)->name() == 1 && at->name() == 2 && at != file.end() && file.end() == file.end(), "an iterator");
}

int main(int count, char **words) {
    if (count != 2) {
        std::cerr << "usage: classes FOLDER\n";
        return 2;
    }
    const std::string folder = words[1];
    const std::string product = text_of(folder + "/product.step"), other = text_of(folder + "/product-other.step");
    const p21::schema schema(text_of(folder + "/product.exp"));
    test_files(schema, folder);
    test_numbers();
    test_readings(schema, folder);
    test_schemas(schema, product);
    test_sessions(schema, product);
    test_threads(schema, product, other);
    test_models(schema, product);
    judge(p21::version() == P21_VERSION, "the version of the header and of the library");
    std::cout << (wrong ? "something is wrong" : "all is as it must be") << '\n';
    return wrong;
}
