/*
 * p21 for C++17: the calls of p21.h as classes that let go of what they hold.
 *
 *     p21::schema schema(express);
 *     std::cout << schema.check(file).instances << '\n';
 *     std::cout << schema.canonical(file).view();
 *     std::cout << p21::syntax(file).schema.view();
 *
 * A text is a std::string_view, or a pointer and a length; none is copied, and none is kept. What is refused is thrown
 * as p21::refused, want of memory as std::bad_alloc, and a call on what was moved away or ended as std::logic_error.
 * Any number of threads may be in const calls of one object at once. A copy of a schema is the same schema.
 */
#ifndef P21_HPP
#define P21_HPP

#include <cstddef>
#include <cstdint>
#include <iterator>
#include <new>
#include <optional>
#include <stdexcept>
#include <string>
#include <string_view>
#include <utility>
#include <vector>

#include "p21.h"

namespace p21 {

/* A schema or a file is refused; what() is the line that the program prints, and of two files says which. */
class refused : public std::runtime_error {
public:
    explicit refused(const p21_report &report, const std::string &which = "", const p21_place &place = {})
        : std::runtime_error(which + line_of(report)), report_(report), place_(place) {}

    const p21_report &report() const noexcept { return report_; }
    bool is_schema() const noexcept { return report_.subject == P21_SCHEMA; }
    int number() const noexcept { return report_.number; }
    std::string_view name() const noexcept { return name_of(report_); }
    std::string_view sentence() const noexcept {
        return is_schema() ? p21_schema_refusal_sentence(report_.number) : p21_refusal_sentence(report_.number);
    }
    std::optional<std::uint64_t> statement() const noexcept { return at(P21_STATEMENT); }
    std::optional<std::uint64_t> instance() const noexcept { return at(P21_INSTANCE); }

    /* Where it stands; `schema::place_name` has the names of an attribute. */
    const p21_place &place() const noexcept { return place_; }
    /* How many bytes of the file stand in front of it, where that is known; p21::position_of gives its line and column. */
    std::optional<std::uint64_t> byte() const noexcept {
        return place_.known ? std::optional<std::uint64_t>(place_.byte) : std::nullopt;
    }

private:
    static const char *name_of(const p21_report &report) noexcept {
        return report.subject == P21_SCHEMA ? p21_schema_refusal_name(report.number) : p21_refusal_name(report.number);
    }
    static std::string line_of(const p21_report &report) {
        std::string line = report.subject == P21_SCHEMA ? "schema refused S" : "refused ";
        line += std::to_string(report.number) + ' ' + name_of(report);
        if (report.place == P21_INSTANCE) line += " in #" + std::to_string(report.at);
        if (report.place == P21_STATEMENT) line += " at statement " + std::to_string(report.at);
        return line;
    }
    std::optional<std::uint64_t> at(std::uint8_t place) const noexcept {
        return report_.place == place ? std::optional<std::uint64_t>(report_.at) : std::nullopt;
    }

    p21_report report_;
    p21_place place_;
};

/* The line and the column, both counted from 1, of the byte of a text in front of which so many stand. */
inline p21_position position_of(std::string_view text, std::uint64_t byte) noexcept {
    p21_position position = P21_FIRST;
    const std::size_t length = byte < text.size() ? static_cast<std::size_t>(byte) : text.size();
    if (length > 0) p21_move(&position, reinterpret_cast<const std::uint8_t *>(text.data()), length);
    return position;
}

namespace detail {

/* A handle of C that is let go with its holder. */
template <typename Handle, void (*Free)(Handle *)> class holder {
public:
    holder() noexcept = default;
    holder(holder &&other) noexcept : handle_(std::exchange(other.handle_, Handle{nullptr})) {}
    holder &operator=(holder &&other) noexcept {
        std::swap(handle_, other.handle_);
        return *this;
    }
    ~holder() { Free(&handle_); }

    Handle *get() noexcept { return &handle_; }
    const Handle *get() const noexcept { return &handle_; }

private:
    Handle handle_ = P21_EMPTY;
};

/* No pointer of a call is null. */
inline const std::uint8_t *at(std::string_view text) noexcept {
    return reinterpret_cast<const std::uint8_t *>(text.data() ? text.data() : "");
}

inline std::string_view view(const void *at, std::size_t length) noexcept {
    return {static_cast<const char *>(at), length};
}

inline void judge(std::uint8_t status, const p21_report &report = {}, const char *which = "", const p21_place &place = {}) {
    if (status == P21_FAILED) throw std::bad_alloc();
    if (status == P21_MISUSED) throw std::logic_error("p21: this object holds nothing any more");
    if (status == P21_REFUSED) throw refused(report, which, place);
}

inline std::string_view view(const p21_span &span) noexcept { return view(span.bytes, span.length); }

/* Whether a call found what it was asked for. */
inline bool found(std::uint8_t status) {
    if (status == P21_REFUSED) return false;
    judge(status);
    return true;
}

/* An array that a call fills, which is asked again with more room until all fits. */
template <typename Element, typename Call> std::vector<Element> filled(Call call) {
    std::vector<Element> room(16);
    for (;;) {
        std::size_t count = 0;
        call(room.data(), room.size(), &count);
        if (count < room.size()) {
            room.resize(count);
            return room;
        }
        room.resize(count < 2 * room.size() ? 2 * room.size() : count + 1);
    }
}

/* Makes a call of C whose last parameter is a report. */
template <typename Call, typename... Given> p21_report call(Call function, Given... given) {
    p21_report report;
    judge(function(given..., &report), report);
    return report;
}

/* Makes one whose last parameters are a report and a place. */
template <typename Call, typename... Given> p21_report call_located(Call function, Given... given) {
    p21_report report;
    p21_place place;
    judge(function(given..., &report, &place), report, "", place);
    return report;
}

} // namespace detail

/* How many instances an accepted file has, and how many bytes its canonical file. */
struct counts {
    std::uint64_t instances;
    std::uint64_t canonical_bytes;
};

/* Bytes that the library handed out: a canonical file, or a statement of one without a line feed. */
class text : public detail::holder<p21_text, p21_text_free> {
public:
    std::string_view view() const {
        const std::uint8_t *at = nullptr;
        std::size_t length = 0;
        detail::judge(p21_text_bytes(get(), &at, &length));
        return detail::view(at, length);
    }
};

/* The refusals that one reading finds of a file, in its order. */
class refusals : public detail::holder<p21_list, p21_list_free> {
public:
    std::size_t size() const noexcept { return count_; }
    /* P21_WHOLE, P21_PART or P21_MOST: how much of the file they are about. */
    int extent() const noexcept { return extent_; }
    /* How many bytes of the file stand in front of the statement whose refusal ended the reading, where one did. */
    std::optional<std::uint64_t> read() const {
        std::uint64_t bytes = 0;
        if (!detail::found(p21_list_read(get(), &bytes))) return std::nullopt;
        return bytes;
    }

    /* The refusal of this number, counted from 0; std::out_of_range where there are fewer. */
    refused at(std::size_t number) const {
        p21_report report;
        p21_place place;
        const std::uint8_t status = p21_list_refusal(get(), number, &report, &place);
        if (status == P21_REFUSED) throw fewer();
        detail::judge(status);
        return refused(report, "", place);
    }
    /* How many bytes of the file stand in front of the statement of that refusal; nothing where it is one of a reference. */
    std::optional<std::uint64_t> begins(std::size_t number) const {
        std::uint64_t bytes = 0;
        if (number >= count_) throw fewer();
        if (!detail::found(p21_list_begins(get(), number, &bytes))) return std::nullopt;
        return bytes;
    }

private:
    friend class schema;
    static std::out_of_range fewer() { return std::out_of_range("p21: there are fewer refusals"); }
    void count() { detail::judge(p21_list_count(get(), &count_, &extent_)); }

    std::size_t count_ = 0;
    std::uint8_t extent_ = P21_WHOLE;
};

/* What a value is. */
enum class kind : std::uint8_t {
    missing = P21_VALUE_MISSING,
    derived = P21_VALUE_DERIVED,
    whole = P21_VALUE_WHOLE,
    real = P21_VALUE_REAL,
    text = P21_VALUE_TEXT,
    item = P21_VALUE_ITEM,
    bits = P21_VALUE_BITS,
    reference = P21_VALUE_REFERENCE,
    aggregate = P21_VALUE_AGGREGATE,
    typed = P21_VALUE_TYPED
};

/* A value of an instance, which lives as long as the accepted file. What it isn't, is std::nullopt or empty. */
class value {
public:
    explicit value(p21_span span) noexcept : span_(span) {}

    kind of_kind() const noexcept { return static_cast<kind>(p21_value_kind(span_.bytes, span_.length)); }
    /* The canonical text. */
    std::string_view view() const noexcept { return detail::view(span_); }
    /* The instance that a reference names. */
    std::optional<std::uint64_t> reference() const noexcept {
        std::uint64_t name = 0;
        if (of_kind() != kind::reference || p21_value_reference(span_.bytes, span_.length, &name) != P21_DONE) return std::nullopt;
        return name;
    }
    /* The nearest double of a number. */
    std::optional<double> nearest() const noexcept {
        double found = 0;
        if (!is_number() || p21_value_double(span_.bytes, span_.length, &found) != P21_DONE) return std::nullopt;
        return found;
    }
    /* The exact digits of a number. */
    std::optional<p21_digits> digits() const noexcept {
        p21_digits found{};
        if (!is_number() || p21_value_digits(span_.bytes, span_.length, &found) != P21_DONE) return std::nullopt;
        return found;
    }
    /* The characters of a text. */
    std::u32string characters() const {
        if (of_kind() != kind::text) return {};
        std::vector<std::uint32_t> room(span_.length);
        std::size_t count = 0;
        p21_value_characters(span_.bytes, span_.length, room.data(), room.size(), &count);
        return {room.begin(), room.begin() + static_cast<std::ptrdiff_t>(count)};
    }
    /* The same in UTF-8. */
    std::string utf8() const {
        std::string made;
        for (const char32_t c : characters()) {
            if (c < 0x80) {
                made += static_cast<char>(c);
                continue;
            }
            const int more = c < 0x800 ? 1 : c < 0x10000 ? 2 : 3;
            made += static_cast<char>((0xFF00 >> (more + 1) & 0xFF) | (c >> 6 * more));
            for (int k = more - 1; k >= 0; k--) made += static_cast<char>(0x80 | (c >> 6 * k & 0x3F));
        }
        return made;
    }
    /* The elements of an aggregate. */
    std::vector<value> elements() const {
        std::vector<value> made;
        if (of_kind() != kind::aggregate) return made;
        p21_span rest, element;
        p21_value_elements(span_.bytes, span_.length, &rest);
        while (p21_next_element(rest.bytes, rest.length, &element, &rest) == P21_DONE) made.emplace_back(element);
        return made;
    }
    /* The keyword and the value of one with the keyword of its type. */
    std::optional<std::pair<std::string_view, value>> typed() const noexcept {
        p21_span keyword, inside;
        if (of_kind() != kind::typed || p21_value_typed(span_.bytes, span_.length, &keyword, &inside) != P21_DONE) return std::nullopt;
        return std::make_pair(detail::view(keyword), value(inside));
    }

private:
    bool is_number() const noexcept { return of_kind() == kind::whole || of_kind() == kind::real; }

    p21_span span_;
};

/* An attribute by the entity that declares it and its number there, with the value of an instance. */
struct attribute {
    std::uint32_t entity;
    std::uint32_t index;
    p21::value value;
};

/* An entity of a schema, by its number. */
struct entity {
    std::uint32_t number;
    std::string_view name;
    bool is_abstract;
    std::uint32_t attributes; /* how many it declares itself */
};

/* The schema that an EXPRESS text declares. */
class schema : public detail::holder<p21_schema, p21_schema_free> {
public:
    explicit schema(std::string_view express) {
        detail::call(p21_schema_new, detail::at(express), express.size(), get());
    }
    schema(const void *express, std::size_t length) : schema(detail::view(express, length)) {}
    schema(schema &&other) noexcept = default;
    schema(const schema &other) : holder() { detail::judge(p21_schema_share(other.get(), get())); }
    schema &operator=(schema other) noexcept {
        holder::operator=(std::move(other));
        return *this;
    }

    /* Whether a file is accepted: its counts, or p21::refused. */
    counts check(std::string_view file) const {
        const p21_report report = detail::call_located(p21_check_located, get(), detail::at(file), file.size());
        return {report.instances, report.bytes};
    }
    counts check(const void *file, std::size_t length) const { return check(detail::view(file, length)); }

    /* The canonical file of a file. */
    text canonical(std::string_view file) const {
        text made;
        detail::call_located(p21_canonical_located, get(), detail::at(file), file.size(), made.get());
        return made;
    }
    text canonical(const void *file, std::size_t length) const { return canonical(detail::view(file, length)); }

    /* Whether two files mean the same. */
    bool same(std::string_view first, std::string_view second) const {
        std::uint8_t answer = 0;
        p21_report report;
        p21_place place;
        const std::uint8_t status = p21_same_located(get(), detail::at(first), first.size(), detail::at(second), second.size(),
                                                     &answer, &report, &place);
        detail::judge(status, report, report.subject == P21_SECOND ? "second: " : "first: ", place);
        return answer == 1;
    }

    /* The canonical file of a file under the numbers that its model gives to its instances for names; P21_ALIKE where it gives none. */
    text numbered(std::string_view file) const {
        text made;
        detail::call_located(p21_numbered, get(), detail::at(file), file.size(), made.get());
        return made;
    }
    text numbered(const void *file, std::size_t length) const { return numbered(detail::view(file, length)); }

    /* Whether two files mean the same but for the names of their instances; P21_ALIKE where neither model gives them numbers. */
    bool same_but_for_names(std::string_view first, std::string_view second) const {
        std::uint8_t answer = 0;
        p21_report report;
        p21_place place;
        const std::uint8_t status = p21_same_but_for_names(get(), detail::at(first), first.size(), detail::at(second), second.size(),
                                                           &answer, &report, &place);
        detail::judge(status, report, report.subject == P21_SECOND ? "second: " : "first: ", place);
        return answer == 1;
    }

    /* What is refused of a file, so many refusals at most: none where it is accepted. */
    refusals survey(std::string_view file, std::uint64_t most = UINT64_MAX) const {
        refusals found;
        detail::call(p21_survey, get(), detail::at(file), file.size(), most, found.get());
        found.count();
        return found;
    }

    /* The name of the attribute that a place has, behind that of the entity that declares it, as "POINT.X"; or nothing. */
    std::optional<std::string> place_name(const p21_place &place) const {
        if (!place.valued) return std::nullopt;
        text made;
        const std::uint8_t status = p21_place_name(get(), place.entity, place.attribute, made.get());
        if (status == P21_REFUSED) return std::nullopt;
        detail::judge(status);
        return std::string(made.view());
    }

    /* The name of the schema. The views that these calls answer live as long as some handle of the schema. */
    std::string_view name() const {
        p21_span name;
        std::uint32_t entities = 0, types = 0;
        detail::judge(p21_schema_declares(get(), &name, &entities, &types));
        return detail::view(name);
    }
    /* The entities, in the order of their declarations. */
    std::vector<p21::entity> entities() const {
        p21_span name;
        std::uint32_t count = 0, types = 0;
        detail::judge(p21_schema_declares(get(), &name, &count, &types));
        std::vector<p21::entity> made;
        for (std::uint32_t number = 0; number < count; number++) made.push_back(entity(number));
        return made;
    }
    /* The entity of this name, in upper case. */
    std::optional<p21::entity> entity_named(std::string_view name) const {
        std::uint32_t number = 0;
        if (!detail::found(p21_entity_named(get(), detail::at(name), name.size(), &number))) return std::nullopt;
        return entity(number);
    }
    /* The entity of this number; std::out_of_range where there is none. */
    p21::entity entity(std::uint32_t number) const {
        p21_span name;
        std::uint8_t is_abstract = 0;
        std::uint32_t attributes = 0;
        if (!detail::found(p21_entity_declares(get(), number, &name, &is_abstract, &attributes))) {
            throw std::out_of_range("p21: no such entity");
        }
        return {number, detail::view(name), is_abstract == 1, attributes};
    }
    /* The direct supertypes of an entity, by their numbers; and it and all above it, in the order of a record. */
    std::vector<std::uint32_t> supertypes(std::uint32_t of) const {
        return detail::filled<std::uint32_t>([&](std::uint32_t *at, std::size_t room, std::size_t *count) {
            if (!detail::found(p21_entity_supertypes(get(), of, at, room, count))) throw std::out_of_range("p21: no such entity");
        });
    }
    std::vector<std::uint32_t> order(std::uint32_t of) const {
        return detail::filled<std::uint32_t>([&](std::uint32_t *at, std::size_t room, std::size_t *count) {
            if (!detail::found(p21_entity_order(get(), of, at, room, count))) throw std::out_of_range("p21: no such entity");
        });
    }
    /* Whether an entity is another one or a subtype of it. */
    bool is(std::uint32_t entity, std::uint32_t other) const {
        std::uint8_t answer = 0;
        if (!detail::found(p21_entity_is(get(), entity, other, &answer))) throw std::out_of_range("p21: no such entity");
        return answer == 1;
    }
    /* The name of an attribute. */
    std::string_view attribute_name(std::uint32_t entity, std::uint32_t index) const {
        p21_span name;
        if (!detail::found(p21_attribute_name(get(), entity, index, &name))) throw std::out_of_range("p21: no such attribute");
        return detail::view(name);
    }
    /* What may stand at an attribute of an instance of an entity, so many aggregates deep. */
    std::optional<p21_type> attribute_type(std::uint32_t of, std::uint32_t entity, std::uint32_t index, std::uint32_t depth = 0) const {
        p21_type type{};
        if (!detail::found(p21_attribute_type(get(), of, entity, index, depth, &type))) return std::nullopt;
        return type;
    }

private:
    friend class accepted;
    schema() noexcept = default;
};

/* Who refers to whom in an accepted file, which it needs no more. */
class users : public detail::holder<p21_users, p21_users_free> {
public:
    /* The instances that refer to the one of this name, with the attribute. */
    std::vector<p21_use> of(std::uint64_t name) const {
        return detail::filled<p21_use>([&](p21_use *at, std::size_t room, std::size_t *count) {
            detail::judge(p21_users_of(get(), name, at, room, count));
        });
    }

private:
    friend class accepted;
    users() noexcept = default;
};

/* An instance of an accepted file, for as long as that lives and isn't moved. */
class instance {
public:
    std::uint64_t name() const noexcept { return line_.name; }
    /* Its canonical statement. */
    std::string_view line() const noexcept { return detail::view(line_.line); }
    /* The line with which its data section begins. */
    std::string_view section() const {
        p21_span line;
        detail::judge(p21_instance_section(of_, line_.name, &line));
        return detail::view(line);
    }
    /* The entities of its set, by their numbers. */
    std::vector<std::uint32_t> entities() const {
        return detail::filled<std::uint32_t>([&](std::uint32_t *at, std::size_t room, std::size_t *count) {
            detail::judge(p21_instance_entities(of_, line_.name, at, room, count));
        });
    }
    /* The attributes with their values, in the order of its record. */
    std::vector<attribute> attributes() const {
        const auto found = detail::filled<p21_attribute>([&](p21_attribute *at, std::size_t room, std::size_t *count) {
            detail::judge(p21_instance_values(of_, line_.name, at, room, count));
        });
        std::vector<attribute> made;
        for (const p21_attribute &it : found) made.push_back({it.entity, it.index, p21::value(it.value)});
        return made;
    }
    /* The value at an attribute, if it has it. */
    std::optional<p21::value> value(std::uint32_t entity, std::uint32_t index) const {
        p21_span found;
        if (!detail::found(p21_instance_value(of_, line_.name, entity, index, &found))) return std::nullopt;
        return p21::value(found);
    }

private:
    friend class accepted;
    instance(const p21_session *of, p21_line line) noexcept : of_(of), line_(line) {}

    const p21_session *of_;
    p21_line line_;
};

/* What a well-formed file says of itself. */
struct overview {
    std::uint64_t instances = 0;
    text schema;   /* the name of its schema, in upper case */
    text header;   /* a line for each text, as "author: NAME" */
    text keywords; /* a line for each keyword, as "POINT 12" */
};

/* Whether a file is well formed by itself, without a schema: what it says of itself, or p21::refused. */
inline overview syntax(std::string_view file) {
    overview found;
    const p21_report report = detail::call_located(p21_syntax, detail::at(file), file.size(), found.schema.get(),
                                                   found.header.get(), found.keywords.get());
    found.instances = report.instances;
    return found;
}
inline overview syntax(const void *file, std::size_t length) { return syntax(detail::view(file, length)); }

/* An accepted file. */
class accepted : public detail::holder<p21_session, p21_session_free> {
public:
    counts size() const noexcept { return counts_; }

    /* The canonical statement of the instance of this name, if there is one. */
    std::optional<text> line(std::uint64_t name) const {
        text made;
        const std::uint8_t status = p21_accepted_line(get(), name, made.get());
        if (status == P21_REFUSED) return std::nullopt;
        detail::judge(status);
        return made;
    }

    /* The canonical file. */
    text canonical() const {
        text made;
        detail::judge(p21_accepted_write(get(), made.get()));
        return made;
    }

    /* The next bytes of the canonical file, as many as there is room for: how many these are, 0 where none is left. */
    std::size_t read(void *buffer, std::size_t room) {
        std::uint8_t none = 0;
        std::size_t count = 0;
        std::uint8_t *at = room > 0 ? static_cast<std::uint8_t *>(buffer) : &none;
        detail::judge(p21_accepted_read(get(), &cursor_, at, room, &count));
        return count;
    }
    /* Has `read` begin again. */
    void rewind() noexcept { cursor_ = P21_START; }

    /* The instance of this name, if there is one; and the first whose name is this one or above it. */
    std::optional<p21::instance> instance(std::uint64_t name) const {
        p21_line line;
        if (!detail::found(p21_instance(get(), name, &line))) return std::nullopt;
        return p21::instance(get(), line);
    }
    std::optional<p21::instance> instance_from(std::uint64_t least) const {
        p21_line line;
        if (!detail::found(p21_instance_from(get(), least, &line))) return std::nullopt;
        return p21::instance(get(), line);
    }

    /* The instances in the order of their names: for (const p21::instance &it : file) .. */
    class iterator {
    public:
        using iterator_category = std::input_iterator_tag;
        using value_type = p21::instance;
        using difference_type = std::ptrdiff_t;
        using pointer = const p21::instance *;
        using reference = const p21::instance &;

        reference operator*() const noexcept { return *at_; }
        pointer operator->() const noexcept { return &*at_; }
        iterator &operator++() {
            at_ = at_->name() == UINT64_MAX ? std::nullopt : of_->instance_from(at_->name() + 1);
            return *this;
        }
        iterator operator++(int) {
            iterator before = *this;
            ++*this;
            return before;
        }
        friend bool operator==(const iterator &a, const iterator &b) noexcept {
            return a.at_.has_value() == b.at_.has_value() && (!a.at_ || a.at_->name() == b.at_->name());
        }
        friend bool operator!=(const iterator &a, const iterator &b) noexcept { return !(a == b); }

    private:
        friend class accepted;
        iterator(const accepted *of, std::optional<p21::instance> at) : of_(of), at_(std::move(at)) {}

        const accepted *of_;
        std::optional<p21::instance> at_;
    };
    iterator begin() const { return {this, instance_from(0)}; }
    iterator end() const { return {this, std::nullopt}; }

    /* The schema under which the file was accepted. */
    p21::schema schema() const {
        p21::schema made;
        detail::judge(p21_accepted_schema(get(), made.get()));
        return made;
    }
    /* Who refers to whom: a walk over all values, once. */
    p21::users users() const {
        p21::users made;
        detail::judge(p21_users_new(get(), made.get()));
        return made;
    }

private:
    friend class session;
    accepted(holder &&handle, counts found) noexcept : holder(std::move(handle)), counts_(found) {}

    p21_cursor cursor_ = P21_START;
    counts counts_;
};

/* Reads a file that comes in pieces of any size. */
class session : public detail::holder<p21_session, p21_session_free> {
public:
    explicit session(const schema &under) { detail::judge(p21_session_new(under.get(), get())); }

    /* The next piece; p21::refused where nothing that is accepted begins so. */
    void feed(std::string_view piece) {
        p21_report report;
        p21_place place = {};
        const std::uint8_t status = p21_session_feed(get(), detail::at(piece), piece.size(), &report);
        if (status == P21_REFUSED) detail::judge(p21_session_place(get(), &place));
        detail::judge(status, report, "", place);
    }
    void feed(const void *piece, std::size_t length) { feed(detail::view(piece, length)); }

    /* The end of the file. The session holds nothing any more. */
    accepted finish() {
        const p21_report report = detail::call_located(p21_session_finish_located, get());
        return {std::move(*this), {report.instances, report.bytes}};
    }
};

/* The version of the library that is linked, as "0.1.0". */
inline std::string version() {
    p21_parts parts;
    p21_version(&parts);
    return std::to_string(parts.major) + '.' + std::to_string(parts.minor) + '.' + std::to_string(parts.patch);
}

} // namespace p21

#endif
