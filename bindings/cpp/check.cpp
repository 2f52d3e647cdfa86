/* Answers the rows of ../sql_rows.tsv, whose name is the argument, over phonenumber_proved.hpp, and tries what no row says.
 * The last line is `cpp: ok`; the first difference ends it with status 1. */
#include "phonenumber_proved.hpp"
#include <cstdio>
#include <cstdlib>
#include <fstream>
#include <thread>

using namespace phonenumber_proved;

static void must(bool holds, const std::string &what) {
    if (holds) return;
    std::fprintf(stderr, "cpp: %s\n", what.c_str());
    std::exit(1);
}

static std::vector<std::string> cut(const std::string &line) {
    std::vector<std::string> fields(1);
    for (char c : line)
        if (c == '\t') fields.emplace_back();
        else fields.back() += c;
    return fields;
}

static std::vector<std::string> answers(world &phones, const std::string &text, const std::string &region) {
    result<number> read = phones.parse(text, region);
    if (!read) return {"-", "-", "-", "-", "-", "-", "-", words(read.status())};
    const number &it = *read;
    std::string of = phones.region_of(it).value();
    return {it.e164().value(),
            phones.format(it, mode::international).value(),
            phones.format(it, mode::national).value(),
            phones.format(it, mode::rfc3966).value(),
            name(phones.kind_of(it).value()),
            of.empty() ? "-" : of,
            phones.is_valid(it).value() ? "1" : "0",
            "-"};
}

static int rows(world &phones, const char *path) {
    std::ifstream file(path, std::ios::binary);
    std::string line;
    int count = 0;
    std::getline(file, line);
    while (std::getline(file, line)) {
        std::vector<std::string> fields = cut(line);
        must(fields.size() == 10, "no row: " + line);
        std::vector<std::string> wanted(fields.begin() + 2, fields.end());
        must(answers(phones, fields[0], fields[1] == "-" ? "" : fields[1]) == wanted, "another answer: " + line);
        count++;
    }
    return count;
}

int main(int argc, char **argv) {
    must(argc == 2, "the rows are the argument");
    world phones = world::open().value();
    int count = rows(phones, argv[1]);
    must(count > 0, "no rows");
    std::printf("rows: %d\n", count);

    number it = phones.parse("03-331 6005 ext. 12", "NZ").value();
    must(it.calling_code() == 64 && it.national_number() == "33316005" && it.extension() == "12", "the parts of a number");
    must(it.source() == source::by_default && !it.carrier(), "its source");
    must(phones.parse("06 698", "IT").value().national_number() == "06698", "a leading zero");
    must(it == phones.parse("+6433316005;ext=12").value() && it != phones.parse("+6433316005").value(), "equality");
    number copy = it;
    must(copy == it && phones.format(copy, mode::rfc3966).value() == "tel:+64-3-331-6005;ext=12", "a copy");

    must(phones.parse("call me", "NZ").status() == PHONE_NO_NUMBER, "a refusal");
    must(phones.parse("03-331 6005", "nz").status() == PHONE_NO_REGION, "a region that is none");
    must(phones.parse("\xff", "NZ").status() == PHONE_NOT_UTF8, "bytes that are no text");
    bool thrown = false;
    try {
        phones.parse("").value();
    } catch (const error &why) {
        thrown = why.status() == PHONE_NO_NUMBER && std::string(why.what()) == "not a number";
    }
    must(thrown, "what value() throws");
    must(phones.parse("", "NZ").value_or(it) == it, "value_or");
    must(!world::open("no table") && world::open("[]").has_value(), "other tables");

    must(phones.possibility_of(it).value() == possibility::possible, "possible");
    must(phones.possibility_of("03-33", "NZ").value() == possibility::too_short, "too short");
    must(phones.compare("+64 3 331 6005", "03 331 6005").value() == match::national, "like numbers");
    must(phones.dialled_from("US", it).value() == "011 64 3 331 6005 ext. 12", "from abroad: " + phones.dialled_from("US", it).value());
    must(phones.example("NZ", kind::mobile).has_value(), "an example");
    must(phones.example("NZ", kind::emergency).status() == PHONE_NO_EXAMPLE, "no example");
    must(phones.report("03-331 6005", "NZ").value().compare(0, 14, "ok\t+6433316005") == 0, "a report");
    std::string text = "call 03-331 6005 or 09 887 6986";
    std::vector<phone_place> found = phones.find(text, "NZ").value();
    must(found.size() == 2 && text.substr(found[0].start, found[0].end - found[0].start) == "03-331 6005", "numbers in a text");
    must(phones.typing_shown("033316", "NZ").value() == "03 331 6", "while it is typed: " + phones.typing_shown("033316", "NZ").value());
    must(phones.keyed_shown("16502", "US").value() == "1 (650) 2" && phones.keyed_caret("16502", 5, "US").value() == 9, "by the formatter");
    found = phones.matches(text, "NZ", leniency::exact_grouping).value();
    must(found.size() == 2 && found[1].end == text.size(), "as libphonenumber finds them");
    must(phones.matches("+64 3331 6005", "", leniency::exact_grouping).value().empty(), "other groups of digits");
    world alternates = world::open("[{\"id\": \"001\", \"country_code\": 64, \"general\": {\"national_number\": \"[0-9]+\"}, \"formats\": "
                                   "[{\"pattern\": \"([0-9]{4})([0-9]{4})\", \"format\": \"$1 $2\"}]}]").value();
    must(phones.matches(alternates, "+64 3331 6005", "", leniency::exact_grouping).value().size() == 1, "an alternate format");
    must(phones.regions().value().size() == 245, "regions");
    must(phones.calling_codes().value().size() > 200, "calling codes");
    must(is_viable("03-331 6005").value() && !is_viable("x").value(), "viable");
    must(table_version().compare(0, 15, "libphonenumber ") == 0, "the version");
    must(world::newest("/none").value().second == table_version(), "the newest");

    world crate = phones.share(rules::crate).value();
    must(crate.parse("+6433316005").has_value(), "the other rules");
    std::string long_text(100000, '0');
    must(phones.parse(long_text, "NZ").status() == PHONE_TOO_LONG, "a long text");
    std::vector<std::thread> threads;
    std::vector<int> told(4);
    for (int i = 0; i < 4; i++) {
        world mine = phones.share().value();
        threads.emplace_back([&told, &argv, i](world own) { told[i] = rows(own, argv[1]); }, std::move(mine));
    }
    for (std::thread &each : threads) each.join();
    for (int each : told) must(each == count, "threads");
    world moved = std::move(phones);
    must(moved.parse("+6433316005").has_value() && phones.parse("+6433316005").status() == PHONE_IS_CLOSED, "a move");
    std::puts("cpp: ok");
}
