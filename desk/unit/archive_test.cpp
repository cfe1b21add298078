// How an earlier day is searched: a quantity and a price in each way in which the page reads them.
#include <doctest/doctest.h>

#include "archive.h"
#include "journal.h"
#include "unit.h"

using namespace desk;
using desk_tests::entry;
using Kind = Entry::Kind;

namespace {

// The requests of a dealer's day in which words are found: two millions to offer at 99-16+.
std::size_t found(const std::string &words) {
    const desk_tests::Folder folder;
    {
        Journal journal(folder.file("journal-20260314"), [](const Entry &) {});
        journal.write(entry(Kind::received, 1000,
                            "35=R|34=1|52=20260314-00:00:01.000|131=R1|48=B|54=1|38=2000000|"
                            "126=20260314-00:05:00.000|448=INV1|"));
        journal.write(entry(Kind::sent, 2000, "35=S|34=1|50=T1|131=R1|117=q1|133=99.515625|"));
        journal.write(entry(Kind::received, 2001,
                            "35=AI|34=2|52=20260314-00:00:02.000|131=R1|117=q1|297=0|"));
    }
    Market market;
    market.bonds = {Bond{"B", "Cedar 4.75", 256, {}}};
    const BondValues values{BondTable()};
    const Archive archive(folder.file(""), Role::dealer, market, values);
    return archive.requests("20260314", words, 9).size();
}

} // namespace

TEST_CASE("an earlier day is searched by what the page's filter reads") {
    for (const char *words :
         {"", "cedar", "Cedar 2m", "2,000,000", "2.0m", "2MM", "0.002b", "2000.000k", "99.515625",
          "99-16+", "99'16+", "99-164", "99-16", "offer", "inv1 OFFER t1"}) {
        CAPTURE(words);
        CHECK(found(words) == 1);
    }
    for (const char *words : {"alder", "2.5m", "3mm", "0m", "99-17", "99-165", "99-32", "99-",
                              "-16", "1099-16", "99-16++", "bid", "cedar bid"}) {
        CAPTURE(words);
        CHECK(found(words) == 0);
    }
}
