// Firms that need an admitted report of mireseason-certify, and the line that signs one.
#define DOCTEST_CONFIG_IMPLEMENT_WITH_MAIN
#include <doctest/doctest.h>

#include "base/private_file.h"
#include "check.h"
#include "common/password.h"
#include "config/address_range.h"
#include "config/certified_firms.h"
#include "firms/authenticator.h"
#include "test_keys.h"

#include <chrono>
#include <filesystem>
#include <map>
#include <string>
#include <vector>

#include <fmt/format.h>

namespace gateway::tests {

namespace {

constexpr const char *day = "20261127";

const std::string digest(64, 'a');
const std::string signature(128, 'b');

// What is signed of a report of this firm.
std::string said_of(const std::string &firm, const std::string &until) {
    return fmt::format("mireseason-report 1 {} investor passed {} {} {}", firm, until,
                       text_of(formats_of_build()), digest);
}

// A venue of two investors, whose reports this folder's key signs.
struct Venue {
    explicit Venue(const std::filesystem::path &folder) : key(test_keys(folder / "keys")->own) {
        config.configuration = "version = 1\n";
        config.firms = {day, {"F", "G"}};
        config.credentials["F"] = {"fred", new_hash("right"), ""};
        config.credentials["G"] = {"gail", new_hash("other"), ""};
        config.certification.is_needed = true;
        config.certification.key = std::make_shared<const SigningKey>(
            SigningKey::public_of(read_public(folder / "keys/gateway.pub"), "key"));
    }

    SignedReport report(const std::string &firm, const std::string &until) const {
        const std::string said = said_of(firm, until);
        return signed_report_of(said + ' ' + text_of(key.sign(said))).value();
    }

    SigningKey key;
    Config config;
};

TEST_CASE("lines that sign a report") {
    const std::string line = said_of("DLR1", day) + ' ' + signature;
    const auto read = signed_report_of(line);
    CHECK((read && read->firm == "DLR1" && read->role == "investor" && read->has_passed));
    CHECK((read && read->until == day && text_of(read->report) == digest));
    CHECK((read && text_of(read->signature) == signature));
    CHECK((read && read->what_is_signed() == said_of("DLR1", day)));
    const auto with = [&](std::string_view old, std::string_view other) {
        std::string changed = line;
        return changed.replace(changed.find(old), old.size(), other);
    };
    CHECK(signed_report_of(with("passed", "failed"))->has_passed == false);
    for (const std::string &wrong :
         {std::string(), with("report 1", "report 2"), with("investor", "trader"),
          with("passed", "perhaps"), with(day, "2026-11-27"), with(day, "2026112x"),
          with(" DLR1", ""), with(digest, digest + "a"), with(signature, signature + "b"),
          with(signature, std::string(128, 'B')), with(signature, ""), line + " ", line + " x",
          with("DLR1", std::string(300, 'D'))}) {
        check(!signed_report_of(wrong), wrong);
    }
}

// By the credentials, or by an act of the day; and what was let in by a report ends with it.
TEST_CASE("who is let in") {
    const Scratch folder("certified");
    Venue venue(folder.path());
    venue.config.credentials["F"].report = venue.report("F", day);
    venue.config.credentials["G"].report = venue.report("G", "20261126");
    Authenticator firms(venue.config);
    const auto judged = [&](const char *firm, const char *name, const char *password) {
        return firms.judge({firm, name, password, false, "", ""});
    };
    CHECK(judged("F", "fred", "right") == Refusal::none);
    CHECK(judged("G", "gail", "other") == Refusal::not_certified);
    CHECK(judged("G", "gail", "right") == Refusal::wrong_password);
    CHECK(firms.lacks_report("G"));
    firms.admit("G");
    CHECK(judged("G", "gail", "other") == Refusal::none);
    std::map<std::string, Credentials> without = venue.config.credentials;
    without["F"].report.reset();
    CHECK(firms.renew(without) == std::vector<std::string>{"F"});
    CHECK(judged("F", "fred", "right") == Refusal::not_certified);
    CHECK(judged("G", "gail", "other") == Refusal::none);
}

// In this order: a name of nobody, no credentials, an address, 553, 554, the last day, and the name
// in a certificate.
TEST_CASE("who is not let in") {
    Config config;
    config.firms = {day, {"F", "G", "H", "N"}};
    config.engine.client_certificates = true;
    config.credentials["F"] = {"fred", new_hash("right"), "", day};
    config.credentials["F"].addresses = {*address_range_of("192.0.2.0/24")};
    config.credentials["G"] = {"gail", new_hash("other"), "", "20261126"};
    config.credentials["G"].addresses = {*address_range_of("198.51.100.0/24")};
    config.credentials["X"] = {"xena", new_hash("none"), ""};
    Authenticator firms(config);
    const auto judged = [&](const char *firm, const char *name, const char *password,
                            const char *certificate, const char *address) {
        return firms.judge({firm, name, password, true, certificate, address});
    };
    CHECK(judged("X", "xena", "none", "X", "192.0.2.1") == Refusal::unknown_name);
    CHECK(judged("N", "nobody", "", "N", "192.0.2.1") == Refusal::no_access);
    CHECK(judged("F", "gail", "wrong", "G", "192.0.3.1") == Refusal::wrong_address);
    CHECK(judged("F", "gail", "wrong", "G", "192.0.2.1") == Refusal::wrong_name);
    CHECK(judged("F", "fred", "other", "G", "192.0.2.1") == Refusal::wrong_password);
    CHECK(judged("G", "gail", "other", "G", "198.51.100.1") == Refusal::no_longer);
    CHECK(judged("F", "fred", "right", "G", "192.0.2.1") == Refusal::wrong_certificate);
    CHECK(firms.wrong_of("192.0.2.1") == 5);
    CHECK(judged("F", "fred", "right", "F", "192.0.2.2") == Refusal::none);
    CHECK(firms.wrong_of("192.0.2.2") == 0);
    using Time = std::chrono::steady_clock::time_point;
    CHECK(firms.judges_from("192.0.2.2") < Time::max());
    CHECK(firms.judges_from("198.51.100.1") < Time::max());
    CHECK(firms.judges_from("203.0.113.1") == Time::max());
}

// By other credentials those go that are not the same in them, or whose time is over.
TEST_CASE("who goes once credentials are read again") {
    Config config;
    config.firms = {day, {"A", "B", "C", "D", "E"}};
    for (const std::string &firm : config.firms.names) {
        config.credentials[firm] = {"user", "$6$salt$hash", ""};
    }
    Authenticator firms(config);
    CHECK(firms.readings() == 0);
    auto others = config.credentials;
    others.erase("A");
    others["B"].username = "other";
    others["C"].password_hash = "$6$salt$other";
    others["D"].ends = "20261126";
    others["E"].ends = day;
    CHECK(firms.renew(others) == std::vector<std::string>{"A", "B", "C", "D"});
    CHECK(firms.readings() == 1);
    CHECK(firms.renew(others) == std::vector<std::string>{"D"});
    others["E"].addresses = {*address_range_of("192.0.2.0/24")};
    for (const char *firm : {"B", "C", "D"}) {
        others.erase(firm);
    }
    firms.renew(others);
    using Time = std::chrono::steady_clock::time_point;
    CHECK(firms.judges_from("192.0.2.9") < Time::max());
    CHECK(firms.judges_from("192.0.3.9") == Time::max());
}

// Whoever lacks a report waits as one with a wrong password does, so that nobody learns that a
// password is right.
TEST_CASE("a pause for whoever lacks one") {
    const Scratch folder("certified");
    const Venue venue(folder.path());
    Authenticator firms(venue.config);
    CHECK(firms.judge({"F", "fred", "right", false, "", "10.0.0.1"}) == Refusal::not_certified);
    CHECK(firms.judges_from("10.0.0.1") > std::chrono::steady_clock::time_point());
}

TEST_CASE("what speaks against a report") {
    const Scratch folder("certified");
    Venue venue(folder.path());
    const CertifiedFirms investors(venue.config);
    CHECK(investors.fault("F", venue.report("F", day)).empty());
    CHECK(investors.fault("G", venue.report("F", day)) == "its report is of the firm F");
    CHECK(investors.fault("F", venue.report("F", "20261126")) == "its report held to 20261126");
    SignedReport forged = venue.report("F", day);
    forged.signature[0] ^= 1;
    CHECK(investors.fault("F", forged).starts_with("its report is not signed"));
    venue.config.configuration = "version = 1\n[[dealer]]\nname = \"F\"\n";
    CHECK(CertifiedFirms(venue.config).fault("F", venue.report("F", day)) ==
          "its report is of an investor");
    CHECK(CertifiedFirms(venue.config).keeps_out("F", {}) == "no report of it was admitted");
    venue.config.certification.is_needed = false;
    CHECK(CertifiedFirms(venue.config).keeps_out("F", {}).empty());
}

} // namespace

} // namespace gateway::tests
