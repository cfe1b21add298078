#include "day.h"
#include "parts.h"

#include <quickfix/fix50sp2/Quote.h>
#include <quickfix/fix50sp2/QuoteCancel.h>
#include <quickfix/fix50sp2/QuoteRequest.h>
#include <quickfix/fix50sp2/QuoteRequestReject.h>
#include <quickfix/fix50sp2/QuoteResponse.h>

#include <cstdio>

namespace {

const char BOND_A[] = "BONDA0000001";
const char BOND_B[] = "BONDB0000002";
const char DEADLINE[] = "20250314-09:05:00.000";

FIX50SP2::QuoteRequest request(const char *id, const char *bond, char side,
                               const std::vector<std::string> &dealers) {
    FIX50SP2::QuoteRequest message{FIX::QuoteReqID(id)};
    FIX50SP2::QuoteRequest::NoRelatedSym asked;
    asked.set(FIX::Symbol("[N/A]"));
    asked.set(FIX::SecurityID(bond));
    asked.set(FIX::SecurityIDSource(FIX::SecurityIDSource_ISIN_NUMBER));
    asked.set(FIX::Side(side));
    asked.set(FIX::OrderQty(2000000));
    asked.set(FIX::ExpireTime(moment("09:05:00")));
    for (const std::string &dealer : dealers) {
        FIX50SP2::QuoteRequest::NoRelatedSym::NoPartyIDs party;
        party.set(FIX::PartyID(dealer));
        party.set(FIX::PartyIDSource(FIX::PartyIDSource_PROPRIETARY_CUSTOM_CODE));
        party.set(FIX::PartyRole(35));
        asked.addGroup(party);
    }
    message.addGroup(asked);
    return message;
}

FIX50SP2::Quote quote(const char *id, const char *request_id, const char *bond) {
    FIX50SP2::Quote message{FIX::QuoteID(id)};
    message.set(FIX::QuoteReqID(request_id));
    message.set(FIX::SecurityID(bond));
    message.set(FIX::SecurityIDSource(FIX::SecurityIDSource_ISIN_NUMBER));
    return message;
}

FIX50SP2::Quote offer(const char *id, const char *request_id, double price) {
    FIX50SP2::Quote message = quote(id, request_id, BOND_A);
    message.set(FIX::OfferPx(price));
    return message;
}

FIX50SP2::Quote bid(const char *id, const char *request_id, double price) {
    FIX50SP2::Quote message = quote(id, request_id, BOND_B);
    message.set(FIX::BidPx(price));
    return message;
}

FIX50SP2::QuoteCancel cancel(const char *id) {
    FIX50SP2::QuoteCancel message{FIX::QuoteCancelType(5)};
    message.set(FIX::QuoteID(id));
    return message;
}

FIX50SP2::QuoteCancel cancel_all() {
    return FIX50SP2::QuoteCancel{FIX::QuoteCancelType(FIX::QuoteCancelType_CANCEL_ALL_QUOTES)};
}

FIX50SP2::QuoteRequestReject decline(const char *request_id) {
    return FIX50SP2::QuoteRequestReject(
        FIX::QuoteReqID(request_id),
        FIX::QuoteRequestRejectReason(FIX::QuoteRequestRejectReason_PASS));
}

FIX50SP2::QuoteResponse response(const char *id, int type) {
    FIX50SP2::QuoteResponse message;
    message.set(FIX::QuoteRespID(id));
    message.set(FIX::QuoteRespType(type));
    return message;
}

FIX50SP2::QuoteResponse hit(const char *id, const char *quote_id) {
    FIX50SP2::QuoteResponse message = response(id, FIX::QuoteRespType_HIT_LIFT);
    message.set(FIX::QuoteID(quote_id));
    return message;
}

FIX50SP2::QuoteResponse pass(const char *id, const char *request_id) {
    FIX50SP2::QuoteResponse message = response(id, FIX::QuoteRespType_PASS);
    message.setField(FIX::QuoteReqID(request_id));
    return message;
}

// The fields of a request as a dealer is shown it.
Fields shown(const char *number, const char *bond, const char *side, const char *investor) {
    return {{131, number}, {146, "1"}, {55, "[N/A]"}, {48, bond}, {22, "4"}, {54, side},
            {38, "2000000"}, {126, DEADLINE}, {453, "1"}, {448, investor}, {447, "D"}, {452, "13"}};
}

// The fields of an offer as the investor is shown it.
Fields offered(const char *number, const char *price, const char *dealer) {
    return {{131, "A"}, {117, number}, {55, "[N/A]"}, {48, BOND_A}, {22, "4"}, {54, "1"},
            {133, price}, {135, "2000000"}, {537, "1"}, {453, "1"}, {448, dealer}, {447, "D"},
            {452, "35"}};
}

// The fields of a closing notice without a quote.
Fields closed(const char *number, const char *request_id, const char *kind, const char *bond,
              const char *side) {
    return {{693, number}, {131, request_id}, {694, kind}, {55, "[N/A]"}, {48, bond}, {22, "4"},
            {54, side}, {38, "2000000"}};
}

// An investor buys of three dealers. One quotes twice, one quotes with every field and cancels, one
// declines; a hit comes too late, and one wins.
void bought(Day &day) {
    day.send("INV1", "09:00:00", request("A", BOND_A, '1', {"DLR1", "DLR2", "DLR3"}));
    day.turn("INV1", 5);
    day.expect("INV1", "AI", {{131, "A"}, {297, "0"}});
    for (const char *dealer : {"DLR1", "DLR2", "DLR3"}) {
        day.expect(dealer, "R", shown("R1", BOND_A, "1", "INV1"));
    }
    day.send("DLR1", "09:00:10", offer("a1", "R1", 99.50390625));
    day.turn("DLR1", 2);
    day.expect("DLR1", "AI", {{131, "R1"}, {117, "a1"}, {297, "0"}});
    day.expect("INV1", "S", offered("Q1", "99.50390625", "DLR1"));
    FIX50SP2::Quote whole = offer("b1", "R1", 99.515625);
    whole.set(FIX::OfferSize(2000000));
    whole.set(FIX::QuoteType(FIX::QuoteType_TRADEABLE));
    whole.set(FIX::ValidUntilTime(moment("09:04:00")));
    day.send("DLR2", "09:00:20", whole);
    day.turn("DLR2", 2);
    day.expect("DLR2", "AI", {{131, "R1"}, {117, "b1"}, {297, "0"}});
    Fields until = offered("Q2", "99.515625", "DLR2");
    until.push_back({62, "20250314-09:04:00.000"});
    day.expect("INV1", "S", until);
    day.send("DLR3", "09:00:25", decline("R1"));
    day.turn("DLR3", 2);
    day.expect("DLR3", "AI", {{131, "R1"}, {297, "11"}});
    day.expect("INV1", "AI", {{131, "A"}, {297, "11"}, {453, "1"}, {448, "DLR3"}, {447, "D"},
                              {452, "35"}});
    day.send("DLR1", "09:00:30", offer("a2", "R1", 99.25));
    day.turn("DLR1", 2);
    day.expect("DLR1", "AI", {{131, "R1"}, {117, "a2"}, {297, "0"}});
    day.expect("INV1", "AI", {{131, "A"}, {117, "Q1"}, {297, "17"}});
    day.expect("INV1", "S", offered("Q3", "99.25", "DLR1"));
    day.send("DLR2", "09:00:40", cancel("b1"));
    day.expect("DLR2", "AI", {{117, "b1"}, {297, "17"}});
    day.send("INV1", "09:00:50", hit("h1", "Q2"));
    day.turn("INV1", 2);
    day.expect("INV1", "AI", {{693, "h1"}, {131, "A"}, {117, "Q2"}, {297, "5"}, {300, "4"},
                              {58, "Withdrawn"}});
    day.turn("DLR2", 2);
    day.expect("INV1", "AI", {{131, "A"}, {117, "Q2"}, {297, "17"}});
    day.send("INV1", "09:01:00", hit("h2", "Q3"));
    day.turn("INV1", 5);
    day.expect("INV1", "AI", {{693, "h2"}, {131, "A"}, {117, "Q3"}, {297, "0"}});
    Fields won = closed("N1", "R1", "1", BOND_A, "1");
    won.push_back({117, "a2"});
    won.push_back({133, "99.25"});
    day.expect("DLR1", "AJ", won);
    day.expect("DLR2", "AJ", closed("N1", "R1", "5", BOND_A, "1"));
    day.expect("DLR3", "AJ", closed("N1", "R1", "5", BOND_A, "1"));
}

// Another investor sells: bids, one with its size; the dealer drops all its quotes, and the request
// is passed. A second one expires.
void sold(Day &day) {
    day.send("INV2", "09:01:30", request("S", BOND_B, '2', {"DLR1", "DLR2"}));
    day.turn("INV2", 4);
    day.expect("INV2", "AI", {{131, "S"}, {297, "0"}});
    day.expect("DLR1", "R", shown("R2", BOND_B, "2", "INV2"));
    day.expect("DLR2", "R", shown("R2", BOND_B, "2", "INV2"));
    FIX50SP2::Quote sized = bid("a3", "R2", 101);
    sized.set(FIX::BidSize(2000000));
    day.send("DLR1", "09:01:40", sized);
    day.turn("DLR1", 2);
    day.expect("DLR1", "AI", {{131, "R2"}, {117, "a3"}, {297, "0"}});
    day.expect("INV2", "S", {{131, "S"}, {117, "Q1"}, {55, "[N/A]"}, {48, BOND_B}, {22, "4"},
                             {54, "2"}, {132, "101"}, {134, "2000000"}, {537, "1"}, {453, "1"},
                             {448, "DLR1"}, {447, "D"}, {452, "35"}});
    day.send("DLR1", "09:01:50", cancel_all());
    day.turn("DLR1", 3);
    day.expect("DLR1", "AI", {{117, "a3"}, {297, "17"}});
    day.expect("INV2", "AI", {{131, "S"}, {117, "Q1"}, {297, "17"}});
    day.send("DLR1", "09:01:55", cancel_all());
    day.expect("DLR1", "AI", {{297, "9"}});
    day.send("INV2", "09:02:00", pass("p1", "S"));
    day.turn("INV2", 4);
    day.expect("INV2", "AI", {{693, "p1"}, {131, "S"}, {297, "11"}});
    day.expect("DLR1", "AJ", closed("N2", "R2", "6", BOND_B, "2"));
    day.expect("DLR2", "AJ", closed("N2", "R2", "6", BOND_B, "2"));
    day.send("INV2", "09:02:10", request("T", BOND_B, '2', {"DLR3"}));
    day.turn("INV2", 3);
    day.expect("INV2", "AI", {{131, "T"}, {297, "0"}});
    day.expect("DLR3", "R", shown("R2", BOND_B, "2", "INV2"));
    day.sweep("INV2", 2, "09:05:00");
    day.turn("CLOCK", 2);
    day.expect("INV2", "AI", {{131, "T"}, {297, "7"}});
    day.expect("DLR3", "AJ", closed("N2", "R2", "3", BOND_B, "2"));
}

// Messages that are refused, each by the market's rules.
void refused(Day &day) {
    day.send("DLR1", "09:06:00", offer("a4", "R1", 99.25));
    day.expect("DLR1", "AI", {{131, "R1"}, {117, "a4"}, {297, "5"}, {300, "4"}});
    day.send("DLR1", "09:06:00", offer("a4", "R9", 99.25));
    day.expect("DLR1", "AI", {{131, "R9"}, {117, "a4"}, {297, "5"}, {300, "99"}});
    day.send("DLR1", "09:06:10", cancel("a9"));
    day.expect("DLR1", "AI", {{117, "a9"}, {297, "9"}});
    day.send("DLR1", "09:06:10", cancel("a2"));
    day.expect("DLR1", "AI", {{117, "a2"}, {297, "5"}, {300, "4"}});
    day.send("DLR3", "09:06:20", decline("R1"));
    day.expect("DLR3", "AI", {{131, "R1"}, {297, "5"}, {300, "99"}});
    day.send("INV1", "09:00:00", request("B", "BONDC0000003", '1', {"DLR1"}));
    day.expect("INV1", "AG", {{131, "B"}, {658, "1"}, {146, "1"}, {55, "[N/A]"},
                              {48, "BONDC0000003"}, {22, "4"}});
    day.send("INV1", "09:05:00", request("B", BOND_A, '1', {"DLR1"}));
    day.expect("INV1", "AG", {{131, "B"}, {658, "4"}, {146, "1"}, {55, "[N/A]"}, {48, BOND_A},
                              {22, "4"}});
    day.send("INV1", "09:00:00", request("B", BOND_A, '1', {"DLR1", "DLR1"}));
    day.expect("INV1", "AG", {{131, "B"}, {658, "99"}, {146, "1"}, {55, "[N/A]"}, {48, BOND_A},
                              {22, "4"}});
    day.send("INV1", "09:06:30", hit("h3", "Q9"));
    day.expect("INV1", "AI", {{693, "h3"}, {117, "Q9"}, {297, "9"}});
    day.send("INV1", "09:06:40", hit("h4", "Q3"));
    day.turn("INV1", 2);
    day.expect("INV1", "AI", {{693, "h4"}, {131, "A"}, {117, "Q3"}, {297, "5"}, {300, "4"},
                              {58, "NotOpen"}});
    day.send("INV1", "09:06:50", pass("p2", "Z"));
    day.expect("INV1", "AI", {{693, "p2"}, {131, "Z"}, {297, "9"}});
    day.send("INV1", "09:06:50", pass("p3", "A"));
    day.turn("INV1", 2);
    day.expect("INV1", "AI", {{693, "p3"}, {131, "A"}, {297, "5"}, {300, "4"}, {58, "NotOpen"}});
}

}  // namespace

void build_messages(const Dictionary &dictionary, const Venue &venue, Traffic &traffic) {
    Day day(dictionary);
    bought(day);
    sold(day);
    refused(day);
    // What an engine says of itself in the header, the venue ignores.
    FIX50SP2::QuoteCancel versioned = cancel("a8");
    day.send_with_version("DLR2", "09:07:00", versioned);
    day.expect("DLR2", "AI", {{117, "a8"}, {297, "9"}});
    day.run(venue, traffic);
    std::printf("%d messages built by QuickFIX's types are sent, and %d answers are as expected\n",
                day.sent(), day.expected());
}
