#include "health/certificate_end.h"

#include "common/regular_file.h"
#include "common/shown.h"

#include <algorithm>
#include <ctime>
#include <memory>
#include <utility>

#include <fmt/chrono.h>
#include <fmt/format.h>
#include <openssl/bio.h>
#include <openssl/err.h>
#include <openssl/pem.h>
#include <openssl/x509.h>
#include <openssl/x509v3.h>

namespace gateway {

namespace {

using Moment = std::chrono::sys_seconds;
using Certificate = std::unique_ptr<X509, decltype(&X509_free)>;
using List = std::unique_ptr<X509_CRL, decltype(&X509_CRL_free)>;

std::optional<Moment> moment_of(const ASN1_TIME *time) {
    std::tm moment{};
    if (time == nullptr || ASN1_TIME_to_tm(time, &moment) != 1) {
        return std::nullopt;
    }
    return Moment(std::chrono::seconds(::timegm(&moment)));
}

Certificate next_certificate(BIO *file) {
    return {PEM_read_bio_X509(file, nullptr, nullptr, nullptr), X509_free};
}

List next_list(BIO *file) {
    return {PEM_read_bio_X509_CRL(file, nullptr, nullptr, nullptr), X509_CRL_free};
}

// What a file has, which `next` gives one after the other.
template <typename Each>
std::vector<Each> all_of(const std::filesystem::path &path, Each (*next)(BIO *)) {
    const std::unique_ptr<BIO, decltype(&BIO_free)> file(
        path.empty() || may_have_no_end(path) ? nullptr : BIO_new_file(path.c_str(), "r"),
        BIO_free);
    std::vector<Each> all;
    if (!file) {
        return all;
    }
    for (Each each = next(file.get()); each; each = next(file.get())) {
        all.push_back(std::move(each));
    }
    return all;
}

template <typename Each, typename End>
std::optional<Moment> first_end(const std::vector<Each> &all, End end) {
    std::optional<Moment> first;
    for (const Each &each : all) {
        if (const auto moment = moment_of(end(each.get()))) {
            first = first ? std::min(*first, *moment) : *moment;
        }
    }
    return first;
}

bool is_of(X509_CRL *list, X509 *authority) {
    return X509_NAME_cmp(X509_CRL_get_issuer(list), X509_get_subject_name(authority)) == 0 &&
           X509_CRL_verify(list, X509_get0_pubkey(authority)) == 1;
}

bool vouches_for(X509 *authority, X509 *other) {
    return authority != other && X509_check_issued(authority, other) == X509_V_OK &&
           X509_verify(other, X509_get0_pubkey(authority)) == 1;
}

std::string name_of(X509 *certificate) {
    const std::unique_ptr<BIO, decltype(&BIO_free)> text(BIO_new(BIO_s_mem()), BIO_free);
    X509_NAME_print_ex(text.get(), X509_get_subject_name(certificate), 0, XN_FLAG_RFC2253);
    char *bytes = nullptr;
    const long size = BIO_get_mem_data(text.get(), &bytes);
    return size <= 0 ? "no name" : shown({bytes, static_cast<std::size_t>(size)});
}

} // namespace

std::optional<Moment> end_of_certificates(const std::filesystem::path &path) {
    return first_end(all_of(path, next_certificate), X509_get0_notAfter);
}

std::optional<Moment> end_of_lists(const std::filesystem::path &path) {
    return first_end(all_of(path, next_list), X509_CRL_get0_nextUpdate);
}

std::vector<std::string> without_list(const EngineSettings &settings) {
    std::vector<std::string> told;
    if (settings.revoked.empty()) {
        return told;
    }
    const auto lists = all_of(settings.revoked, next_list);
    const auto authorities = all_of(settings.authorities, next_certificate);
    for (const Certificate &each : authorities) {
        const bool has_list = std::ranges::any_of(
            lists, [&each](const List &list) { return is_of(list.get(), each.get()); });
        // One that vouches for another authority may have given no firm a certificate.
        const bool is_above = std::ranges::any_of(authorities, [&each](const Certificate &other) {
            return vouches_for(each.get(), other.get());
        });
        if (!has_list && !is_above) {
            told.push_back(fmt::format("[tls] revoked = \"{}\" has no list of {}: nobody to whom "
                                       "this authority gave a certificate can log on",
                                       settings.revoked, name_of(each.get())));
        }
    }
    ERR_clear_error();
    return told;
}

void count_certificates(const EngineSettings &settings, Metrics &metrics) {
    for (const std::string &file : {settings.certificate, settings.authorities}) {
        if (const auto end = file.empty() ? std::nullopt : end_of_certificates(file)) {
            metrics.certificate_ends(file, *end);
        }
    }
    if (const auto end = end_of_lists(settings.revoked)) {
        metrics.list_ends(settings.revoked, *end);
    }
}

std::vector<std::string> ends_soon(const EngineSettings &settings, Moment now) {
    std::vector<std::string> told;
    const auto add = [&](std::string_view key, const std::string &file, std::optional<Moment> end,
                         std::chrono::days notice, std::string_view then) {
        if (end && *end - now <= notice) {
            told.push_back(fmt::format("[tls] {} = \"{}\" ends at {:%Y-%m-%dT%H:%M:%SZ}{}", key,
                                       file, fmt::gmtime(end->time_since_epoch().count()), then));
        }
    };
    add("certificate", settings.certificate, end_of_certificates(settings.certificate),
        notice_of_certificate, "");
    add("authorities", settings.authorities, end_of_certificates(settings.authorities),
        notice_of_certificate, "");
    add("revoked", settings.revoked, end_of_lists(settings.revoked), notice_of_list,
        ", and then nobody can log on");
    return told;
}

} // namespace gateway
