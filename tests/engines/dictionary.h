// Asks QuickFIX, with the venue's data dictionary, what it says of a frame.
#ifndef DICTIONARY_H
#define DICTIONARY_H

#include <quickfix/DataDictionary.h>
#include <quickfix/Message.h>

#include <memory>
#include <string>

// What is wrong with a frame: the RefTagID (371) and the SessionRejectReason (373) by which
// QuickFIX would reject it. The tag of bytes that are no frame is 0.
struct Verdict {
    bool lawful;
    int tag;
    int reason;
    std::string why;
};

class Dictionary {
public:
    // Reads the text of a dictionary. QuickFIX throws ConfigError where it is at fault.
    explicit Dictionary(const std::string &text);

    // All of QuickFIX's validation by the dictionary; then the fields of a header, for which
    // QuickFIX asks in its session and not by the dictionary; then the values within groups, at
    // which it does not look.
    Verdict judge(const std::string &bytes) const;

    // The message of a lawful frame.
    FIX::Message read(const std::string &bytes) const;

    // The frame, written anew by QuickFIX with its fields in the order of the dictionary.
    std::string write_again(const std::string &bytes) const;

    const FIX::DataDictionary &fields() const { return *dictionary; }

private:
    void look_into_groups(const FIX::FieldMap &map, const std::string &type,
                          const FIX::DataDictionary &level) const;
    void look_at_entry(const FIX::FieldMap &entry, const std::string &type,
                       const FIX::DataDictionary &level) const;

    std::unique_ptr<FIX::DataDictionary> dictionary;
};

// A file's bytes. Throws where it can't be read.
std::string bytes_of(const std::string &path);

// The frame of printed bytes: SOH for each vertical bar.
std::string with_soh(std::string text);

// The bytes of a frame as they are printed: a vertical bar for each SOH.
std::string with_bars(std::string bytes);

#endif
