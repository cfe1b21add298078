#include "dictionary.h"

#include <quickfix/FieldConvertors.h>

#include <algorithm>
#include <fstream>
#include <sstream>
#include <stdexcept>

namespace {

// Throws where a value is not of its type, as DataDictionary does outside groups. The types are
// those of the fields that stand in the dictionary's groups.
void check_format(FIX::TYPE::Type type, const std::string &value) {
    switch (type) {
    case FIX::TYPE::Char:
        FIX::CharConvertor::convert(value);
        break;
    case FIX::TYPE::Int:
    case FIX::TYPE::NumInGroup:
        FIX::IntConvertor::convert(value);
        break;
    case FIX::TYPE::Qty:
        FIX::DoubleConvertor::convert(value);
        break;
    case FIX::TYPE::UtcTimeStamp:
        FIX::UtcTimeStampConvertor::convert(value);
        break;
    case FIX::TYPE::String:
        break;
    default:
        throw std::logic_error("a type that no field in a group had");
    }
}

}  // namespace

Dictionary::Dictionary(const std::string &text) {
    std::istringstream stream(text);
    dictionary = std::make_unique<FIX::DataDictionary>(stream, true);
}

Verdict Dictionary::judge(const std::string &bytes) const {
    const auto fault = [](int tag, int reason, const FIX::Exception &e) {
        return Verdict{false, tag, reason, e.what()};
    };
    try {
        const FIX::Message message = read(bytes);
        dictionary->validate(message);
        for (const int tag : {FIX::FIELD::SenderCompID, FIX::FIELD::TargetCompID,
                              FIX::FIELD::MsgSeqNum, FIX::FIELD::SendingTime}) {
            message.getHeader().getField(tag);
        }
        const std::string type = message.getHeader().getField(FIX::FIELD::MsgType);
        look_into_groups(message, type, *dictionary);
        return Verdict{true, 0, 0, ""};
    } catch (const FIX::InvalidTagNumber &e) {
        return fault(e.field, 0, e);
    } catch (const FIX::RequiredTagMissing &e) {
        return fault(e.field, 1, e);
    } catch (const FIX::TagNotDefinedForMessage &e) {
        return fault(e.field, 2, e);
    } catch (const FIX::NoTagValue &e) {
        return fault(e.field, 4, e);
    } catch (const FIX::IncorrectTagValue &e) {
        return fault(e.field, 5, e);
    } catch (const FIX::IncorrectDataFormat &e) {
        return fault(e.field, 6, e);
    } catch (const FIX::InvalidMessageType &e) {
        return fault(FIX::FIELD::MsgType, 11, e);
    } catch (const FIX::RepeatedTag &e) {
        return fault(e.field, 13, e);
    } catch (const FIX::TagOutOfOrder &e) {
        return fault(e.field, 14, e);
    } catch (const FIX::RepeatingGroupCountMismatch &e) {
        return fault(e.field, 16, e);
    } catch (const FIX::FieldNotFound &e) {
        return fault(e.field, 1, e);
    } catch (const FIX::Exception &e) {
        return fault(0, 0, e);
    }
}

FIX::Message Dictionary::read(const std::string &bytes) const {
    FIX::Message message;
    message.setString(bytes, true, dictionary.get(), dictionary.get());
    return message;
}

std::string Dictionary::write_again(const std::string &bytes) const {
    const std::string type = FIX::identifyType(bytes);
    FIX::Message message(dictionary->getHeaderOrderedFields(),
                         dictionary->getTrailerOrderedFields(),
                         dictionary->getMessageOrderedFields(type), bytes, *dictionary);
    return message.toString();
}

void Dictionary::look_into_groups(const FIX::FieldMap &map, const std::string &type,
                                  const FIX::DataDictionary &level) const {
    for (auto group = map.g_begin(); group != map.g_end(); ++group) {
        int first = 0;
        const FIX::DataDictionary *inner = nullptr;
        if (!level.getGroup(type, group->first, first, inner)) {
            throw FIX::TagNotDefinedForMessage(group->first);
        }
        for (const FIX::FieldMap *entry : group->second) {
            look_at_entry(*entry, type, *inner);
            look_into_groups(*entry, type, *inner);
        }
    }
}

void Dictionary::look_at_entry(const FIX::FieldMap &entry, const std::string &type,
                               const FIX::DataDictionary &level) const {
    for (const FIX::FieldBase &field : entry) {
        const std::string &value = field.getString();
        if (value.empty()) {
            throw FIX::NoTagValue(field.getTag());
        }
        FIX::TYPE::Type form = FIX::TYPE::Unknown;
        dictionary->getFieldType(field.getTag(), form);
        try {
            check_format(form, value);
        } catch (const FIX::FieldConvertError &) {
            throw FIX::IncorrectDataFormat(field.getTag(), value);
        }
        if (dictionary->hasFieldValue(field.getTag())
            && !dictionary->isFieldValue(field.getTag(), value)) {
            throw FIX::IncorrectTagValue(field.getTag());
        }
        if (level.isGroup(type, field.getTag())
            && static_cast<long>(entry.groupCount(field.getTag()))
                   != FIX::IntConvertor::convert(value)) {
            throw FIX::RepeatingGroupCountMismatch(field.getTag());
        }
    }
}

std::string bytes_of(const std::string &path) {
    std::ifstream file(path, std::ios::binary);
    if (!file) {
        throw std::runtime_error("can't read " + path);
    }
    std::ostringstream bytes;
    bytes << file.rdbuf();
    return bytes.str();
}

std::string with_soh(std::string text) {
    std::replace(text.begin(), text.end(), '|', '\001');
    return text;
}

std::string with_bars(std::string bytes) {
    std::replace(bytes.begin(), bytes.end(), '\001', '|');
    return bytes;
}
