// The same work by C++ protobuf, over messages that were used before.
#include "readings_work.h"

#include "readings.pb.h"

#include <google/protobuf/io/coded_stream.h>
#include <google/protobuf/io/zero_copy_stream_impl_lite.h>

#include <string>

namespace {

using namespace readings;

uint64_t with_string(uint64_t sum, const std::string &text) {
    return with_text(sum, text.data(), text.size());
}

uint64_t with(uint64_t sum, const Point &it) {
    return with_number(with_number(sum, it.x()), it.y());
}

uint64_t with(uint64_t sum, const Reading &it) {
    sum = with_string(sum, it.sensor());
    sum = with_double(sum, it.celsius());
    sum = with_number(with_number(sum, it.has_offset()), it.offset());
    return with_number(sum, it.state());
}

uint64_t with(uint64_t sum, const Settings &it) {
    sum = with_number(sum, it.least());
    sum = with_number(sum, it.since());
    sum = with_number(sum, it.each_seconds());
    sum = with_number(sum, it.serial());
    sum = with_number(sum, it.shift());
    sum = with_number(sum, it.address());
    sum = with_number(sum, it.key());
    sum = with_number(sum, it.low());
    sum = with_number(sum, it.high());
    sum = with_float(sum, it.factor());
    sum = with_number(sum, it.is_on());
    sum = with_string(sum, it.registered());
    sum = with_string(with_number(sum, it.has_label()), it.label());
    sum = with_string(with_number(sum, it.has_token()), it.token());
    sum = with_double(with_number(sum, it.has_limit()), it.limit());
    sum = with_float(with_number(sum, it.has_gain()), it.gain());
    sum = with_number(with_number(sum, it.has_is_loud()), it.is_loud());
    sum = with_number(with_number(sum, it.has_worst()), it.worst());
    sum = with_number(with_number(sum, it.has_mask()), it.mask());
    return with_number(with_number(sum, it.has_count()), it.count());
}

uint64_t with(uint64_t sum, const Sensor &it) {
    sum = with_string(sum, it.name());
    sum = it.has_at() ? with(sum, it.at()) : sum;
    sum = it.has_last() ? with(sum, it.last()) : sum;
    sum = with_number(with_number(sum, it.has_count()), it.count());
    sum = it.has_settings() ? with(sum, it.settings()) : sum;
    sum = with_string(sum, it.key());
    sum = with_number(sum, it.turned());
    sum = with_number(sum, it.state());
    sum = with_double(sum, it.weight());
    return it.has_next() ? with(sum, it.next()) : sum;
}

uint64_t with_cause(uint64_t sum, const Visit &it) {
    sum = with_number(sum, it.cause_case());
    switch (it.cause_case()) {
    case Visit::kState: return with_number(sum, it.state());
    case Visit::kLimit: return with_double(sum, it.limit());
    case Visit::kComplaint: return with_string(sum, it.complaint());
    case Visit::kReading: return with(sum, it.reading());
    case Visit::kOrder: return with_string(sum, it.order());
    case Visit::kShift: return with_number(sum, it.shift());
    default: return sum;
    }
}

uint64_t with(uint64_t sum, const Visit &it) {
    sum = with_string(sum, it.by());
    sum = with_cause(sum, it);
    sum = with_number(with_number(sum, it.has_minutes()), it.minutes());
    sum = with_number(with_number(sum, it.outcome_case()), it.is_done());
    return it.has_at() ? with(sum, it.at()) : sum;
}

uint64_t with(uint64_t sum, const Log &it) {
    sum = with_number(sum, it.since());
    sum = it.has_at() ? with(sum, it.at()) : sum;
    sum = with_string(sum, it.by());
    sum = with_number(sum, it.is_whole());
    sum = with_number(sum, it.count());
    for (const std::string &note : it.notes()) {
        sum = with_string(sum, note);
    }
    for (const Reading &reading : it.readings()) {
        sum = with(sum, reading);
    }
    for (const std::string &frame : it.frames()) {
        sum = with_string(sum, frame);
    }
    for (const Point &point : it.path()) {
        sum = with(sum, point);
    }
    for (const std::string &one : it.more()) {
        sum = with_string(sum, one);
    }
    return sum;
}

uint64_t with(uint64_t sum, const Totals &it) {
    sum = with_string(sum, it.by());
    for (const auto &entry : it.sums()) {
        sum += with_number(with_string(1, entry.first), entry.second);
    }
    for (const auto &entry : it.last()) {
        sum += with(with_number(1, entry.first), entry.second);
    }
    for (const auto &entry : it.states()) {
        sum += with_number(with_number(1, entry.first), entry.second);
    }
    return sum;
}

template <typename Message> Message used;

template <typename Message> uint64_t read(const uint8_t *bytes, size_t len) {
    const bool done = used<Message>.ParseFromArray(bytes, static_cast<int>(len));
    return done ? with(1, used<Message>) : 0;
}

template <typename Message> size_t write(uint8_t *room, size_t room_len) {
    const bool done = used<Message>.SerializeToArray(room, static_cast<int>(room_len));
    return done ? static_cast<size_t>(used<Message>.GetCachedSize()) : 0;
}

// In the order of its keys, so that the bytes are the same.
size_t write_totals(uint8_t *room, size_t room_len) {
    google::protobuf::io::ArrayOutputStream out(room, static_cast<int>(room_len));
    google::protobuf::io::CodedOutputStream coded(&out);
    coded.SetSerializationDeterministic(true);
    const bool done = used<Totals>.SerializeToCodedStream(&coded);
    return done ? static_cast<size_t>(coded.ByteCount()) : 0;
}

} // namespace

const message_work cpp_work[] = {
    {"reading", read<Reading>, write<Reading>},
    {"settings", read<Settings>, write<Settings>},
    {"sensor", read<Sensor>, write<Sensor>},
    {"visit", read<Visit>, write<Visit>},
    {"log", read<Log>, write<Log>},
    {"totals", read<Totals>, write_totals},
    {nullptr, nullptr, nullptr},
};
