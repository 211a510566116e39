// Reads and writes a sample or a station so many times: structs WORK MESSAGE WORKER ROUNDS. Says
// how many bytes the message has, and a sum of what was read or written.
#include "structs.h"

#include "station.pb.h"

#include <cstdio>
#include <cstdlib>
#include <string>

namespace {

report::Report_Sample sample;
station::Station it;
std::string written;

uint64_t sum_of(const report::Report_Sample &one) {
    return one.name().size() + static_cast<uint64_t>(one.count()) + (one.value() != 0);
}

uint64_t cpp_read(bool is_station, const std::string &bytes) {
    if (!is_station) {
        return sample.ParseFromString(bytes) ? sum_of(sample) : 0;
    }
    if (!it.ParseFromString(bytes)) {
        return 0;
    }
    uint64_t sum = it.name().size() + it.note().size() + it.key().size() +
                   static_cast<uint64_t>(it.level()) + static_cast<uint64_t>(it.height()) +
                   it.staffed() + sum_of(it.last()) + static_cast<uint64_t>(it.power_case());
    for (const std::string &tag : it.tags()) {
        sum += tag.size();
    }
    for (const report::Report_Sample &one : it.samples()) {
        sum += sum_of(one);
    }
    return sum;
}

size_t cpp_write(bool is_station) {
    bool done = is_station ? it.SerializeToString(&written) : sample.SerializeToString(&written);
    return done ? written.size() : 0;
}

// Three fields that the schema lacks.
void add_unknown(google::protobuf::Message &one) {
    auto *fields = one.GetReflection()->MutableUnknownFields(&one);
    fields->AddVarint(100, 300);
    fields->AddLengthDelimited(101, "a text that nobody knows");
    fields->AddFixed64(102, 1);
}

std::string message(bool is_station, bool keeps) {
    if (keeps) {
        add_unknown(is_station ? static_cast<google::protobuf::Message &>(it) : sample);
    }
    sample.set_name("Ada");
    sample.set_value(1.5);
    sample.set_count(7);
    if (!is_station) {
        return sample.SerializeAsString();
    }
    it.set_name("Alpha station north");
    it.set_level(report::Report_Level_VERY_HIGH);
    it.set_height(-1234);
    it.set_note("steady note");
    it.mutable_last()->set_name("disk");
    it.mutable_last()->set_value(2.5);
    it.mutable_last()->set_count(-4);
    it.set_key("0123456789ABCDEF");
    it.set_staffed(true);
    it.set_volts(12.5);
    it.add_tags("root");
    it.add_tags("ssd");
    it.add_samples()->set_name("cpu");
    it.mutable_samples(0)->set_value(0.25);
    return it.SerializeAsString();
}

} // namespace

int main(int count, char **words) {
    if (count != 5) {
        std::fprintf(stderr, "usage: structs WORK MESSAGE WORKER ROUNDS\n");
        return 2;
    }
    const std::string work = words[1], worker = words[3];
    const bool is_station = std::string(words[2]) == "station";
    const bool keeps = work == "keep";
    const std::string bytes = message(is_station, keeps);
    const auto *data = reinterpret_cast<const uint8_t *>(bytes.data());
    const bool writes = work == "write" || keeps, with_lists = work != "front";
    const bool is_here = worker == "here", is_cpp = worker == "cpp";
    uint64_t sum = 0;
    here_read(is_station, data, bytes.size(), true);
    nanopb_read(is_station, data, bytes.size());
    for (int round = std::atoi(words[4]); round > 0; round--) {
        uint8_t room[256];
        if (writes) {
            sum += is_here && keeps
                       ? here_keep(is_station, data, bytes.size(), room, sizeof room)
                   : is_here ? here_write(is_station, room, sizeof room)
                   : is_cpp ? cpp_write(is_station)
                            : nanopb_write(is_station, room, sizeof room);
        } else {
            sum += is_here  ? here_read(is_station, data, bytes.size(), with_lists)
                   : is_cpp ? cpp_read(is_station, bytes)
                            : nanopb_read(is_station, data, bytes.size());
        }
    }
    std::printf("%zu bytes: %llu\n", bytes.size(), static_cast<unsigned long long>(sum));
    return 0;
}
