// Work on records in place, by the library for C and by its peers: C++ protobuf's UnknownFieldSet,
// which keeps what it reads, and nanopb, which passes over records one by one. Each worker answers
// the same sum, or there is nothing to count.
//
//   in_place WORK WORKER ROUNDS

#include "gettavil.h"

#include <google/protobuf/unknown_field_set.h>
#include <pb_decode.h>
#include <pb_encode.h>

#include <cstdio>
#include <cstdlib>
#include <cstring>
#include <functional>
#include <map>
#include <random>
#include <string>

using google::protobuf::UnknownField;
using google::protobuf::UnknownFieldSet;

namespace {

constexpr int kRecords = 20000;
uint8_t room[1 << 20];

void Varint(std::string& bytes, uint64_t value) {
  for (; value >= 128; value /= 128) bytes.push_back(static_cast<char>(value % 128 + 128));
  bytes.push_back(static_cast<char>(value));
}

// Records of these kinds in turn, of numbers up to so many.
std::string Records(const char* kinds, uint32_t numbers) {
  std::mt19937_64 random(7);
  std::string bytes;
  for (int i = 0; i < kRecords; i++) {
    uint64_t tag = (1 + random() % numbers) * 8;
    switch (kinds[i % std::strlen(kinds)]) {
      case 'v': Varint(bytes, tag); Varint(bytes, random() >> (random() % 64)); break;
      case 's': Varint(bytes, tag); Varint(bytes, random() % 128); break;
      case 'd': Varint(bytes, tag + 1); bytes.append(8, 'd'); break;
      case 'f': Varint(bytes, tag + 5); bytes.append(4, 'f'); break;
      default: {
        size_t len = random() % 40;
        Varint(bytes, tag + 2);
        Varint(bytes, len);
        bytes.append(len, 'b');
      }
    }
  }
  return bytes;
}

// ---- reading: the sum of the field numbers, the numbers and the lengths

uint64_t ReadHere(const std::string& input) {
  const gtv_limits limits = GTV_NO_LIMITS;
  const uint8_t* bytes = reinterpret_cast<const uint8_t*>(input.data());
  gtv_reader reader;
  gtv_event event;
  gtv_fault fault;
  uint64_t sum = 0;
  gtv_reader_init(&reader, &limits);
  while (gtv_next(&reader, bytes, input.size(), &event, &fault) == GTV_OK) {
    sum += event.number + event.value;
  }
  return sum;
}

uint64_t ReadCpp(const std::string& input) {
  UnknownFieldSet set;
  uint64_t sum = 0;
  set.ParseFromArray(input.data(), static_cast<int>(input.size()));
  for (int i = 0; i < set.field_count(); i++) {
    const UnknownField& field = set.field(i);
    sum += static_cast<uint32_t>(field.number());
    switch (field.type()) {
      case UnknownField::TYPE_VARINT: sum += field.varint(); break;
      case UnknownField::TYPE_FIXED32: sum += field.fixed32(); break;
      case UnknownField::TYPE_FIXED64: sum += field.fixed64(); break;
      default: sum += field.length_delimited().size();
    }
  }
  return sum;
}

uint64_t ReadNanopb(const std::string& input) {
  pb_istream_t stream =
      pb_istream_from_buffer(reinterpret_cast<const pb_byte_t*>(input.data()), input.size());
  pb_wire_type_t type;
  uint32_t number;
  bool ended;
  uint64_t sum = 0;
  while (pb_decode_tag(&stream, &type, &number, &ended)) {
    uint64_t value = 0;
    uint32_t word = 0;
    switch (type) {
      case PB_WT_VARINT: pb_decode_varint(&stream, &value); break;
      case PB_WT_64BIT: pb_decode_fixed64(&stream, &value); break;
      case PB_WT_32BIT: pb_decode_fixed32(&stream, &word); break;
      default:
        pb_decode_varint32(&stream, &word);
        pb_read(&stream, nullptr, word);
    }
    sum += number + value + word;
  }
  return sum;
}

// ---- writing: how many bytes are written

uint64_t WriteHere(bool numbers) {
  gtv_writer writer = {0, 0};
  for (uint32_t i = 0; i < kRecords; i++) {
    if (numbers) {
      gtv_put_varint(&writer, room, sizeof room, 1 + i % 30, uint64_t{i} * 977);
    } else {
      gtv_put_bytes(&writer, room, sizeof room, 1 + i % 30, room, i % 20);
    }
  }
  return writer.place;
}

uint64_t WriteNanopb(bool numbers) {
  pb_ostream_t stream = pb_ostream_from_buffer(room, sizeof room);
  for (uint32_t i = 0; i < kRecords; i++) {
    if (numbers) {
      pb_encode_tag(&stream, PB_WT_VARINT, 1 + i % 30);
      pb_encode_varint(&stream, uint64_t{i} * 977);
    } else {
      pb_encode_tag(&stream, PB_WT_STRING, 1 + i % 30);
      pb_encode_string(&stream, room, i % 20);
    }
  }
  return stream.bytes_written;
}

}  // namespace

int main(int count, char** words) {
  if (count != 4) return 2;
  std::string work = words[1], worker = words[2], input;
  if (work == "numbers") input = Records("s", 15);
  if (work == "payloads") input = Records("b", 15);
  if (work == "mixed") input = Records("vbfvd", 30);
  std::map<std::string, std::function<uint64_t()>> readers = {
      {"here", [&] { return ReadHere(input); }},
      {"cpp", [&] { return ReadCpp(input); }},
      {"nanopb", [&] { return ReadNanopb(input); }},
  };
  std::map<std::string, std::function<uint64_t()>> writers = {
      {"here", [&] { return WriteHere(work == "put-numbers"); }},
      {"nanopb", [&] { return WriteNanopb(work == "put-numbers"); }},
  };
  auto& all = input.empty() ? writers : readers;
  uint64_t answer = 0;
  for (int rounds = std::atoi(words[3]); rounds > 0; rounds--) answer = all.at(worker)();
  std::printf("%llu\n", static_cast<unsigned long long>(answer));
}
