// The same work by C++ protobuf.
#include <google/protobuf/io/coded_stream.h>
#include <google/protobuf/io/zero_copy_stream.h>
#include <google/protobuf/io/zero_copy_stream_impl_lite.h>
#include <google/protobuf/unknown_field_set.h>
#include <google/protobuf/util/delimited_message_util.h>
#include <google/protobuf/wire_format.h>
#include <google/protobuf/wire_format_lite.h>

#include <cstdint>
#include <deque>
#include <memory>
#include <string>
#include <string_view>
#include <vector>

#include "node.pb.h"
#include "peer.h"
#include "person.pb.h"

using google::protobuf::UnknownFieldSet;
using google::protobuf::internal::WireFormat;
using google::protobuf::internal::WireFormatLite;
using google::protobuf::io::ArrayInputStream;
using google::protobuf::io::ArrayOutputStream;
using google::protobuf::io::CodedInputStream;
using google::protobuf::io::CodedOutputStream;
using google::protobuf::io::ConcatenatingInputStream;
using google::protobuf::io::ZeroCopyInputStream;
using wire::samples::Node;
using wire::samples::Numbers;
using wire::samples::Person;

namespace {

// How many bytes each round writes into an array with so much room.
template <typename Write>
uint64_t RepeatWriting(uint32_t rounds, size_t room, Write write) {
  std::unique_ptr<uint8_t[]> array(new uint8_t[room]);
  return Repeat(rounds, [&]() -> uint64_t {
    ArrayOutputStream sink(array.get(), static_cast<int>(room));
    CodedOutputStream out(&sink);
    write(&out);
    return out.HadError() ? 0 : out.ByteCount();
  });
}

// Puts each varint of the bytes.
template <typename Put>
uint64_t RepeatPutting(const uint8_t* bytes, size_t len, uint32_t rounds, Put put) {
  CodedInputStream in(bytes, static_cast<int>(len));
  std::vector<uint64_t> values;
  uint64_t value;
  while (in.ReadVarint64(&value)) values.push_back(value);
  return RepeatWriting(rounds, values.size() * 64, [&](CodedOutputStream* out) {
    for (uint64_t each : values) put(each, out);
  });
}

bool IsText(const char* at, size_t size) {
  return WireFormatLite::VerifyUtf8String(at, static_cast<int>(size), WireFormatLite::PARSE, "");
}

}  // namespace

extern "C" {

uint64_t cpp_varints(const uint8_t* bytes, size_t len, uint32_t rounds) {
  return Repeat(rounds, [=] {
    CodedInputStream in(bytes, static_cast<int>(len));
    uint64_t answer = 0, value;
    while (in.ReadVarint64(&value)) answer ^= value;
    return answer;
  });
}

uint64_t cpp_packed(const uint8_t* bytes, size_t len, uint32_t rounds) {
  std::string text = "\x0A";
  {
    google::protobuf::io::StringOutputStream sink(&text);
    CodedOutputStream out(&sink);
    out.WriteVarint64(len);
    out.WriteRaw(bytes, static_cast<int>(len));
  }
  Numbers numbers;
  return Repeat(rounds, [&]() -> uint64_t {
    return numbers.ParseFromString(text) ? numbers.values_size() : 0;
  });
}

// The pieces are copied, as they are into a rope.
uint64_t cpp_rope_varints(const uint8_t* bytes, size_t len, uint32_t rounds) {
  const std::string_view all(reinterpret_cast<const char*>(bytes), len);
  return Repeat(rounds, [=] {
    std::vector<std::string> pieces;
    for (size_t at = 0; at < len; at += 64) pieces.emplace_back(all.substr(at, 64));
    std::deque<ArrayInputStream> streams;
    std::vector<ZeroCopyInputStream*> addresses;
    for (const std::string& piece : pieces) {
      streams.emplace_back(piece.data(), static_cast<int>(piece.size()));
      addresses.push_back(&streams.back());
    }
    ConcatenatingInputStream joined(addresses.data(), static_cast<int>(addresses.size()));
    CodedInputStream in(&joined);
    uint64_t answer = 0, value;
    while (in.ReadVarint64(&value)) answer ^= value;
    return answer;
  });
}

uint64_t cpp_skip(const uint8_t* bytes, size_t len, uint32_t rounds) {
  return Repeat(rounds, [=]() -> uint64_t {
    CodedInputStream in(bytes, static_cast<int>(len));
    uint64_t count = 0;
    while (uint32_t tag = in.ReadTag()) {
      if (!WireFormatLite::SkipField(&in, tag)) return 0;
      ++count;
    }
    return count;
  });
}

uint64_t cpp_unknown_decode(const uint8_t* bytes, size_t len, uint32_t rounds) {
  return Repeat(rounds, [=]() -> uint64_t {
    UnknownFieldSet fields;
    return fields.ParseFromArray(bytes, static_cast<int>(len)) ? fields.field_count() : 0;
  });
}

uint64_t cpp_unknown_write(const uint8_t* bytes, size_t len, uint32_t rounds) {
  UnknownFieldSet fields;
  if (!fields.ParseFromArray(bytes, static_cast<int>(len))) return 0;
  return RepeatWriting(rounds, 2 * len, [&](CodedOutputStream* out) {
    WireFormat::SerializeUnknownFields(fields, out);
  });
}

uint64_t cpp_unknown_len(const uint8_t* bytes, size_t len, uint32_t rounds) {
  UnknownFieldSet fields;
  if (!fields.ParseFromArray(bytes, static_cast<int>(len))) return 0;
  return Repeat(rounds, [&] { return WireFormat::ComputeUnknownFieldsSize(fields); });
}

uint64_t cpp_decode_string(const uint8_t* bytes, size_t len, uint32_t rounds) {
  return Repeat(rounds, [=]() -> uint64_t {
    CodedInputStream in(bytes, static_cast<int>(len));
    uint64_t sum = 0;
    for (;;) {
      std::string text;
      if (!WireFormatLite::ReadString(&in, &text)) return sum;
      if (!IsText(text.data(), text.size())) return 0;
      sum += text.size();
    }
  });
}

uint64_t cpp_decode_bytes(const uint8_t* bytes, size_t len, uint32_t rounds) {
  return Repeat(rounds, [=] {
    CodedInputStream in(bytes, static_cast<int>(len));
    uint64_t sum = 0;
    for (;;) {
      std::string payload;
      if (!WireFormatLite::ReadBytes(&in, &payload)) return sum;
      sum += payload.size();
    }
  });
}

uint64_t cpp_merge_string(const uint8_t* bytes, size_t len, uint32_t rounds) {
  std::string text;
  return Repeat(rounds, [&]() -> uint64_t {
    CodedInputStream in(bytes, static_cast<int>(len));
    uint64_t sum = 0;
    while (WireFormatLite::ReadString(&in, &text)) {
      if (!IsText(text.data(), text.size())) return 0;
      sum += text.size();
    }
    return sum;
  });
}

uint64_t cpp_borrow_str(const uint8_t* bytes, size_t len, uint32_t rounds) {
  return Repeat(rounds, [=]() -> uint64_t {
    CodedInputStream in(bytes, static_cast<int>(len));
    uint64_t sum = 0;
    uint32_t size;
    while (in.ReadVarint32(&size)) {
      const void* at = nullptr;
      int left = 0;
      in.GetDirectBufferPointerInline(&at, &left);
      if (static_cast<uint32_t>(left) < size) return 0;
      if (!IsText(static_cast<const char*>(at), size)) return 0;
      in.Skip(static_cast<int>(size));
      sum += size;
    }
    return sum;
  });
}

uint64_t cpp_encode_varint(const uint8_t* bytes, size_t len, uint32_t rounds) {
  return RepeatPutting(bytes, len, rounds,
                       [](uint64_t value, CodedOutputStream* out) { out->WriteVarint64(value); });
}

uint64_t cpp_put_uint64(const uint8_t* bytes, size_t len, uint32_t rounds) {
  return RepeatPutting(bytes, len, rounds, [](uint64_t value, CodedOutputStream* out) {
    WireFormatLite::WriteUInt64(5, value, out);
  });
}

uint64_t cpp_put_sint64(const uint8_t* bytes, size_t len, uint32_t rounds) {
  return RepeatPutting(bytes, len, rounds, [](uint64_t value, CodedOutputStream* out) {
    WireFormatLite::WriteSInt64(5, static_cast<int64_t>(value), out);
  });
}

uint64_t cpp_put_bool(const uint8_t* bytes, size_t len, uint32_t rounds) {
  return RepeatPutting(bytes, len, rounds, [](uint64_t value, CodedOutputStream* out) {
    WireFormatLite::WriteBool(300, value % 2 == 1, out);
  });
}

uint64_t cpp_put_fixed64(const uint8_t* bytes, size_t len, uint32_t rounds) {
  return RepeatPutting(bytes, len, rounds, [](uint64_t value, CodedOutputStream* out) {
    WireFormatLite::WriteFixed64(5, value, out);
  });
}

uint64_t cpp_put_five(const uint8_t* bytes, size_t len, uint32_t rounds) {
  return RepeatPutting(bytes, len, rounds, [](uint64_t value, CodedOutputStream* out) {
    const uint32_t low = static_cast<uint32_t>(value);
    WireFormatLite::WriteUInt64(1, value, out);
    WireFormatLite::WriteSInt64(2, static_cast<int64_t>(value), out);
    WireFormatLite::WriteFixed32(3, low, out);
    WireFormatLite::WriteBool(16, value % 2 == 1, out);
    WireFormatLite::WriteInt32(17, static_cast<int32_t>(low), out);
  });
}

uint64_t cpp_put_string(const uint8_t* bytes, size_t len, uint32_t rounds) {
  std::vector<std::string> texts;
  for (std::string_view payload : Payloads(bytes, len)) texts.emplace_back(payload);
  return RepeatWriting(rounds, 2 * len, [&](CodedOutputStream* out) {
    for (const std::string& text : texts) WireFormatLite::WriteString(5, text, out);
  });
}

uint64_t cpp_person_decode(const uint8_t* bytes, size_t len, uint32_t rounds) {
  const std::vector<std::string_view> payloads = Payloads(bytes, len);
  return Repeat(rounds, [&]() -> uint64_t {
    uint64_t answer = 0;
    for (std::string_view payload : payloads) {
      Person person;
      if (!person.ParseFromArray(payload.data(), static_cast<int>(payload.size()))) return 0;
      answer ^= static_cast<uint64_t>(static_cast<int64_t>(person.id()));
    }
    return answer;
  });
}

uint64_t cpp_person_encode(const uint8_t* bytes, size_t len, uint32_t rounds) {
  const std::vector<std::string_view> payloads = Payloads(bytes, len);
  std::vector<Person> persons(payloads.size());
  for (size_t i = 0; i < payloads.size(); ++i) {
    const std::string_view payload = payloads[i];
    if (!persons[i].ParseFromArray(payload.data(), static_cast<int>(payload.size()))) return 0;
  }
  return RepeatWriting(rounds, 2 * len, [&](CodedOutputStream* out) {
    for (const Person& person : persons) {
      google::protobuf::util::SerializeDelimitedToCodedStream(person, out);
    }
  });
}

uint64_t cpp_node_decode(const uint8_t* bytes, size_t len, uint32_t rounds) {
  return Repeat(rounds, [=]() -> uint64_t {
    Node node;
    return node.ParseFromArray(bytes, static_cast<int>(len)) ? node.children_size() : 0;
  });
}

uint64_t cpp_node_encode(const uint8_t* bytes, size_t len, uint32_t rounds) {
  Node node;
  if (!node.ParseFromArray(bytes, static_cast<int>(len))) return 0;
  return RepeatWriting(rounds, 2 * len,
                       [&](CodedOutputStream* out) { node.SerializeToCodedStream(out); });
}

}  // extern "C"
