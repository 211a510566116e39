// What the work of C++ protobuf here shares. Each function does its work so many times and answers
// what the last round gave: 0 where it was refused.
#ifndef PEER_H_
#define PEER_H_

#include <google/protobuf/io/coded_stream.h>

#include <cstdint>
#include <string_view>
#include <vector>

template <typename Round>
uint64_t Repeat(uint32_t rounds, Round round) {
  uint64_t answer = 0;
  for (uint32_t i = 0; i < rounds; ++i) answer = round();
  return answer;
}

// The room is taken at once, so that its growth is not the most that a run holds.
inline std::vector<std::string_view> Payloads(const uint8_t* bytes, size_t len) {
  google::protobuf::io::CodedInputStream in(bytes, static_cast<int>(len));
  std::vector<std::string_view> payloads;
  payloads.reserve(len);
  uint32_t size;
  while (in.ReadVarint32(&size)) {
    const char* at = reinterpret_cast<const char*>(bytes) + in.CurrentPosition();
    payloads.emplace_back(at, size);
    in.Skip(static_cast<int>(size));
  }
  return payloads;
}

#endif  // PEER_H_
