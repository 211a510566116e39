// Work on reports by C++ protobuf.
#include <google/protobuf/io/coded_stream.h>

#include <cstdint>
#include <deque>
#include <memory>
#include <string_view>
#include <vector>

#include "peer.h"
#include "report.pb.h"

using google::protobuf::io::CodedOutputStream;
using report::Report;

namespace {

// One, its time, and how long its strings, lists and maps are.
uint64_t Sum(const Report& report) {
  uint64_t len = report.host().size() + report.samples_size();
  len += report.labels_size() + report.last_size();
  len += report.offsets_size() + report.ports_size();
  len += report.notes_size() + report.signature().size();
  return report.sent_at() + len + 1;
}

bool Parse(std::string_view payload, Report* report) {
  return report->ParseFromArray(payload.data(), static_cast<int>(payload.size()));
}

}  // namespace

extern "C" {

uint64_t cpp_report_decode(const uint8_t* bytes, size_t len, uint32_t rounds) {
  const std::vector<std::string_view> payloads = Payloads(bytes, len);
  return Repeat(rounds, [&]() -> uint64_t {
    uint64_t sum = 0;
    for (std::string_view payload : payloads) {
      Report report;
      if (!Parse(payload, &report)) return 0;
      sum += Sum(report);
    }
    return sum;
  });
}

// Decodes, and holds all reports of a round at once.
uint64_t cpp_report_hold(const uint8_t* bytes, size_t len, uint32_t rounds) {
  const std::vector<std::string_view> payloads = Payloads(bytes, len);
  return Repeat(rounds, [&]() -> uint64_t {
    uint64_t sum = 0;
    std::vector<Report> held;
    held.reserve(payloads.size());
    for (std::string_view payload : payloads) {
      held.emplace_back();
      if (!Parse(payload, &held.back())) return 0;
      sum += Sum(held.back());
    }
    return sum;
  });
}

uint64_t cpp_report_encode(const uint8_t* bytes, size_t len, uint32_t rounds) {
  std::deque<Report> reports;
  for (std::string_view payload : Payloads(bytes, len)) {
    reports.emplace_back();
    if (!Parse(payload, &reports.back())) return 0;
  }
  std::unique_ptr<uint8_t[]> array(new uint8_t[2 * len]);
  return Repeat(rounds, [&] {
    uint8_t* end = array.get();
    for (const Report& report : reports) {
      const size_t size = report.ByteSizeLong();
      end = CodedOutputStream::WriteVarint32ToArray(static_cast<uint32_t>(size), end);
      end = report.SerializeWithCachedSizesToArray(end);
    }
    return static_cast<uint64_t>(end - array.get());
  });
}

}  // extern "C"
