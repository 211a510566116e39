// A report as JSON, here and by C++ protobuf.
//
//   json FOLDER                        writes the reports NAME.json and NAME.bin into the folder
//   json FILE WORKER WORK ROUNDS       FILE has no ending, WORKER is here or cpp, WORK read or write

#include "report.pb.h"

#include <google/protobuf/util/json_util.h>

#include <cstdio>
#include <cstdlib>
#include <fstream>
#include <iterator>
#include <string>

extern "C" {
uint64_t wb_report_to_json(const uint8_t* bytes, size_t len, uint32_t rounds);
uint64_t wb_report_from_json(const uint8_t* text, size_t len, uint32_t rounds);
}

namespace {

using google::protobuf::util::JsonStringToMessage;
using google::protobuf::util::MessageToJsonString;

void Set(report::Report::Sample* sample, const char* name, double value, int64_t count) {
  sample->set_name(name);
  sample->set_value(value);
  sample->set_count(count);
}

report::Report Small() {
  report::Report report;
  report.set_host("web-17.example.org");
  report.set_sent_at(1735689600123456789);
  report.set_level(report::Report::HIGH);
  report.set_load(0.75);
  report.set_type(true);
  return report;
}

report::Report Mixed() {
  report::Report report = Small();
  Set(report.add_samples(), "cpu", 12.5, 3);
  Set(report.add_samples(), "memory", 81.25, 70000);
  Set(report.add_samples(), "disk usage of /", 0.1, -1);
  Set(report.add_samples(), "load", 3.1415926, 9007199254740993);
  (*report.mutable_labels())["zone"] = "eu-west";
  (*report.mutable_labels())["rack"] = "b\"17\"";
  (*report.mutable_labels())["kind"] = "ssd";
  Set(&(*report.mutable_last())[-3], "a", 1.5, 1);
  Set(&(*report.mutable_last())[7], "b", 2.5, 2);
  Set(&(*report.mutable_last())[70000], "c", 0.001, 3);
  for (int at = 0; at < 12; at++) report.add_offsets(at * 7000 * (at % 2 ? 1 : -1));
  for (int port : {22, 80, 443, 65535}) report.add_ports(port);
  for (const char* note : {"restarted at noon", "\xc3\xa4\xc3\xb6\xc3\xbc", ""}) report.add_notes(note);
  report.set_signature("0123456789abcdefghijklmnopqrstuv");
  Set(report.mutable_worst(), "disk usage of /", 99.5, 12);
  report.set_file("/var/log/syslog");
  return report;
}

// Mostly text.
report::Report Notes() {
  report::Report report = Small();
  for (int at = 0; at < 100; at++) report.add_notes(std::string(100, 'n'));
  return report;
}

uint64_t Sum(const report::Report& report) {
  return 1 + report.sent_at() + report.host().size() + report.samples_size() +
         report.labels_size() + report.last_size() + report.offsets_size() +
         report.ports_size() + report.notes_size() + report.signature().size();
}

uint64_t Write(const std::string& bytes, uint32_t rounds) {
  report::Report report;
  if (!report.ParseFromString(bytes)) return 0;
  uint64_t answer = 0;
  for (uint32_t round = 0; round < rounds; round++) {
    std::string text;
    if (!MessageToJsonString(report, &text).ok()) return 0;
    answer = text.size();
  }
  return answer;
}

uint64_t Read(const std::string& text, uint32_t rounds) {
  uint64_t answer = 0;
  for (uint32_t round = 0; round < rounds; round++) {
    report::Report report;
    if (!JsonStringToMessage(text, &report).ok()) return 0;
    answer = Sum(report);
  }
  return answer;
}

std::string Contents(const std::string& path) {
  std::ifstream file(path, std::ios::binary);
  return {std::istreambuf_iterator<char>(file), std::istreambuf_iterator<char>()};
}

void Put(const std::string& folder, const char* name, const report::Report& report) {
  std::string text;
  if (!MessageToJsonString(report, &text).ok()) std::exit(1);
  std::ofstream(folder + "/" + name + ".json", std::ios::binary) << text;
  std::ofstream(folder + "/" + name + ".bin", std::ios::binary) << report.SerializeAsString();
}

}  // namespace

int main(int argc, char** argv) {
  if (argc == 2) {
    Put(argv[1], "small", Small());
    Put(argv[1], "mixed", Mixed());
    Put(argv[1], "notes", Notes());
    return 0;
  }
  const bool writes = std::string(argv[3]) == "write";
  const bool here = std::string(argv[2]) == "here";
  const std::string input = Contents(std::string(argv[1]) + (writes ? ".bin" : ".json"));
  const auto* bytes = reinterpret_cast<const uint8_t*>(input.data());
  const uint32_t rounds = std::atoi(argv[4]);
  const uint64_t answer =
      here ? (writes ? wb_report_to_json : wb_report_from_json)(bytes, input.size(), rounds)
           : (writes ? Write : Read)(input, rounds);
  std::printf("%llu\n", static_cast<unsigned long long>(answer));
}
