// Tries the library beside the UnknownFieldSet of the system's C++ protobuf on inputs of fixed
// seeds: records of each kind, padded, nested, and then broken. Where the library takes the bytes
// C++ takes them too, with the same records; where it refuses them C++ does, but for what C++ is
// known to be laxer in: the bits of a varint above its width are dropped there.
#include "gettavil.h"

#include <google/protobuf/unknown_field_set.h>
#include <sys/mman.h>
#include <unistd.h>

#include <chrono>
#include <cstdio>
#include <cstdlib>
#include <cstring>
#include <random>
#include <string>
#include <vector>

using google::protobuf::UnknownField;
using google::protobuf::UnknownFieldSet;

namespace {

constexpr size_t kMost = 4096;

// So many bytes before a page that no program may touch.
uint8_t* AtEnd(size_t len) {
  static uint8_t* end = [] {
    size_t page = static_cast<size_t>(sysconf(_SC_PAGESIZE));
    void* all = mmap(nullptr, kMost + page, PROT_NONE, MAP_PRIVATE | MAP_ANONYMOUS, -1, 0);
    if (all == MAP_FAILED || mprotect(all, kMost, PROT_READ | PROT_WRITE) != 0) std::abort();
    return static_cast<uint8_t*>(all) + kMost;
  }();
  return end - len;
}

class Generator {
 public:
  explicit Generator(uint64_t seed) : random_(seed) {}

  std::string Input() {
    std::string bytes;
    Records(bytes, 0);
    for (uint64_t breaks = Below(4); breaks > 1; breaks--) Break(bytes);
    return bytes.substr(0, kMost);
  }

 private:
  uint64_t Below(uint64_t n) { return random_() % n; }

  // A varint, padded now and then.
  void Varint(std::string& bytes, uint64_t value) {
    int pad = Below(16) == 0 ? static_cast<int>(Below(10)) : 0;
    int count = 1;
    for (; value >= 128 || pad > 0; value /= 128, count++) {
      if (value < 128) pad--;
      bytes.push_back(static_cast<char>(value % 128 + 128));
    }
    bytes.push_back(static_cast<char>(value));
  }

  uint64_t Number() { return random_() >> Below(64); }

  void Records(std::string& bytes, int depth) {
    for (uint64_t count = Below(6); count > 0 && bytes.size() < kMost / 2; count--) {
      uint64_t number = Below(32) == 0 ? Number() : 1 + Below(40);
      uint64_t kind = Below(8) == 0 ? Below(8) : "\0\1\2\3\5"[Below(5)];
      Varint(bytes, number * 8 + kind);
      switch (kind) {
        case 0: Varint(bytes, Number()); break;
        case 1: Bytes(bytes, 8); break;
        case 2: {
          uint64_t len = Below(20);
          Varint(bytes, Below(64) == 0 ? Number() : len);
          Bytes(bytes, len);
          break;
        }
        case 3:
          if (Below(200) == 0) Deep(bytes, number);
          if (depth < 6) Records(bytes, depth + 1);
          Varint(bytes, (Below(32) == 0 ? Number() : number) * 8 + 4);
          break;
        case 5: Bytes(bytes, 4); break;
        default: break;
      }
    }
  }

  // Groups in one another, about as many as may be open at once.
  void Deep(std::string& bytes, uint64_t number) {
    uint64_t levels = 95 + Below(10);
    for (uint64_t i = 0; i < levels; i++) Varint(bytes, number * 8 + 3);
    for (uint64_t i = 0; i < levels; i++) Varint(bytes, number * 8 + 4);
  }

  void Bytes(std::string& bytes, uint64_t len) {
    for (; len > 0; len--) bytes.push_back(static_cast<char>(random_()));
  }

  void Break(std::string& bytes) {
    if (bytes.empty()) return;
    size_t at = Below(bytes.size());
    switch (Below(4)) {
      case 0: bytes.resize(at); break;
      case 1: bytes.erase(at, 1); break;
      case 2: bytes.insert(at, 1, static_cast<char>(random_())); break;
      default: bytes[at] = static_cast<char>(random_());
    }
  }

  std::mt19937_64 random_;
};

void Say(std::string& said, uint32_t number, char kind, uint64_t value) {
  said += std::to_string(number) + kind + std::to_string(value) + ' ';
}

void SayPeer(std::string& said, const UnknownFieldSet& set) {
  for (int i = 0; i < set.field_count(); i++) {
    const UnknownField& field = set.field(i);
    uint32_t number = static_cast<uint32_t>(field.number());
    switch (field.type()) {
      case UnknownField::TYPE_VARINT: Say(said, number, 'v', field.varint()); break;
      case UnknownField::TYPE_FIXED32: Say(said, number, 'f', field.fixed32()); break;
      case UnknownField::TYPE_FIXED64: Say(said, number, 'd', field.fixed64()); break;
      case UnknownField::TYPE_LENGTH_DELIMITED:
        Say(said, number, 'b', field.length_delimited().size());
        said += field.length_delimited();
        break;
      case UnknownField::TYPE_GROUP:
        Say(said, number, '{', 0);
        SayPeer(said, field.group());
        Say(said, number, '}', 0);
    }
  }
}

uint32_t SayOurs(std::string& said, const uint8_t* bytes, size_t len, gtv_fault* fault) {
  const gtv_limits limits = GTV_NO_LIMITS;
  gtv_reader reader;
  gtv_event event;
  uint32_t status = gtv_reader_init(&reader, &limits);
  while ((status = gtv_next(&reader, bytes, len, &event, fault)) == GTV_OK) {
    Say(said, event.number, "vdb{}f"[event.kind], event.kind == GTV_BYTES ? event.length
                                                                         : event.value);
    if (event.kind == GTV_BYTES) {
      said.append(reinterpret_cast<const char*>(bytes) + event.payload, event.length);
    }
  }
  return status;
}

// Whether C++ takes bytes with such a fault, since it drops the bits of a varint above its width.
bool IsLaxer(const gtv_fault& fault, const uint8_t* bytes) {
  if (fault.status == GTV_VARINT_TOO_LONG) return true;
  if (fault.status == GTV_INVALID_FIELD_NUMBER) {
    return (bytes[fault.record_place] & 0x80) != 0;  // a tag above 32 bits
  }
  if (fault.part != GTV_PART_PAYLOAD) return false;
  size_t length_bytes = 0;  // of the length before the payload: five or more are above 32 bits
  for (size_t at = fault.part_place; at > fault.record_place && length_bytes < 5; length_bytes++) {
    at--;
    if (length_bytes > 0 && (bytes[at] & 0x80) == 0) break;
  }
  return length_bytes >= 5;
}

}  // namespace

int main(int count, char** words) {
  uint64_t inputs = count > 1 ? std::strtoull(words[1], nullptr, 10) : 1000000;
  uint64_t seconds = count > 2 ? std::strtoull(words[2], nullptr, 10) : 120;
  uint64_t taken = 0, refused = 0, laxer = 0, tried = 0;
  google::protobuf::SetLogHandler(nullptr);
  auto begin = std::chrono::steady_clock::now();
  for (uint64_t seed = 0; seed < inputs; seed++, tried++) {
    if (seed % 1024 == 0
        && std::chrono::steady_clock::now() - begin > std::chrono::seconds(seconds)) break;
    std::string input = Generator(seed).Input();
    uint8_t* bytes = AtEnd(input.size());
    std::memcpy(bytes, input.data(), input.size());
    std::string ours, theirs;
    gtv_fault fault;
    uint32_t status = SayOurs(ours, bytes, input.size(), &fault);
    UnknownFieldSet set;
    bool takes = set.ParseFromArray(bytes, static_cast<int>(input.size()));
    if (takes) SayPeer(theirs, set);
    bool agree = status == GTV_END ? takes && ours == theirs
                                   : !takes || IsLaxer(fault, bytes);
    if (!agree) {
      std::printf("seed %llu is astray: %s, and C++ %s them\n",
                  static_cast<unsigned long long>(seed), gtv_status_name(status),
                  takes ? "takes" : "refuses");
      return 1;
    }
    (status == GTV_END ? taken : takes ? laxer : refused)++;
  }
  std::printf("%llu inputs beside C++: %llu taken, %llu refused, %llu taken by C++ alone, "
              "0 astray\n",
              static_cast<unsigned long long>(tried), static_cast<unsigned long long>(taken),
              static_cast<unsigned long long>(refused), static_cast<unsigned long long>(laxer));
  return 0;
}
