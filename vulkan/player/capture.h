// Reads the fields of a capture's blocks, which docs/format.md describes.
#pragma once
#include <cstdint>
#include <cstdio>
#include <cstdlib>
#include <cstring>
#include <string>
#include <vector>

using Id = uint64_t;
constexpr uint64_t WHOLE_SIZE = ~0ull;

// The block at which the player is, for what it says when it stops.
inline uint64_t current_block = 0;

[[noreturn]] inline void stop(const std::string &why) {
  fprintf(stderr, "player: block %llu: %s\n", static_cast<unsigned long long>(current_block), why.c_str());
  exit(1);
}

struct Bytes {
  const uint8_t *data;
  uint64_t size;
};

class Reader {
 public:
  Reader(const uint8_t *begin, const uint8_t *end) : at(begin), end(end) {}

  bool is_empty() const { return at == end; }
  uint32_t word() { return number<uint32_t>(); }
  uint64_t size() { return number<uint64_t>(); }
  Id id() { return number<uint64_t>(); }

  std::vector<Id> ids() {
    std::vector<Id> all(word());
    for (Id &id : all) id = this->id();
    return all;
  }

  Bytes bytes() { return take(size()); }

  Bytes take(uint64_t size) {
    if (size > static_cast<uint64_t>(end - at)) stop("the file ends too early");
    Bytes taken = {at, size};
    at += size;
    return taken;
  }

 private:
  const uint8_t *at, *end;

  template <class Number>
  Number number() {
    Number value;
    memcpy(&value, take(sizeof value).data, sizeof value);
    return value;
  }
};
