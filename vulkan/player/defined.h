// Says which bytes Vulkan defines. The driver can't tell: it has some byte everywhere.
//
// Each byte of a place has the number of the view through which it was written, or 0 where Vulkan doesn't say what it
// is: it was never written, it was lost in a change of layout from UNDEFINED, or it comes from a byte that isn't
// defined. All buffers and the program's own writes are one view, since bytes in a row mean the same to all of them;
// each image is a view of its own. What is read through another view than it was written through isn't defined.
#pragma once
#include <cstdint>
#include <memory>
#include <vector>

// Whether any of this is asked for.
inline bool follows_defined = false;

constexpr uint32_t NOT_DEFINED = 0, IN_A_ROW = 1;

struct Place {
  std::vector<uint32_t> writers;
  explicit Place(uint64_t size) : writers(follows_defined ? size : 0, NOT_DEFINED) {}
};

struct View {
  std::shared_ptr<Place> place;
  uint64_t offset = 0;
  uint32_t number = NOT_DEFINED;

  uint32_t &writer(uint64_t at) const { return place->writers[offset + at]; }
  bool is_defined(uint64_t at) const { return writer(at) == number; }
};

inline uint32_t new_image_view() {
  static uint32_t last = IN_A_ROW;
  return ++last;
}

// Rows of a copy: each begins so far behind the one before it.
struct Rows {
  uint64_t to, to_step, from, from_step, length, count;
};

template <class Each>
void for_each_byte(const std::vector<Rows> &parts, Each each) {
  for (const Rows &part : parts)
    for (uint64_t row = 0; row < part.count; row++)
      for (uint64_t at = 0; at < part.length; at++)
        each(part.to + row * part.to_step + at, part.from + row * part.from_step + at);
}

inline void write(const View &view, uint64_t offset, uint64_t length, bool is_defined = true) {
  if (!follows_defined) return;
  for (uint64_t at = offset; at < offset + length; at++) view.writer(at) = is_defined ? view.number : NOT_DEFINED;
}

// A copy whose source and target overlap defines nothing, and neither does a byte that it writes twice.
inline void copy(const View &target, const View &source, const std::vector<Rows> &parts, bool is_allowed) {
  if (!follows_defined) return;
  std::vector<uint8_t> times(target.place->writers.size());
  bool overlaps = false;
  for_each_byte(parts, [&](uint64_t to, uint64_t) { times[target.offset + to] += times[target.offset + to] < 2; });
  if (target.place == source.place)
    for_each_byte(parts, [&](uint64_t, uint64_t from) { overlaps |= times[source.offset + from] > 0; });
  std::vector<bool> defined;
  for_each_byte(parts, [&](uint64_t, uint64_t from) { defined.push_back(source.is_defined(from)); });
  size_t next = 0;
  for_each_byte(parts, [&](uint64_t to, uint64_t) {
    bool good = defined[next++] && is_allowed && !overlaps && times[target.offset + to] == 1;
    target.writer(to) = good ? target.number : NOT_DEFINED;
  });
}
