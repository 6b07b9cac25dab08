#include "mapped_memory.h"

#include <algorithm>
#include <cstring>

namespace {

constexpr uint64_t PAGE = WrittenPages::PAGE;
constexpr uint64_t LONGEST_RUN = 1 << 22;
constexpr uint64_t SHORTEST_GAP = 48;  // as long as what a FillMemory has beside its bytes

// Gathers what differs to runs. Short gaps are taken in, but not where they may hold an image with a layout of the
// driver's own, whose bytes in the capture are others than those in real memory.
class Runs {
 public:
  Runs(uint64_t memory, uint64_t base, std::vector<uint8_t> &shadow, uint64_t gap, const MappedMemory::Write &write)
      : memory_(memory), base_(base), shadow_(shadow), gap_(gap), write_(write) {}
  ~Runs() { flush(); }

  void compare(const uint8_t *real, uint64_t from, uint64_t to) {
    for (uint64_t at = from; at < to; at += PAGE) {
      uint64_t size = std::min(PAGE, to - at);
      if (memcmp(real + at, shadow_.data() + at, size)) compare_page(real, at, size);
    }
  }

 private:
  uint64_t memory_, base_;
  std::vector<uint8_t> &shadow_;
  uint64_t gap_, from_ = 0, to_ = 0;
  const MappedMemory::Write &write_;

  // What is taken is read once, by a copy: another thread may write meanwhile.
  void compare_page(const uint8_t *real, uint64_t at, uint64_t size) {
    uint8_t now[PAGE], old[PAGE];
    memcpy(now, real + at, size);
    memcpy(old, shadow_.data() + at, size);
    memcpy(shadow_.data() + at, now, size);
    for (uint64_t i = 0; i < size;) {
      if (i % 8 == 0 && i + 8 <= size && !memcmp(now + i, old + i, 8)) {
        i += 8;
        continue;
      }
      uint64_t from = i;
      while (i < size && now[i] != old[i]) i++;
      if (i > from) put(at + from, at + i);
      else i++;
    }
  }

  void put(uint64_t from, uint64_t to) {
    if (to_ && (from - to_ > gap_ || to - from_ > LONGEST_RUN)) flush();
    if (!to_) from_ = from;
    to_ = to;
  }

  void flush() {
    if (to_) write_(memory_, base_ + from_, shadow_.data() + from_, to_ - from_);
    to_ = 0;
  }
};

}  // namespace

void MappedMemory::allocated(uint64_t id, uint64_t size, bool is_coherent) {
  memories_[id].size = size;
  memories_[id].is_coherent = is_coherent;
}

void MappedMemory::mapped(uint64_t id, const void *real, uint64_t offset, uint64_t size) {
  Memory &memory = memories_[id];
  memory.offset = offset;
  memory.real = static_cast<const uint8_t *>(real);
  memory.shadow.resize(std::min(size, memory.size - offset));
  watch(memory);  // before the copy: another thread may write meanwhile
  memcpy(memory.shadow.data(), real, memory.shadow.size());
}

void MappedMemory::watch(Memory &memory) {
  auto begin = reinterpret_cast<uint64_t>(memory.real), end = begin + memory.shadow.size();
  uint64_t first = (begin + PAGE - 1) / PAGE * PAGE, last = end / PAGE * PAGE;
  if (first >= last) return;
  auto *first_page = memory.real + (first - begin), *end_page = memory.real + (last - begin);
  if (!pages_.watch(first_page, end_page)) return;
  memory.first_watched = first_page;
  memory.end_watched = end_page;
}

void MappedMemory::unmapped(uint64_t id) {
  Memory &memory = memories_[id];
  if (memory.first_watched) pages_.forget(memory.first_watched, memory.end_watched);
  memory.real = memory.first_watched = memory.end_watched = nullptr;
}

void MappedMemory::freed(uint64_t id) {
  unmapped(id);
  memories_.erase(id);
}

void MappedMemory::bound(uint64_t id, uint64_t memory, uint64_t offset, uint64_t size) {
  Resource &resource = resources_[id];
  resource.memory = memory;
  resource.offset = offset;
  resource.size = size;
  if (resource.is_opaque) memories_[memory].has_opaque = true;
}

void MappedMemory::take_writes(uint64_t id, const Write &write) {
  if (id) return take_writes_of(id, memories_[id], write);
  for (auto &[each, memory] : memories_) take_writes_of(each, memory, write);
}

void MappedMemory::take_writes_of(uint64_t id, Memory &memory, const Write &write) {
  if (!memory.real) return;
  const uint8_t *real = memory.real, *end = real + memory.shadow.size();
  Runs runs(id, memory.offset, memory.shadow, memory.has_opaque ? 0 : SHORTEST_GAP, write);
  auto compare = [&](const uint8_t *from, const uint8_t *to) { runs.compare(real, from - real, to - real); };
  if (!memory.first_watched) return compare(real, end);
  compare(real, memory.first_watched);
  bool is_known = pages_.take(memory.first_watched, memory.end_watched, compare);
  if (!is_known) memory.first_watched = memory.end_watched = nullptr;
  compare(is_known ? memory.end_watched : real, end);
}

void MappedMemory::executed(uint64_t commands) {
  for (auto &[id, rows] : targets_[commands]) {
    Resource &resource = resources_[id];
    if (!resource.memory) continue;  // an image of a swapchain
    if (!rows.count) refresh(resource.memory, resource.offset, resource.size);
    for (uint64_t row = 0; row < rows.count; row++)
      refresh(resource.memory, resource.offset + rows.offset + row * rows.step, rows.length);
  }
}

// Coherent memory changes without it, and may be written by another thread now.
void MappedMemory::invalidated(uint64_t id, uint64_t offset, uint64_t size) {
  if (!memories_[id].is_coherent) refresh(id, offset, size);
}

void MappedMemory::refresh(uint64_t id, uint64_t offset, uint64_t size) {
  Memory &memory = memories_[id];
  if (!memory.real) return;
  uint64_t end = memory.offset + memory.shadow.size(), from = std::max(offset, memory.offset);
  uint64_t to = size > end - std::min(offset, end) ? end : offset + size;
  if (from >= to) return;
  memcpy(memory.shadow.data() + (from - memory.offset), memory.real + (from - memory.offset), to - from);
}

void MappedMemory::clear() {
  for (auto &[id, memory] : memories_) unmapped(id);
  memories_.clear();
  resources_.clear();
  targets_.clear();
}
