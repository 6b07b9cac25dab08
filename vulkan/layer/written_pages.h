// Which pages were written, as the kernel tells it: by write protection that it lifts at the first write of a page.
#pragma once
#include <cstdint>
#include <functional>

class WrittenPages {
 public:
  static constexpr uint64_t PAGE = 4096;

  // Protects whole pages. False where the kernel can't, of which standard error is told once.
  bool watch(const uint8_t *begin, const uint8_t *end);
  void forget(const uint8_t *begin, const uint8_t *end);
  // Gives each range of pages that were written since the last time, and protects them again. False where that failed.
  using Range = std::function<void(const uint8_t *begin, const uint8_t *end)>;
  bool take(const uint8_t *begin, const uint8_t *end, const Range &range);

 private:
  int faults_ = -1, pages_ = -1;
  bool was_opened_ = false;

  bool open();
  bool cant(const char *what);
};
