// What the program writes to mapped memory. Each mapped range has a shadow: the bytes that the capture has there.
#pragma once
#include <cstdint>
#include <functional>
#include <unordered_map>
#include <vector>

#include "written_pages.h"

// Rows of so many bytes, each `step` bytes behind the one before it.
struct Rows {
  uint64_t offset, length, step, count;
};

constexpr Rows WHOLE_RESOURCE = {0, 0, 0, 0};

inline Rows one_row(uint64_t offset, uint64_t length) { return {offset, length, 0, 1}; }

struct Resource {
  uint64_t memory = 0, offset = 0, size = 0;  // where it is bound, and how many bytes the driver takes for it
  uint32_t texel = 1;                         // bytes of a texel of an image
  bool is_opaque = false;                     // an image whose bytes are laid out as the driver likes
  bool is_integer = false;                    // an image that is cleared to whole numbers
};

class MappedMemory {
 public:
  using Write = std::function<void(uint64_t memory, uint64_t offset, const uint8_t *bytes, uint64_t size)>;

  void allocated(uint64_t memory, uint64_t size, bool is_coherent);
  void freed(uint64_t memory);
  void mapped(uint64_t memory, const void *real, uint64_t offset, uint64_t size);
  void unmapped(uint64_t memory);

  Resource &resource(uint64_t id) { return resources_[id]; }
  void bound(uint64_t resource, uint64_t memory, uint64_t offset, uint64_t size);
  void destroyed(uint64_t resource) { resources_.erase(resource); }

  void begun(uint64_t commands) { targets_[commands].clear(); }
  void will_write(uint64_t commands, uint64_t resource, Rows rows) { targets_[commands].push_back({resource, rows}); }
  void freed_commands(uint64_t commands) { targets_.erase(commands); }

  // Gives what differs from the shadows, of one memory or for 0 of all, and makes them equal.
  void take_writes(uint64_t memory, const Write &write);
  void invalidated(uint64_t memory, uint64_t offset, uint64_t size);
  // What these commands wrote is in the capture already, and so becomes the shadow's.
  void executed(uint64_t commands);
  void clear();

 private:
  struct Memory {
    uint64_t size = 0, offset = 0;  // of the map: where it begins
    const uint8_t *real = nullptr;  // none where nothing is mapped
    std::vector<uint8_t> shadow;
    bool is_coherent = true;
    bool has_opaque = false;                                         // whether such an image is bound to it
    const uint8_t *first_watched = nullptr, *end_watched = nullptr;  // whole pages; the rest is compared each time
  };
  struct Target {
    uint64_t resource;
    Rows rows;
  };
  std::unordered_map<uint64_t, Memory> memories_;
  std::unordered_map<uint64_t, Resource> resources_;
  std::unordered_map<uint64_t, std::vector<Target>> targets_;
  WrittenPages pages_;

  void watch(Memory &memory);
  void take_writes_of(uint64_t id, Memory &memory, const Write &write);
  void refresh(uint64_t memory, uint64_t offset, uint64_t size);
};
