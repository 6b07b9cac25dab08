#include "ids.h"

const char *name_of(Kind kind) {
  static const char *const names[] = {"instance", "surface",      "device",         "queue", "memory",    "buffer",
                                      "image",    "command pool", "command buffer", "fence", "semaphore", "swapchain"};
  return names[(size_t)kind];
}

uint64_t Ids::find(Kind kind, uint64_t handle) const {
  auto &entries = of_kind_[(size_t)kind];
  auto found = entries.find(handle);
  return found == entries.end() ? 0 : found->second.id;
}

uint64_t Ids::create(Kind kind, uint64_t handle, uint64_t owner) {
  of_kind_[(size_t)kind][handle] = {++last_, owner};
  return last_;
}

void Ids::end(Kind kind, uint64_t handle) {
  uint64_t id = find(kind, handle);
  if (!id) return;
  of_kind_[(size_t)kind].erase(handle);
  if (kind != Kind::Device && kind != Kind::Pool && kind != Kind::Swapchain) return;
  for (Kind owned : {Kind::Queue, Kind::CommandBuffer, Kind::Image}) {
    auto &entries = of_kind_[(size_t)owned];
    for (auto at = entries.begin(); at != entries.end();)
      at = at->second.owner == id ? entries.erase(at) : std::next(at);
  }
}

bool Ids::owns(uint64_t owner, Kind kind) const {
  for (auto &[handle, entry] : of_kind_[(size_t)kind])
    if (entry.owner == owner) return true;
  return false;
}

void Ids::clear() {
  for (auto &entries : of_kind_) entries.clear();
}
