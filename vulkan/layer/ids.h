// The ids of handles in a capture: each object's own, from 1 on, never used again.
#pragma once
#include <vulkan/vulkan.h>

#include <cstdint>
#include <unordered_map>

enum class Kind : uint8_t {
  Instance,
  Surface,
  Device,
  Queue,
  Memory,
  Buffer,
  Image,
  Pool,
  CommandBuffer,
  Fence,
  Semaphore,
  Swapchain,
  Count
};

const char *name_of(Kind kind);

inline Kind kind_of(VkInstance) { return Kind::Instance; }
inline Kind kind_of(VkSurfaceKHR) { return Kind::Surface; }
inline Kind kind_of(VkDevice) { return Kind::Device; }
inline Kind kind_of(VkQueue) { return Kind::Queue; }
inline Kind kind_of(VkDeviceMemory) { return Kind::Memory; }
inline Kind kind_of(VkBuffer) { return Kind::Buffer; }
inline Kind kind_of(VkImage) { return Kind::Image; }
inline Kind kind_of(VkCommandPool) { return Kind::Pool; }
inline Kind kind_of(VkCommandBuffer) { return Kind::CommandBuffer; }
inline Kind kind_of(VkFence) { return Kind::Fence; }
inline Kind kind_of(VkSemaphore) { return Kind::Semaphore; }
inline Kind kind_of(VkSwapchainKHR) { return Kind::Swapchain; }

class Ids {
 public:
  template <class Handle>
  uint64_t find(Handle handle) const {  // 0 where there is none
    return find(kind_of(handle), (uint64_t)handle);
  }
  template <class Handle>
  uint64_t create(Handle handle, uint64_t owner) {
    return create(kind_of(handle), (uint64_t)handle, owner);
  }
  template <class Handle>
  void end(Handle handle) {  // and what it owns
    end(kind_of(handle), (uint64_t)handle);
  }
  bool owns(uint64_t owner, Kind kind) const;
  void clear();

 private:
  struct Entry {
    uint64_t id, owner;
  };
  std::unordered_map<uint64_t, Entry> of_kind_[(size_t)Kind::Count];
  uint64_t last_ = 0;

  uint64_t find(Kind kind, uint64_t handle) const;
  uint64_t create(Kind kind, uint64_t handle, uint64_t owner);
  void end(Kind kind, uint64_t handle);
};
