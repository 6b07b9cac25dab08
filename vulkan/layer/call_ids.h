// The calls of a capture, in the order of their numbers.
#pragma once
#include <cstdint>

#define CALLS_OF_A_CAPTURE(X) \
  X(CreateInstance)           \
  X(DestroyInstance)          \
  X(CreateHeadlessSurfaceEXT) \
  X(DestroySurfaceKHR)        \
  X(CreateDevice)             \
  X(DestroyDevice)            \
  X(GetDeviceQueue)           \
  X(AllocateMemory)           \
  X(FreeMemory)               \
  X(MapMemory)                \
  X(UnmapMemory)              \
  X(CreateBuffer)             \
  X(DestroyBuffer)            \
  X(BindBufferMemory)         \
  X(CreateImage)              \
  X(DestroyImage)             \
  X(BindImageMemory)          \
  X(CreateCommandPool)        \
  X(DestroyCommandPool)       \
  X(ResetCommandPool)         \
  X(AllocateCommandBuffers)   \
  X(FreeCommandBuffers)       \
  X(BeginCommandBuffer)       \
  X(EndCommandBuffer)         \
  X(ResetCommandBuffer)       \
  X(CmdPipelineBarrier)       \
  X(CmdFillBuffer)            \
  X(CmdUpdateBuffer)          \
  X(CmdCopyBuffer)            \
  X(CmdCopyImage)             \
  X(CmdCopyBufferToImage)     \
  X(CmdCopyImageToBuffer)     \
  X(CmdClearColorImage)       \
  X(CreateFence)              \
  X(DestroyFence)             \
  X(ResetFences)              \
  X(WaitForFences)            \
  X(GetFenceStatus)           \
  X(CreateSemaphore)          \
  X(DestroySemaphore)         \
  X(QueueSubmit)              \
  X(QueueWaitIdle)            \
  X(DeviceWaitIdle)           \
  X(CreateSwapchainKHR)       \
  X(DestroySwapchainKHR)      \
  X(GetSwapchainImagesKHR)    \
  X(AcquireNextImageKHR)      \
  X(QueuePresentKHR)

enum class CallId : uint32_t {
  None,
#define X(name) name,
  CALLS_OF_A_CAPTURE(X)
#undef X
};

inline const char *name_of(CallId id) {
  static const char *const names[] = {"",
#define X(name) "vk" #name,
                                      CALLS_OF_A_CAPTURE(X)
#undef X
  };
  return names[static_cast<uint32_t>(id)];
}
