// The functions that the layer intercepts, and those of the next layer that it calls.
#pragma once
#ifndef VK_ENABLE_BETA_EXTENSIONS
#define VK_ENABLE_BETA_EXTENSIONS
#endif
#include <vulkan/vulkan.h>

#include <type_traits>

// Found by an instance. CreateDevice and the functions of physical devices go by the instance's key.
#define INSTANCE_FUNCTIONS(X)                 \
  X(CreateInstance)                           \
  X(DestroyInstance)                          \
  X(CreateDevice)                             \
  X(GetInstanceProcAddr)                      \
  X(CreateHeadlessSurfaceEXT)                 \
  X(DestroySurfaceKHR)                        \
  X(GetPhysicalDeviceSurfaceSupportKHR)       \
  X(GetPhysicalDeviceSurfaceCapabilitiesKHR)  \
  X(GetPhysicalDeviceSurfaceFormatsKHR)       \
  X(GetPhysicalDeviceSurfacePresentModesKHR)  \
  X(GetPhysicalDeviceSurfaceCapabilities2KHR) \
  X(GetPhysicalDeviceSurfaceFormats2KHR)

// One that was an extension is found by its name without KHR, too.
#define DEVICE_FUNCTIONS(X)       \
  X(GetDeviceProcAddr)            \
  X(DestroyDevice)                \
  X(GetDeviceQueue)               \
  X(GetDeviceQueue2)              \
  X(AllocateMemory)               \
  X(FreeMemory)                   \
  X(MapMemory)                    \
  X(UnmapMemory)                  \
  X(FlushMappedMemoryRanges)      \
  X(InvalidateMappedMemoryRanges) \
  X(GetBufferMemoryRequirements)  \
  X(GetImageMemoryRequirements)   \
  X(GetBufferMemoryRequirements2) \
  X(GetImageMemoryRequirements2)  \
  X(CreateBuffer)                 \
  X(DestroyBuffer)                \
  X(BindBufferMemory)             \
  X(BindBufferMemory2)            \
  X(CreateImage)                  \
  X(DestroyImage)                 \
  X(BindImageMemory)              \
  X(BindImageMemory2)             \
  X(CreateCommandPool)            \
  X(DestroyCommandPool)           \
  X(ResetCommandPool)             \
  X(AllocateCommandBuffers)       \
  X(FreeCommandBuffers)           \
  X(BeginCommandBuffer)           \
  X(EndCommandBuffer)             \
  X(ResetCommandBuffer)           \
  X(CmdPipelineBarrier)           \
  X(CmdPipelineBarrier2)          \
  X(CmdFillBuffer)                \
  X(CmdUpdateBuffer)              \
  X(CmdCopyBuffer)                \
  X(CmdCopyBuffer2)               \
  X(CmdCopyImage)                 \
  X(CmdCopyImage2)                \
  X(CmdCopyBufferToImage)         \
  X(CmdCopyBufferToImage2)        \
  X(CmdCopyImageToBuffer)         \
  X(CmdCopyImageToBuffer2)        \
  X(CmdClearColorImage)           \
  X(CreateFence)                  \
  X(DestroyFence)                 \
  X(ResetFences)                  \
  X(WaitForFences)                \
  X(GetFenceStatus)               \
  X(CreateSemaphore)              \
  X(DestroySemaphore)             \
  X(QueueSubmit)                  \
  X(QueueSubmit2)                 \
  X(QueueWaitIdle)                \
  X(DeviceWaitIdle)               \
  X(CreateSwapchainKHR)           \
  X(DestroySwapchainKHR)          \
  X(GetSwapchainImagesKHR)        \
  X(AcquireNextImageKHR)          \
  X(AcquireNextImage2KHR)         \
  X(QueuePresentKHR)

// Called, but not intercepted.
#define INSTANCE_CALLS(X) X(GetPhysicalDeviceMemoryProperties)
#define DEVICE_CALLS(X) X(GetImageSubresourceLayout)

namespace intercept {
#define X(name) std::remove_pointer_t<PFN_vk##name> name;
INSTANCE_FUNCTIONS(X)
DEVICE_FUNCTIONS(X)
#undef X
}  // namespace intercept
