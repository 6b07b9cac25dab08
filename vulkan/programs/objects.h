// What the test programs make of Vulkan: a device, its objects, and commands.
#pragma once
#include <vulkan/vulkan.h>

#include <cstdint>
#include <cstdio>
#include <cstdlib>
#include <cstring>
#include <string>
#include <vector>

inline void check(VkResult result, const char *what) {
  if (result >= 0) return;
  fprintf(stderr, "%s gives %d\n", what, result);
  exit(3);
}
#define CHECK(call) check(call, #call)

constexpr VkBufferUsageFlags BUFFER_USAGE = VK_BUFFER_USAGE_TRANSFER_SRC_BIT | VK_BUFFER_USAGE_TRANSFER_DST_BIT;
constexpr VkImageUsageFlags IMAGE_USAGE = VK_IMAGE_USAGE_TRANSFER_SRC_BIT | VK_IMAGE_USAGE_TRANSFER_DST_BIT;
// What memory has to be that is mapped.
inline VkMemoryPropertyFlags mappable = VK_MEMORY_PROPERTY_HOST_VISIBLE_BIT | VK_MEMORY_PROPERTY_HOST_COHERENT_BIT;

inline uint32_t texel_size(VkFormat format) { return format == VK_FORMAT_R8_UINT ? 1 : 4; }

struct Device {
  VkInstance instance;
  VkPhysicalDevice physical;
  VkDevice handle;
  VkQueue queue;
};

struct Buffer {
  VkBuffer handle;
  VkDeviceMemory memory;
  uint8_t *bytes;
  uint64_t size;
};

struct Image {
  VkImage handle;
  VkDeviceMemory memory;
};

inline void make_instance(Device &device, uint32_t version, bool has_surfaces = true) {
  const char *extensions[] = {VK_KHR_SURFACE_EXTENSION_NAME, VK_EXT_HEADLESS_SURFACE_EXTENSION_NAME};
  VkApplicationInfo application = {VK_STRUCTURE_TYPE_APPLICATION_INFO};
  application.apiVersion = version;
  VkInstanceCreateInfo info = {VK_STRUCTURE_TYPE_INSTANCE_CREATE_INFO};
  info.pApplicationInfo = &application;
  info.enabledExtensionCount = has_surfaces ? 2 : 0;
  info.ppEnabledExtensionNames = extensions;
  CHECK(vkCreateInstance(&info, nullptr, &device.instance));
  uint32_t count = 1;
  CHECK(vkEnumeratePhysicalDevices(device.instance, &count, &device.physical));
}

inline void make_device(Device &device, const void *features = nullptr, bool has_swapchains = true) {
  const char *extension = VK_KHR_SWAPCHAIN_EXTENSION_NAME;
  float priority = 1;
  VkDeviceQueueCreateInfo queue = {VK_STRUCTURE_TYPE_DEVICE_QUEUE_CREATE_INFO};
  queue.queueCount = 1;
  queue.pQueuePriorities = &priority;
  VkDeviceCreateInfo info = {VK_STRUCTURE_TYPE_DEVICE_CREATE_INFO, features};
  info.queueCreateInfoCount = 1;
  info.pQueueCreateInfos = &queue;
  info.enabledExtensionCount = has_swapchains ? 1 : 0;
  info.ppEnabledExtensionNames = &extension;
  CHECK(vkCreateDevice(device.physical, &info, nullptr, &device.handle));
  vkGetDeviceQueue(device.handle, 0, 0, &device.queue);
}

inline VkDeviceMemory allocate(const Device &device, uint64_t size, uint32_t bits, VkMemoryPropertyFlags flags) {
  VkPhysicalDeviceMemoryProperties types;
  vkGetPhysicalDeviceMemoryProperties(device.physical, &types);
  VkMemoryAllocateInfo info = {VK_STRUCTURE_TYPE_MEMORY_ALLOCATE_INFO};
  info.allocationSize = size;
  auto fits = [&](uint32_t type) {
    return bits >> type & 1 && (types.memoryTypes[type].propertyFlags & flags) == flags;
  };
  while (info.memoryTypeIndex < types.memoryTypeCount && !fits(info.memoryTypeIndex)) info.memoryTypeIndex++;
  VkDeviceMemory memory;
  CHECK(vkAllocateMemory(device.handle, &info, nullptr, &memory));
  return memory;
}

inline VkBuffer unbound_buffer(const Device &device, uint64_t size, VkMemoryRequirements *requirements) {
  VkBufferCreateInfo info = {VK_STRUCTURE_TYPE_BUFFER_CREATE_INFO};
  info.size = size;
  info.usage = BUFFER_USAGE;
  VkBuffer buffer;
  CHECK(vkCreateBuffer(device.handle, &info, nullptr, &buffer));
  vkGetBufferMemoryRequirements(device.handle, buffer, requirements);
  return buffer;
}

inline uint8_t *map(const Device &device, VkDeviceMemory memory) {
  void *bytes;
  CHECK(vkMapMemory(device.handle, memory, 0, VK_WHOLE_SIZE, 0, &bytes));
  return static_cast<uint8_t *>(bytes);
}

inline Buffer make_buffer(const Device &device, uint64_t size) {  // with its memory, mapped
  VkMemoryRequirements requirements;
  VkBuffer handle = unbound_buffer(device, size, &requirements);
  VkDeviceMemory memory = allocate(device, requirements.size, requirements.memoryTypeBits, mappable);
  CHECK(vkBindBufferMemory(device.handle, handle, memory, 0));
  return {handle, memory, map(device, memory), size};
}

inline void destroy(const Device &device, const Buffer &buffer) {
  vkDestroyBuffer(device.handle, buffer.handle, nullptr);
  vkFreeMemory(device.handle, buffer.memory, nullptr);
}

inline VkImage unbound_image(const Device &device, VkExtent2D extent, VkFormat format,
                             VkMemoryRequirements *requirements) {
  VkImageCreateInfo info = {VK_STRUCTURE_TYPE_IMAGE_CREATE_INFO};
  info.imageType = VK_IMAGE_TYPE_2D;
  info.format = format;
  info.extent = {extent.width, extent.height, 1};
  info.mipLevels = info.arrayLayers = 1;
  info.samples = VK_SAMPLE_COUNT_1_BIT;
  info.usage = IMAGE_USAGE;
  VkImage image;
  CHECK(vkCreateImage(device.handle, &info, nullptr, &image));
  vkGetImageMemoryRequirements(device.handle, image, requirements);
  return image;
}

inline Image make_image(const Device &device, VkExtent2D extent, VkFormat format) {
  VkMemoryRequirements requirements;
  VkImage handle = unbound_image(device, extent, format, &requirements);
  VkDeviceMemory memory = allocate(device, requirements.size, requirements.memoryTypeBits, 0);
  CHECK(vkBindImageMemory(device.handle, handle, memory, 0));
  return {handle, memory};
}

inline void destroy(const Device &device, const Image &image) {
  vkDestroyImage(device.handle, image.handle, nullptr);
  vkFreeMemory(device.handle, image.memory, nullptr);
}

inline VkCommandPool make_pool(const Device &device) {
  VkCommandPoolCreateInfo info = {VK_STRUCTURE_TYPE_COMMAND_POOL_CREATE_INFO};
  info.flags = VK_COMMAND_POOL_CREATE_RESET_COMMAND_BUFFER_BIT;
  VkCommandPool pool;
  CHECK(vkCreateCommandPool(device.handle, &info, nullptr, &pool));
  return pool;
}

inline VkCommandBuffer make_commands(const Device &device, VkCommandPool pool) {
  VkCommandBufferAllocateInfo info = {VK_STRUCTURE_TYPE_COMMAND_BUFFER_ALLOCATE_INFO};
  info.commandPool = pool;
  info.commandBufferCount = 1;
  VkCommandBuffer commands;
  CHECK(vkAllocateCommandBuffers(device.handle, &info, &commands));
  return commands;
}

inline VkSemaphore make_semaphore(const Device &device) {
  VkSemaphoreCreateInfo info = {VK_STRUCTURE_TYPE_SEMAPHORE_CREATE_INFO};
  VkSemaphore semaphore;
  CHECK(vkCreateSemaphore(device.handle, &info, nullptr, &semaphore));
  return semaphore;
}

inline VkFence make_fence(const Device &device, VkFenceCreateFlags flags = 0) {
  VkFenceCreateInfo info = {VK_STRUCTURE_TYPE_FENCE_CREATE_INFO, nullptr, flags};
  VkFence fence;
  CHECK(vkCreateFence(device.handle, &info, nullptr, &fence));
  return fence;
}

inline void wait_and_reset(const Device &device, VkFence fence) {
  CHECK(vkWaitForFences(device.handle, 1, &fence, VK_TRUE, UINT64_MAX));
  CHECK(vkResetFences(device.handle, 1, &fence));
}
