// What the player asks of a Vulkan driver beside the calls of a capture: an instance, a device with one queue, memory,
// a staging buffer, and commands of its own that are done at once.
#pragma once
#include <vulkan/vulkan.h>

#include <functional>
#include <map>
#include <memory>

#include "capture.h"

inline void check(VkResult result, const char *what) {
  if (result != VK_SUCCESS) stop(std::string(what) + " gives " + std::to_string(result));
}
#define CHECK(call) check(call, #call)

// Messages of the validation layer, each with how often it came.
inline std::map<std::string, int> messages;

inline VkBool32 VKAPI_PTR on_message(VkDebugUtilsMessageSeverityFlagBitsEXT, VkDebugUtilsMessageTypeFlagsEXT,
                                     const VkDebugUtilsMessengerCallbackDataEXT *data, void *) {
  std::string name = data->pMessageIdName ? data->pMessageIdName : "message";
  if (messages[name]++ == 0)
    fprintf(stderr, "layer: block %llu: %s\n", static_cast<unsigned long long>(current_block), data->pMessage);
  return VK_FALSE;
}

// With VALIDATE in the environment the Khronos validation layer looks at all calls.
inline VkResult new_instance(VkInstance *instance) {
  bool validate = getenv("VALIDATE");
  VkApplicationInfo application = {VK_STRUCTURE_TYPE_APPLICATION_INFO};
  application.apiVersion = VK_API_VERSION_1_1;
  VkDebugUtilsMessengerCreateInfoEXT messenger = {VK_STRUCTURE_TYPE_DEBUG_UTILS_MESSENGER_CREATE_INFO_EXT};
  messenger.messageSeverity =
      VK_DEBUG_UTILS_MESSAGE_SEVERITY_ERROR_BIT_EXT | VK_DEBUG_UTILS_MESSAGE_SEVERITY_WARNING_BIT_EXT;
  messenger.messageType = VK_DEBUG_UTILS_MESSAGE_TYPE_VALIDATION_BIT_EXT;
  messenger.pfnUserCallback = on_message;
  const char *layers[] = {"VK_LAYER_KHRONOS_validation"};
  const char *extensions[] = {VK_KHR_SURFACE_EXTENSION_NAME, VK_EXT_DEBUG_UTILS_EXTENSION_NAME};
  VkInstanceCreateInfo info = {VK_STRUCTURE_TYPE_INSTANCE_CREATE_INFO};
  info.pNext = validate ? &messenger : nullptr;
  info.pApplicationInfo = &application;
  info.enabledLayerCount = validate ? 1 : 0;
  info.ppEnabledLayerNames = layers;
  info.enabledExtensionCount = validate ? 2 : 1;
  info.ppEnabledExtensionNames = extensions;
  VkResult result = vkCreateInstance(&info, nullptr, instance);
  if (result != VK_SUCCESS || !validate) return result;
  VkDebugUtilsMessengerEXT made;
  auto make = reinterpret_cast<PFN_vkCreateDebugUtilsMessengerEXT>(
      vkGetInstanceProcAddr(*instance, "vkCreateDebugUtilsMessengerEXT"));
  return make(*instance, &messenger, nullptr, &made);
}

inline VkPhysicalDevice first_physical_device(VkInstance instance) {
  VkPhysicalDevice device = VK_NULL_HANDLE;
  uint32_t count = 1;
  VkResult result = vkEnumeratePhysicalDevices(instance, &count, &device);
  return result < 0 || count == 0 ? VK_NULL_HANDLE : device;
}

// All that was written before is seen by all that follows.
inline void full_barrier(VkCommandBuffer commands, const std::vector<VkImageMemoryBarrier> &images = {}) {
  VkMemoryBarrier memory = {VK_STRUCTURE_TYPE_MEMORY_BARRIER};
  memory.srcAccessMask = memory.dstAccessMask = VK_ACCESS_MEMORY_READ_BIT | VK_ACCESS_MEMORY_WRITE_BIT;
  vkCmdPipelineBarrier(commands, VK_PIPELINE_STAGE_ALL_COMMANDS_BIT, VK_PIPELINE_STAGE_ALL_COMMANDS_BIT, 0, 1, &memory,
                       0, nullptr, images.size(), images.data());
}

constexpr VkImageSubresourceRange ALL_OF_IMAGE = {VK_IMAGE_ASPECT_COLOR_BIT, 0, 1, 0, 1};
constexpr VkImageSubresourceLayers LAYERS = {VK_IMAGE_ASPECT_COLOR_BIT, 0, 0, 1};

inline VkImageMemoryBarrier layout_change(VkImage image, uint32_t before, uint32_t after) {
  VkImageMemoryBarrier barrier = {VK_STRUCTURE_TYPE_IMAGE_MEMORY_BARRIER};
  barrier.srcAccessMask = barrier.dstAccessMask = VK_ACCESS_MEMORY_READ_BIT | VK_ACCESS_MEMORY_WRITE_BIT;
  barrier.oldLayout = static_cast<VkImageLayout>(before);
  barrier.newLayout = static_cast<VkImageLayout>(after);
  barrier.srcQueueFamilyIndex = barrier.dstQueueFamilyIndex = VK_QUEUE_FAMILY_IGNORED;
  barrier.image = image;
  barrier.subresourceRange = ALL_OF_IMAGE;
  return barrier;
}

struct Batch {
  std::vector<VkSemaphore> waits, signals;
  std::vector<VkCommandBuffer> commands;
};

class Device {
 public:
  explicit Device(VkInstance instance) : physical(first_physical_device(instance)) {
    if (!physical) stop("the driver has no device");
    vkGetPhysicalDeviceMemoryProperties(physical, &types);
    float priority = 1;
    VkDeviceQueueCreateInfo queue_info = {VK_STRUCTURE_TYPE_DEVICE_QUEUE_CREATE_INFO};
    queue_info.queueCount = 1;
    queue_info.pQueuePriorities = &priority;
    const char *extension = VK_KHR_SWAPCHAIN_EXTENSION_NAME;  // for the layout of a present
    VkDeviceCreateInfo info = {VK_STRUCTURE_TYPE_DEVICE_CREATE_INFO};
    info.queueCreateInfoCount = 1;
    info.pQueueCreateInfos = &queue_info;
    info.enabledExtensionCount = 1;
    info.ppEnabledExtensionNames = &extension;
    CHECK(vkCreateDevice(physical, &info, nullptr, &handle));
    vkGetDeviceQueue(handle, 0, 0, &queue);
    VkCommandPoolCreateInfo pool_info = {VK_STRUCTURE_TYPE_COMMAND_POOL_CREATE_INFO};
    pool_info.flags = VK_COMMAND_POOL_CREATE_RESET_COMMAND_BUFFER_BIT;
    CHECK(vkCreateCommandPool(handle, &pool_info, nullptr, &pool));
    VkCommandBufferAllocateInfo commands_info = {VK_STRUCTURE_TYPE_COMMAND_BUFFER_ALLOCATE_INFO};
    commands_info.commandPool = pool;
    commands_info.commandBufferCount = 1;
    CHECK(vkAllocateCommandBuffers(handle, &commands_info, &commands));
  }

  void destroy() {
    drop_staging();
    vkDestroyCommandPool(handle, pool, nullptr);
    vkDestroyDevice(handle, nullptr);
  }

  // Memory of a type that one of `bits` stands for and that has all of `flags`.
  VkDeviceMemory memory(uint64_t size, uint32_t bits, VkMemoryPropertyFlags flags) const {
    uint32_t type = 0;
    while (type < types.memoryTypeCount &&
           !(bits >> type & 1 && (types.memoryTypes[type].propertyFlags & flags) == flags))
      type++;
    if (type == types.memoryTypeCount) stop("the driver has no such memory");
    VkMemoryAllocateInfo info = {VK_STRUCTURE_TYPE_MEMORY_ALLOCATE_INFO};
    info.allocationSize = size;
    info.memoryTypeIndex = type;
    VkDeviceMemory made;
    CHECK(vkAllocateMemory(handle, &info, nullptr, &made));
    return made;
  }

  // Each submit is complete when it returns, as the profile has it.
  void submit(const std::vector<Batch> &batches, VkFence fence = VK_NULL_HANDLE) {
    std::vector<VkPipelineStageFlags> stages(16, VK_PIPELINE_STAGE_ALL_COMMANDS_BIT);
    std::vector<VkSubmitInfo> infos;
    for (const Batch &batch : batches) {
      VkSubmitInfo info = {VK_STRUCTURE_TYPE_SUBMIT_INFO};
      info.waitSemaphoreCount = batch.waits.size();
      info.pWaitSemaphores = batch.waits.data();
      info.pWaitDstStageMask = stages.data();
      info.commandBufferCount = batch.commands.size();
      info.pCommandBuffers = batch.commands.data();
      info.signalSemaphoreCount = batch.signals.size();
      info.pSignalSemaphores = batch.signals.data();
      infos.push_back(info);
    }
    CHECK(vkQueueSubmit(queue, infos.size(), infos.data(), fence));
    CHECK(vkQueueWaitIdle(queue));
  }

  void at_once(const std::function<void(VkCommandBuffer)> &record) {
    VkCommandBufferBeginInfo info = {VK_STRUCTURE_TYPE_COMMAND_BUFFER_BEGIN_INFO};
    CHECK(vkBeginCommandBuffer(commands, &info));
    record(commands);
    CHECK(vkEndCommandBuffer(commands));
    submit({{{}, {}, {commands}}});
  }

  // The bytes of a buffer of at least this size, for copies to images and from them.
  uint8_t *stage(uint64_t size) {
    if (size <= staging_size) return staging_bytes;
    drop_staging();
    VkBufferCreateInfo info = {VK_STRUCTURE_TYPE_BUFFER_CREATE_INFO};
    info.size = size;
    info.usage = VK_BUFFER_USAGE_TRANSFER_SRC_BIT | VK_BUFFER_USAGE_TRANSFER_DST_BIT;
    CHECK(vkCreateBuffer(handle, &info, nullptr, &staging));
    VkMemoryRequirements wanted;
    vkGetBufferMemoryRequirements(handle, staging, &wanted);
    staging_memory = memory(wanted.size, wanted.memoryTypeBits, MAPPABLE);
    CHECK(vkBindBufferMemory(handle, staging, staging_memory, 0));
    CHECK(vkMapMemory(handle, staging_memory, 0, VK_WHOLE_SIZE, 0, reinterpret_cast<void **>(&staging_bytes)));
    staging_size = size;
    return staging_bytes;
  }

  static constexpr VkMemoryPropertyFlags MAPPABLE =
      VK_MEMORY_PROPERTY_HOST_VISIBLE_BIT | VK_MEMORY_PROPERTY_HOST_COHERENT_BIT;
  VkDevice handle;
  VkQueue queue;
  VkBuffer staging = VK_NULL_HANDLE;

 private:
  VkPhysicalDevice physical;
  VkPhysicalDeviceMemoryProperties types;
  VkCommandPool pool;
  VkCommandBuffer commands;
  VkDeviceMemory staging_memory = VK_NULL_HANDLE;
  uint8_t *staging_bytes = nullptr;
  uint64_t staging_size = 0;

  void drop_staging() {
    if (!staging) return;
    vkDestroyBuffer(handle, staging, nullptr);
    vkFreeMemory(handle, staging_memory, nullptr);
  }
};

// The name and the version of the driver, or nothing where there is none.
inline std::string driver_name() {
  VkInstance instance;
  if (new_instance(&instance) != VK_SUCCESS) return "";
  VkPhysicalDevice device = first_physical_device(instance);
  if (!device) return "";
  VkPhysicalDeviceDriverProperties driver = {VK_STRUCTURE_TYPE_PHYSICAL_DEVICE_DRIVER_PROPERTIES};
  VkPhysicalDeviceProperties2 properties = {VK_STRUCTURE_TYPE_PHYSICAL_DEVICE_PROPERTIES_2, &driver, {}};
  vkGetPhysicalDeviceProperties2(device, &properties);
  return std::string(properties.properties.deviceName) + ", " + driver.driverName + " " + driver.driverInfo;
}
