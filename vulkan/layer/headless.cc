#include "headless.h"

#include <cstdlib>
#include <cstring>
#include <mutex>
#include <unordered_set>
#include <vector>

namespace {

struct Swapchain {
  std::vector<VkImage> images;
  std::vector<VkDeviceMemory> memories;
  std::vector<bool> is_acquired;
  uint32_t next = 0;
};

struct Handles {  // of surfaces and swapchains
  std::mutex mutex;
  std::unordered_set<uint64_t> all;

  void add(uint64_t handle) {
    std::lock_guard<std::mutex> lock(mutex);
    all.insert(handle);
  }
  bool remove(uint64_t handle) {
    std::lock_guard<std::mutex> lock(mutex);
    return all.erase(handle);
  }
  bool has(uint64_t handle) {
    std::lock_guard<std::mutex> lock(mutex);
    return all.count(handle);
  }
};

Handles &handles = *new Handles;
std::atomic<bool> was_used{false};

Swapchain &of(VkSwapchainKHR swapchain) { return *reinterpret_cast<Swapchain *>(swapchain); }

VkQueue queue_of(DeviceTable &table) {
  if (table.headless_queue) return table.headless_queue;
  table.GetDeviceQueue(table.device, table.family, 0, &table.headless_queue);
  if (table.set_loader_data) table.set_loader_data(table.device, table.headless_queue);
  return table.headless_queue;
}

VkResult add_image(DeviceTable &table, const VkSwapchainCreateInfoKHR &info, Swapchain &swapchain) {
  VkImageCreateInfo image_info = {VK_STRUCTURE_TYPE_IMAGE_CREATE_INFO};
  image_info.imageType = VK_IMAGE_TYPE_2D;
  image_info.format = info.imageFormat;
  image_info.extent = {info.imageExtent.width, info.imageExtent.height, 1};
  image_info.mipLevels = 1;
  image_info.arrayLayers = info.imageArrayLayers;
  image_info.samples = VK_SAMPLE_COUNT_1_BIT;
  image_info.usage = info.imageUsage;
  VkImage image;
  VkResult result = table.CreateImage(table.device, &image_info, nullptr, &image);
  if (result != VK_SUCCESS) return result;
  swapchain.images.push_back(image);
  VkMemoryRequirements requirements;
  table.GetImageMemoryRequirements(table.device, image, &requirements);
  VkMemoryAllocateInfo memory_info = {VK_STRUCTURE_TYPE_MEMORY_ALLOCATE_INFO};
  memory_info.allocationSize = requirements.size;
  while (!(requirements.memoryTypeBits >> memory_info.memoryTypeIndex & 1)) memory_info.memoryTypeIndex++;
  VkDeviceMemory memory;
  result = table.AllocateMemory(table.device, &memory_info, nullptr, &memory);
  if (result != VK_SUCCESS) return result;
  swapchain.memories.push_back(memory);
  return table.BindImageMemory(table.device, image, memory, 0);
}

VkSurfaceCapabilitiesKHR capabilities() {
  VkSurfaceCapabilitiesKHR all = {};
  all.minImageCount = 1;
  all.maxImageCount = 16;
  all.currentExtent = {~0u, ~0u};  // that of the swapchain
  all.minImageExtent = {1, 1};
  all.maxImageExtent = {4096, 4096};
  all.maxImageArrayLayers = 1;
  all.supportedTransforms = all.currentTransform = VK_SURFACE_TRANSFORM_IDENTITY_BIT_KHR;
  all.supportedCompositeAlpha = VK_COMPOSITE_ALPHA_OPAQUE_BIT_KHR;
  all.supportedUsageFlags = VK_IMAGE_USAGE_TRANSFER_SRC_BIT | VK_IMAGE_USAGE_TRANSFER_DST_BIT |
                            VK_IMAGE_USAGE_SAMPLED_BIT | VK_IMAGE_USAGE_STORAGE_BIT |
                            VK_IMAGE_USAGE_COLOR_ATTACHMENT_BIT;
  return all;
}

constexpr VkFormat FORMATS[] = {VK_FORMAT_B8G8R8A8_UNORM, VK_FORMAT_R8G8B8A8_UNORM, VK_FORMAT_R8_UINT,
                                VK_FORMAT_R8G8B8A8_UINT, VK_FORMAT_R32_UINT};

template <class Out, class Put>  // as Vulkan gives lists: without `out` their length
VkResult give(uint32_t length, uint32_t *count, Out *out, Put put) {
  uint32_t room = out ? *count : length;
  *count = room < length ? room : length;
  for (uint32_t at = 0; out && at < *count; at++) put(out[at], at);
  return room < length ? VK_INCOMPLETE : VK_SUCCESS;
}

VkSurfaceFormatKHR surface_format(uint32_t at) { return {FORMATS[at], VK_COLOR_SPACE_SRGB_NONLINEAR_KHR}; }

}  // namespace

namespace headless {

bool is_used() { return was_used.load(std::memory_order_relaxed); }

bool is_wanted(const InstanceTable &table) {
  const char *asked = getenv("GFXCAP_HEADLESS");
  return (asked && !strcmp(asked, "1")) || !table.has_headless;
}

bool has(VkSurfaceKHR surface) { return surface && handles.has(uint64_t(surface)); }
bool has(VkSwapchainKHR swapchain) { return is_used() && swapchain && handles.has(uint64_t(swapchain)); }

VkSurfaceKHR create_surface() {
  constexpr size_t LOADER_LOOKS_AT = 256;
  auto surface = reinterpret_cast<VkSurfaceKHR>(calloc(1, LOADER_LOOKS_AT));
  handles.add(uint64_t(surface));
  return surface;
}

void destroy(VkSurfaceKHR surface) {
  if (handles.remove(uint64_t(surface))) free(reinterpret_cast<void *>(surface));
}

VkResult create(DeviceTable &table, const VkSwapchainCreateInfoKHR &info, VkSwapchainKHR *out) {
  auto *swapchain = new Swapchain;
  auto handle = reinterpret_cast<VkSwapchainKHR>(swapchain);
  VkResult result = VK_SUCCESS;
  for (uint32_t at = 0; at < info.minImageCount && result == VK_SUCCESS; at++)
    result = add_image(table, info, *swapchain);
  swapchain->is_acquired.resize(swapchain->images.size());
  handles.add(uint64_t(handle));
  was_used = true;
  if (result == VK_SUCCESS) *out = handle;
  else destroy(table, handle);
  return result;
}

void destroy(DeviceTable &table, VkSwapchainKHR handle) {
  if (!handles.remove(uint64_t(handle))) return;
  for (VkImage image : of(handle).images) table.DestroyImage(table.device, image, nullptr);
  for (VkDeviceMemory memory : of(handle).memories) table.FreeMemory(table.device, memory, nullptr);
  delete &of(handle);
}

VkResult images(VkSwapchainKHR handle, uint32_t *count, VkImage *out) {
  auto &all = of(handle).images;
  return give(all.size(), count, out, [&](VkImage &image, uint32_t at) { image = all[at]; });
}

VkResult acquire(DeviceTable &table, const VkAcquireNextImageInfoKHR &info, uint32_t *index) {
  Swapchain &swapchain = of(info.swapchain);
  uint32_t count = swapchain.images.size(), tried = 0;
  while (tried < count && swapchain.is_acquired[(swapchain.next + tried) % count]) tried++;
  if (tried == count) return info.timeout ? VK_TIMEOUT : VK_NOT_READY;
  VkSubmitInfo signal = {VK_STRUCTURE_TYPE_SUBMIT_INFO};
  signal.signalSemaphoreCount = info.semaphore ? 1 : 0;
  signal.pSignalSemaphores = &info.semaphore;
  VkResult result = table.QueueSubmit(queue_of(table), 1, &signal, info.fence);
  if (result != VK_SUCCESS) return result;
  *index = (swapchain.next + tried) % count;
  swapchain.is_acquired[*index] = true;
  swapchain.next = *index + 1;
  return VK_SUCCESS;
}

VkResult present(DeviceTable &table, VkQueue queue, const VkPresentInfoKHR &info) {
  std::vector<VkPipelineStageFlags> stages(info.waitSemaphoreCount, VK_PIPELINE_STAGE_ALL_COMMANDS_BIT);
  VkSubmitInfo wait = {VK_STRUCTURE_TYPE_SUBMIT_INFO};
  wait.waitSemaphoreCount = info.waitSemaphoreCount;
  wait.pWaitSemaphores = info.pWaitSemaphores;
  wait.pWaitDstStageMask = stages.data();
  VkResult result = info.waitSemaphoreCount ? table.QueueSubmit(queue, 1, &wait, VK_NULL_HANDLE) : VK_SUCCESS;
  for (uint32_t at = 0; at < info.swapchainCount; at++) {
    if (info.pResults) info.pResults[at] = result;
    if (has(info.pSwapchains[at])) of(info.pSwapchains[at]).is_acquired[info.pImageIndices[at]] = false;
  }
  return result;
}

}  // namespace headless

namespace intercept {

VkResult GetPhysicalDeviceSurfaceSupportKHR(VkPhysicalDevice physical, uint32_t family, VkSurfaceKHR surface,
                                            VkBool32 *out) {
  InstanceTable &table = instance_table(physical);
  if (!headless::has(surface)) return table.GetPhysicalDeviceSurfaceSupportKHR(physical, family, surface, out);
  *out = VK_TRUE;
  return VK_SUCCESS;
}

VkResult GetPhysicalDeviceSurfaceCapabilitiesKHR(VkPhysicalDevice physical, VkSurfaceKHR surface,
                                                 VkSurfaceCapabilitiesKHR *out) {
  InstanceTable &table = instance_table(physical);
  if (!headless::has(surface)) return table.GetPhysicalDeviceSurfaceCapabilitiesKHR(physical, surface, out);
  *out = capabilities();
  return VK_SUCCESS;
}

VkResult GetPhysicalDeviceSurfaceCapabilities2KHR(VkPhysicalDevice physical,
                                                  const VkPhysicalDeviceSurfaceInfo2KHR *info,
                                                  VkSurfaceCapabilities2KHR *out) {
  InstanceTable &table = instance_table(physical);
  if (!headless::has(info->surface)) return table.GetPhysicalDeviceSurfaceCapabilities2KHR(physical, info, out);
  out->surfaceCapabilities = capabilities();
  return VK_SUCCESS;
}

VkResult GetPhysicalDeviceSurfaceFormatsKHR(VkPhysicalDevice physical, VkSurfaceKHR surface, uint32_t *count,
                                            VkSurfaceFormatKHR *out) {
  InstanceTable &table = instance_table(physical);
  if (!headless::has(surface)) return table.GetPhysicalDeviceSurfaceFormatsKHR(physical, surface, count, out);
  auto put = [](VkSurfaceFormatKHR &format, uint32_t at) { format = surface_format(at); };
  return give(std::size(FORMATS), count, out, put);
}

VkResult GetPhysicalDeviceSurfaceFormats2KHR(VkPhysicalDevice physical, const VkPhysicalDeviceSurfaceInfo2KHR *info,
                                             uint32_t *count, VkSurfaceFormat2KHR *out) {
  InstanceTable &table = instance_table(physical);
  if (!headless::has(info->surface)) return table.GetPhysicalDeviceSurfaceFormats2KHR(physical, info, count, out);
  auto put = [](VkSurfaceFormat2KHR &format, uint32_t at) { format.surfaceFormat = surface_format(at); };
  return give(std::size(FORMATS), count, out, put);
}

VkResult GetPhysicalDeviceSurfacePresentModesKHR(VkPhysicalDevice physical, VkSurfaceKHR surface, uint32_t *count,
                                                 VkPresentModeKHR *out) {
  InstanceTable &table = instance_table(physical);
  if (!headless::has(surface)) return table.GetPhysicalDeviceSurfacePresentModesKHR(physical, surface, count, out);
  return give(1, count, out, [](VkPresentModeKHR &mode, uint32_t) { mode = VK_PRESENT_MODE_FIFO_KHR; });
}

}  // namespace intercept
