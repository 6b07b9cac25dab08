// VK_LAYER_GFXCAP_incoherent, for tests: makes the driver's memory incoherent. A map gives a copy of the memory, which
// a flush writes back and an invalidate reads anew. It is for one instance and one device at a time.
#include <vulkan/vk_layer.h>

#include <cstring>
#include <map>
#include <mutex>
#include <string>
#include <vector>

namespace {

struct Memory {
  uint64_t size, offset = 0;
  uint8_t *real = nullptr;
  std::vector<uint8_t> copy;
};

std::mutex mutex;
std::map<VkDeviceMemory, Memory> memories;
PFN_vkGetInstanceProcAddr next_of_instance;
PFN_vkGetDeviceProcAddr next_of_device;
PFN_vkGetPhysicalDeviceMemoryProperties next_memory_properties;  // found while the instance is made, as all has to be
PFN_vkCreateDevice next_create_device;
VkDevice device;

template <class Function>
Function next(const char *name) {
  return reinterpret_cast<Function>(next_of_device(device, name));
}

VkResult create_instance(const VkInstanceCreateInfo *info, const VkAllocationCallbacks *allocator, VkInstance *out) {
  auto *link = (VkLayerInstanceCreateInfo *)info->pNext;
  while (link->sType != VK_STRUCTURE_TYPE_LOADER_INSTANCE_CREATE_INFO || link->function != VK_LAYER_LINK_INFO)
    link = (VkLayerInstanceCreateInfo *)link->pNext;
  next_of_instance = link->u.pLayerInfo->pfnNextGetInstanceProcAddr;
  link->u.pLayerInfo = link->u.pLayerInfo->pNext;
  auto create = (PFN_vkCreateInstance)next_of_instance(nullptr, "vkCreateInstance");
  VkResult result = create(info, allocator, out);
  next_memory_properties =
      (PFN_vkGetPhysicalDeviceMemoryProperties)next_of_instance(*out, "vkGetPhysicalDeviceMemoryProperties");
  next_create_device = (PFN_vkCreateDevice)next_of_instance(*out, "vkCreateDevice");
  return result;
}

VkResult create_device(VkPhysicalDevice physical, const VkDeviceCreateInfo *info,
                       const VkAllocationCallbacks *allocator, VkDevice *out) {
  auto *link = (VkLayerDeviceCreateInfo *)info->pNext;
  while (link->sType != VK_STRUCTURE_TYPE_LOADER_DEVICE_CREATE_INFO || link->function != VK_LAYER_LINK_INFO)
    link = (VkLayerDeviceCreateInfo *)link->pNext;
  next_of_device = link->u.pLayerInfo->pfnNextGetDeviceProcAddr;
  link->u.pLayerInfo = link->u.pLayerInfo->pNext;
  VkResult result = next_create_device(physical, info, allocator, out);
  device = *out;
  return result;
}

void memory_properties(VkPhysicalDevice physical, VkPhysicalDeviceMemoryProperties *out) {
  next_memory_properties(physical, out);
  for (auto &type : out->memoryTypes) type.propertyFlags &= ~VK_MEMORY_PROPERTY_HOST_COHERENT_BIT;
}

VkResult allocate(VkDevice, const VkMemoryAllocateInfo *info, const VkAllocationCallbacks *allocator,
                  VkDeviceMemory *out) {
  std::lock_guard<std::mutex> lock(mutex);
  VkResult result = next<PFN_vkAllocateMemory>("vkAllocateMemory")(device, info, allocator, out);
  if (result == VK_SUCCESS) memories[*out] = {info->allocationSize};
  return result;
}

VkResult map(VkDevice, VkDeviceMemory memory, VkDeviceSize offset, VkDeviceSize size, VkMemoryMapFlags flags,
             void **out) {
  std::lock_guard<std::mutex> lock(mutex);
  Memory &mapped = memories[memory];
  void *real;
  VkResult result = next<PFN_vkMapMemory>("vkMapMemory")(device, memory, offset, size, flags, &real);
  if (result != VK_SUCCESS) return result;
  mapped.real = static_cast<uint8_t *>(real);
  mapped.offset = offset;
  mapped.copy.assign(mapped.real, mapped.real + (size == VK_WHOLE_SIZE ? mapped.size - offset : size));
  *out = mapped.copy.data();
  return result;
}

void unmap(VkDevice, VkDeviceMemory memory) {
  std::lock_guard<std::mutex> lock(mutex);
  next<PFN_vkUnmapMemory>("vkUnmapMemory")(device, memory);
  memories[memory].copy.clear();
}

template <class Move>
VkResult for_each_range(uint32_t count, const VkMappedMemoryRange *ranges, Move move) {
  std::lock_guard<std::mutex> lock(mutex);
  for (auto *range = ranges; range < ranges + count; range++) {
    Memory &mapped = memories[range->memory];
    uint64_t from = range->offset - mapped.offset, whole = mapped.copy.size() - from;
    move(mapped.real + from, mapped.copy.data() + from, range->size == VK_WHOLE_SIZE ? whole : range->size);
  }
  return VK_SUCCESS;
}

VkResult flush(VkDevice, uint32_t count, const VkMappedMemoryRange *ranges) {
  return for_each_range(count, ranges, [](uint8_t *real, uint8_t *copy, uint64_t size) { memcpy(real, copy, size); });
}

VkResult invalidate(VkDevice, uint32_t count, const VkMappedMemoryRange *ranges) {
  return for_each_range(count, ranges, [](uint8_t *real, uint8_t *copy, uint64_t size) { memcpy(copy, real, size); });
}

PFN_vkVoidFunction own(const std::string &name) {
  static const std::map<std::string, PFN_vkVoidFunction> functions = {
      {"vkCreateInstance", (PFN_vkVoidFunction)create_instance},
      {"vkCreateDevice", (PFN_vkVoidFunction)create_device},
      {"vkGetPhysicalDeviceMemoryProperties", (PFN_vkVoidFunction)memory_properties},
      {"vkAllocateMemory", (PFN_vkVoidFunction)allocate},
      {"vkMapMemory", (PFN_vkVoidFunction)map},
      {"vkUnmapMemory", (PFN_vkVoidFunction)unmap},
      {"vkFlushMappedMemoryRanges", (PFN_vkVoidFunction)flush},
      {"vkInvalidateMappedMemoryRanges", (PFN_vkVoidFunction)invalidate},
  };
  auto found = functions.find(name);
  return found == functions.end() ? nullptr : found->second;
}

PFN_vkVoidFunction find_in_device(VkDevice of, const char *name);

PFN_vkVoidFunction find_in_instance(VkInstance of, const char *name) {
  if (!strcmp(name, "vkGetInstanceProcAddr")) return (PFN_vkVoidFunction)find_in_instance;
  if (!strcmp(name, "vkGetDeviceProcAddr")) return (PFN_vkVoidFunction)find_in_device;
  PFN_vkVoidFunction found = own(name);
  return found || !of ? found : next_of_instance(of, name);
}

PFN_vkVoidFunction find_in_device(VkDevice of, const char *name) {
  if (!strcmp(name, "vkGetDeviceProcAddr")) return (PFN_vkVoidFunction)find_in_device;
  PFN_vkVoidFunction found = own(name);
  return found ? found : next_of_device(of, name);
}

}  // namespace

extern "C" VkResult vkNegotiateLoaderLayerInterfaceVersion(VkNegotiateLayerInterface *negotiated) {
  negotiated->loaderLayerInterfaceVersion = 2;
  negotiated->pfnGetInstanceProcAddr = find_in_instance;
  negotiated->pfnGetDeviceProcAddr = find_in_device;
  negotiated->pfnGetPhysicalDeviceProcAddr = nullptr;
  return VK_SUCCESS;
}
