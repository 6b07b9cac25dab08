// Memory: allocated, mapped, flushed and freed; and what it has to be for a resource.
#include <cstring>

#include "call.h"

namespace {

constexpr VkDeviceSize ALIGNMENT = 16;  // at whose multiples the profile binds

bool has(const DeviceTable &table, uint32_t type, VkMemoryPropertyFlags flag) {
  return table.memory.memoryTypes[type].propertyFlags & flag;
}

// The profile's memory begins as zeros. Real memory may begin as just what the program then writes, and such a write
// would not be seen.
void clear(DeviceTable &table, VkDeviceMemory memory, const VkMemoryAllocateInfo &info) {
  void *bytes;
  if (!has(table, info.memoryTypeIndex, VK_MEMORY_PROPERTY_HOST_VISIBLE_BIT)) return;
  if (table.MapMemory(table.device, memory, 0, VK_WHOLE_SIZE, 0, &bytes) != VK_SUCCESS) return;
  memset(bytes, 0, info.allocationSize);
  if (!has(table, info.memoryTypeIndex, VK_MEMORY_PROPERTY_HOST_COHERENT_BIT)) {
    VkMappedMemoryRange all = {VK_STRUCTURE_TYPE_MAPPED_MEMORY_RANGE, nullptr, memory, 0, VK_WHOLE_SIZE};
    table.FlushMappedMemoryRanges(table.device, 1, &all);
  }
  table.UnmapMemory(table.device, memory);
}

void align(VkMemoryRequirements &requirements) {
  if (requirements.alignment < ALIGNMENT) requirements.alignment = ALIGNMENT;
  requirements.size =
      (requirements.size + requirements.alignment - 1) / requirements.alignment * requirements.alignment;
}

uint64_t recorded_id(const Call &call, VkDeviceMemory memory) { return call ? recording().ids.find(memory) : 0; }

}  // namespace

namespace intercept {

VkResult AllocateMemory(VkDevice device, const VkMemoryAllocateInfo *info, const VkAllocationCallbacks *allocator,
                        VkDeviceMemory *out) {
  Call call(CallId::AllocateMemory);
  DeviceTable &table = device_table(device);
  VkResult result = table.AllocateMemory(device, info, allocator, out);
  if (!call.succeeded(result)) return result;
  bool plain = is_plain(info->pNext, {VK_STRUCTURE_TYPE_MEMORY_DEDICATED_ALLOCATE_INFO,
                                      VK_STRUCTURE_TYPE_MEMORY_PRIORITY_ALLOCATE_INFO_EXT});
  if (!call.require(plain, "the profile lacks a structure of its pNext chain").is_good()) return result;
  clear(table, *out, *info);
  call.id(device).created(*out, device).size(info->allocationSize);
  bool is_coherent = has(table, info->memoryTypeIndex, VK_MEMORY_PROPERTY_HOST_COHERENT_BIT);
  recording().memory.allocated(recording().ids.find(*out), info->allocationSize, is_coherent);
  return result;
}

void FreeMemory(VkDevice device, VkDeviceMemory memory, const VkAllocationCallbacks *allocator) {
  Call call(CallId::FreeMemory);
  uint64_t id = recorded_id(call, memory);
  if (id) {
    call.append_writes(id);
    recording().memory.freed(id);
  }
  device_table(device).FreeMemory(device, memory, allocator);
  if (!memory) call.skip();
  if (call) call.id(device).id(memory).ended(memory);
}

VkResult MapMemory(VkDevice device, VkDeviceMemory memory, VkDeviceSize offset, VkDeviceSize size,
                   VkMemoryMapFlags flags, void **out) {
  Call call(CallId::MapMemory);
  VkResult result = device_table(device).MapMemory(device, memory, offset, size, flags, out);
  if (!call.succeeded(result)) return result;
  call.id(device).id(memory).size(offset).size(size);
  if (call.is_good()) recording().memory.mapped(recording().ids.find(memory), *out, offset, size);
  return result;
}

void UnmapMemory(VkDevice device, VkDeviceMemory memory) {
  Call call(CallId::UnmapMemory);
  if (uint64_t id = recorded_id(call, memory)) {
    call.append_writes(id);
    recording().memory.unmapped(id);
  }
  device_table(device).UnmapMemory(device, memory);
  if (call) call.id(device).id(memory);
}

// Of a flush just what was written is recorded.
VkResult FlushMappedMemoryRanges(VkDevice device, uint32_t count, const VkMappedMemoryRange *ranges) {
  Call call(CallId::None, "vkFlushMappedMemoryRanges");
  for (uint32_t at = 0; call && at < count; at++)
    if (uint64_t id = recorded_id(call, ranges[at].memory)) call.append_writes(id);
  call.skip();
  return device_table(device).FlushMappedMemoryRanges(device, count, ranges);
}

// What the device wrote appears in memory that isn't coherent; the capture has it already.
VkResult InvalidateMappedMemoryRanges(VkDevice device, uint32_t count, const VkMappedMemoryRange *ranges) {
  Call call(CallId::None, "vkInvalidateMappedMemoryRanges");
  for (uint32_t at = 0; call && at < count; at++)
    if (uint64_t id = recorded_id(call, ranges[at].memory)) call.append_writes(id);
  VkResult result = device_table(device).InvalidateMappedMemoryRanges(device, count, ranges);
  for (uint32_t at = 0; call && at < count; at++)
    if (uint64_t id = recorded_id(call, ranges[at].memory))
      recording().memory.invalidated(id, ranges[at].offset, ranges[at].size);
  call.skip();
  return result;
}

void GetBufferMemoryRequirements(VkDevice device, VkBuffer buffer, VkMemoryRequirements *out) {
  device_table(device).GetBufferMemoryRequirements(device, buffer, out);
  align(*out);
}

void GetImageMemoryRequirements(VkDevice device, VkImage image, VkMemoryRequirements *out) {
  device_table(device).GetImageMemoryRequirements(device, image, out);
  align(*out);
}

void GetBufferMemoryRequirements2(VkDevice device, const VkBufferMemoryRequirementsInfo2 *info,
                                  VkMemoryRequirements2 *out) {
  device_table(device).GetBufferMemoryRequirements2(device, info, out);
  align(out->memoryRequirements);
}

void GetImageMemoryRequirements2(VkDevice device, const VkImageMemoryRequirementsInfo2 *info,
                                 VkMemoryRequirements2 *out) {
  device_table(device).GetImageMemoryRequirements2(device, info, out);
  align(out->memoryRequirements);
}

}  // namespace intercept
