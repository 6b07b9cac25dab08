// Buffers and images: created, bound and destroyed.
#include "call.h"
#include "formats.h"

namespace {

template <class Handle>
void end(Call &call, VkDevice device, Handle handle) {
  if (!handle) call.skip();
  if (!call) return;
  call.id(device).id(handle);
  recording().memory.destroyed(recording().ids.find(handle));
  call.ended(handle);
}

void bind_buffer(const char *name, VkDevice device, const VkBindBufferMemoryInfo &info) {
  Call call(CallId::BindBufferMemory, name);
  if (!call) return;
  call.require(is_plain(info.pNext), LACKS_CHAIN);
  call.id(device).id(info.buffer).id(info.memory).size(info.memoryOffset);
  if (!call.is_good()) return;
  uint64_t id = recording().ids.find(info.buffer), size = recording().memory.resource(id).size;
  recording().memory.bound(id, recording().ids.find(info.memory), info.memoryOffset, size);
}

void bind_image(const char *name, VkDevice device, const VkBindImageMemoryInfo &info) {
  Call call(CallId::BindImageMemory, name);
  if (!call) return;
  call.require(is_plain(info.pNext), LACKS_CHAIN);
  call.id(device).id(info.image).id(info.memory).size(info.memoryOffset);
  if (!call.is_good()) return;
  VkMemoryRequirements requirements;
  device_table(device).GetImageMemoryRequirements(device, info.image, &requirements);
  uint64_t memory = recording().ids.find(info.memory);
  recording().memory.bound(recording().ids.find(info.image), memory, info.memoryOffset, requirements.size);
}

// The bytes of a linear image are those of the capture only if its rows are.
bool is_tightly_packed(DeviceTable &table, VkImage image, const VkImageCreateInfo &info) {
  VkImageSubresource all = {VK_IMAGE_ASPECT_COLOR_BIT, 0, 0};
  VkSubresourceLayout layout;
  table.GetImageSubresourceLayout(table.device, image, &all, &layout);
  bool has_packed_rows = layout.rowPitch == uint64_t(info.extent.width) * texel_size(info.format);
  return layout.offset == 0 && (info.extent.height == 1 || has_packed_rows);
}

void require_profile(Call &call, const VkImageCreateInfo &info) {
  bool has_known_flags = !(info.flags & ~VK_IMAGE_CREATE_MUTABLE_FORMAT_BIT);
  call.require(has_known_flags && is_plain(info.pNext), LACKS_CHAIN);
  bool is_flat = info.imageType == VK_IMAGE_TYPE_2D && info.extent.depth == 1;
  bool is_single = info.mipLevels == 1 && info.arrayLayers == 1 && info.samples == VK_SAMPLE_COUNT_1_BIT;
  call.require(is_flat && is_single, "the profile has images of two dimensions with one level, layer and sample alone");
  call.require(is_known_format(info.format), lacks_format(info.format));
  call.require(info.initialLayout == VK_IMAGE_LAYOUT_UNDEFINED, lacks_layout(info.initialLayout));
  bool is_tiled = info.tiling == VK_IMAGE_TILING_LINEAR || info.tiling == VK_IMAGE_TILING_OPTIMAL;
  call.require(is_tiled, "the profile lacks its tiling");
}

}  // namespace

namespace intercept {

VkResult CreateBuffer(VkDevice device, const VkBufferCreateInfo *info, const VkAllocationCallbacks *allocator,
                      VkBuffer *out) {
  Call call(CallId::CreateBuffer);
  VkResult result = device_table(device).CreateBuffer(device, info, allocator, out);
  if (!call.succeeded(result)) return result;
  call.require(!info->flags && is_plain(info->pNext), LACKS_CHAIN);
  call.id(device).created(*out, device).size(info->size).word(info->usage);
  Resource buffer;
  buffer.size = info->size;
  recording().memory.resource(recording().ids.find(*out)) = buffer;
  return result;
}

void DestroyBuffer(VkDevice device, VkBuffer buffer, const VkAllocationCallbacks *allocator) {
  Call call(CallId::DestroyBuffer);
  device_table(device).DestroyBuffer(device, buffer, allocator);
  end(call, device, buffer);
}

VkResult BindBufferMemory(VkDevice device, VkBuffer buffer, VkDeviceMemory memory, VkDeviceSize offset) {
  VkResult result = device_table(device).BindBufferMemory(device, buffer, memory, offset);
  VkBindBufferMemoryInfo info = {VK_STRUCTURE_TYPE_BIND_BUFFER_MEMORY_INFO, nullptr, buffer, memory, offset};
  if (result == VK_SUCCESS) bind_buffer("vkBindBufferMemory", device, info);
  return result;
}

VkResult BindBufferMemory2(VkDevice device, uint32_t count, const VkBindBufferMemoryInfo *infos) {
  VkResult result = device_table(device).BindBufferMemory2(device, count, infos);
  for (uint32_t at = 0; result == VK_SUCCESS && at < count; at++) bind_buffer("vkBindBufferMemory2", device, infos[at]);
  return result;
}

VkResult CreateImage(VkDevice device, const VkImageCreateInfo *info, const VkAllocationCallbacks *allocator,
                     VkImage *out) {
  Call call(CallId::CreateImage);
  DeviceTable &table = device_table(device);
  VkResult result = table.CreateImage(device, info, allocator, out);
  if (!call.succeeded(result)) return result;
  require_profile(call, *info);
  if (!call.is_good()) return result;
  bool is_linear = info->tiling == VK_IMAGE_TILING_LINEAR;
  call.require(!is_linear || is_tightly_packed(table, *out, *info), "its linear rows aren't tightly packed");
  call.id(device).created(*out, device).word(info->format);
  call.word(info->extent.width).word(info->extent.height).word(info->usage);
  Resource image;
  image.texel = texel_size(info->format);
  image.is_opaque = !is_linear;
  image.is_integer = is_integer(info->format);
  recording().memory.resource(recording().ids.find(*out)) = image;
  return result;
}

void DestroyImage(VkDevice device, VkImage image, const VkAllocationCallbacks *allocator) {
  Call call(CallId::DestroyImage);
  device_table(device).DestroyImage(device, image, allocator);
  end(call, device, image);
}

VkResult BindImageMemory(VkDevice device, VkImage image, VkDeviceMemory memory, VkDeviceSize offset) {
  VkResult result = device_table(device).BindImageMemory(device, image, memory, offset);
  VkBindImageMemoryInfo info = {VK_STRUCTURE_TYPE_BIND_IMAGE_MEMORY_INFO, nullptr, image, memory, offset};
  if (result == VK_SUCCESS) bind_image("vkBindImageMemory", device, info);
  return result;
}

VkResult BindImageMemory2(VkDevice device, uint32_t count, const VkBindImageMemoryInfo *infos) {
  VkResult result = device_table(device).BindImageMemory2(device, count, infos);
  for (uint32_t at = 0; result == VK_SUCCESS && at < count; at++) bind_image("vkBindImageMemory2", device, infos[at]);
  return result;
}

}  // namespace intercept
