// Command pools and command buffers.
#include "call.h"
#include "formats.h"

namespace intercept {

VkResult CreateCommandPool(VkDevice device, const VkCommandPoolCreateInfo *info, const VkAllocationCallbacks *allocator,
                           VkCommandPool *out) {
  Call call(CallId::CreateCommandPool);
  VkResult result = device_table(device).CreateCommandPool(device, info, allocator, out);
  if (!call.succeeded(result)) return result;
  call.require(is_plain(info->pNext), LACKS_CHAIN).id(device).created(*out, device).word(info->flags);
  return result;
}

void DestroyCommandPool(VkDevice device, VkCommandPool pool, const VkAllocationCallbacks *allocator) {
  Call call(CallId::DestroyCommandPool);
  device_table(device).DestroyCommandPool(device, pool, allocator);
  if (!pool) call.skip();
  if (call) call.id(device).id(pool).ended(pool);
}

VkResult ResetCommandPool(VkDevice device, VkCommandPool pool, VkCommandPoolResetFlags flags) {
  Call call(CallId::ResetCommandPool);
  VkResult result = device_table(device).ResetCommandPool(device, pool, flags);
  if (call.succeeded(result)) call.id(device).id(pool);
  return result;
}

VkResult AllocateCommandBuffers(VkDevice device, const VkCommandBufferAllocateInfo *info, VkCommandBuffer *out) {
  Call call(CallId::AllocateCommandBuffers);
  VkResult result = device_table(device).AllocateCommandBuffers(device, info, out);
  if (!call.succeeded(result)) return result;
  bool is_primary = info->level == VK_COMMAND_BUFFER_LEVEL_PRIMARY;
  call.require(is_primary, "the profile lacks secondary command buffers");
  call.id(device).id(info->commandPool).word(info->commandBufferCount);
  for (uint32_t at = 0; at < info->commandBufferCount; at++) call.created(out[at], info->commandPool);
  return result;
}

void FreeCommandBuffers(VkDevice device, VkCommandPool pool, uint32_t count, const VkCommandBuffer *buffers) {
  Call call(CallId::FreeCommandBuffers);
  device_table(device).FreeCommandBuffers(device, pool, count, buffers);
  if (!call) return;
  std::vector<VkCommandBuffer> freed;
  for (uint32_t at = 0; at < count; at++)
    if (buffers[at]) freed.push_back(buffers[at]);
  if (freed.empty()) return call.skip();
  call.id(device).id(pool).ids(freed);
  for (VkCommandBuffer buffer : freed) {
    recording().memory.freed_commands(recording().ids.find(buffer));
    call.ended(buffer);
  }
}

// A command buffer is one thread's while it is recorded, so the driver's call needs no lock.
VkResult BeginCommandBuffer(VkCommandBuffer buffer, const VkCommandBufferBeginInfo *info) {
  VkResult result = device_table(buffer).BeginCommandBuffer(buffer, info);
  Call call(CallId::BeginCommandBuffer);
  if (!call.succeeded(result)) return result;
  call.require(is_plain(info->pNext), LACKS_CHAIN).id(buffer).word(info->flags);
  if (call.is_good()) recording().memory.begun(recording().ids.find(buffer));
  return result;
}

VkResult EndCommandBuffer(VkCommandBuffer buffer) {
  VkResult result = device_table(buffer).EndCommandBuffer(buffer);
  Call call(CallId::EndCommandBuffer);
  if (call) call.require(result >= 0, "it failed, which leaves the command buffer invalid").id(buffer);
  return result;
}

VkResult ResetCommandBuffer(VkCommandBuffer buffer, VkCommandBufferResetFlags flags) {
  VkResult result = device_table(buffer).ResetCommandBuffer(buffer, flags);
  Call call(CallId::ResetCommandBuffer);
  if (call.succeeded(result)) call.id(buffer);
  return result;
}

}  // namespace intercept
