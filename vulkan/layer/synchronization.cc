// Fences and semaphores.
#include "call.h"
#include "formats.h"

namespace intercept {

VkResult CreateFence(VkDevice device, const VkFenceCreateInfo *info, const VkAllocationCallbacks *allocator,
                     VkFence *out) {
  Call call(CallId::CreateFence);
  VkResult result = device_table(device).CreateFence(device, info, allocator, out);
  if (!call.succeeded(result)) return result;
  call.require(is_plain(info->pNext), LACKS_CHAIN).id(device).created(*out, device).word(info->flags);
  return result;
}

void DestroyFence(VkDevice device, VkFence fence, const VkAllocationCallbacks *allocator) {
  Call call(CallId::DestroyFence);
  device_table(device).DestroyFence(device, fence, allocator);
  if (!fence) call.skip();
  if (call) call.id(device).id(fence).ended(fence);
}

VkResult ResetFences(VkDevice device, uint32_t count, const VkFence *fences) {
  Call call(CallId::ResetFences);
  VkResult result = device_table(device).ResetFences(device, count, fences);
  if (call.succeeded(result)) call.id(device).ids(count, fences);
  return result;
}

// The wait is without the mutex, since another thread may have to signal. Each submit is complete when it returns, so
// the driver's fences stand as those of the capture whenever the mutex is free: a second wait under it gives the answer
// that is recorded, and that the program gets.
VkResult WaitForFences(VkDevice device, uint32_t count, const VkFence *fences, VkBool32 all, uint64_t timeout) {
  DeviceTable &table = device_table(device);
  VkResult result = table.WaitForFences(device, count, fences, all, timeout);
  Call call(CallId::WaitForFences);
  if (!call.succeeded(result)) return result;
  VkResult now = table.WaitForFences(device, count, fences, all, 0);
  bool was_reset = result == VK_SUCCESS && now != VK_SUCCESS;
  if (now < 0 || was_reset) call.skip();
  else call.id(device).ids(count, fences).word(all ? 1 : 0).word(result = now);
  return result;
}

VkResult GetFenceStatus(VkDevice device, VkFence fence) {
  Call call(CallId::GetFenceStatus);
  VkResult result = device_table(device).GetFenceStatus(device, fence);
  if (call.succeeded(result)) call.id(device).id(fence).word(result);
  return result;
}

VkResult CreateSemaphore(VkDevice device, const VkSemaphoreCreateInfo *info, const VkAllocationCallbacks *allocator,
                         VkSemaphore *out) {
  Call call(CallId::CreateSemaphore);
  VkResult result = device_table(device).CreateSemaphore(device, info, allocator, out);
  if (!call.succeeded(result)) return result;
  call.require(is_plain(info->pNext), LACKS_CHAIN).id(device).created(*out, device);
  return result;
}

void DestroySemaphore(VkDevice device, VkSemaphore semaphore, const VkAllocationCallbacks *allocator) {
  Call call(CallId::DestroySemaphore);
  device_table(device).DestroySemaphore(device, semaphore, allocator);
  if (!semaphore) call.skip();
  if (call) call.id(device).id(semaphore).ended(semaphore);
}

}  // namespace intercept
