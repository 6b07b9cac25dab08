// Surfaces, swapchains and presents. A surface of any kind is recorded as headless.
#include <algorithm>

#include "call.h"
#include "formats.h"
#include "headless.h"

namespace {

struct Swapchain {  // one that is recorded
  std::vector<VkImage> images;
  std::vector<bool> is_acquired;
  uint32_t format;
  bool is_fetched;
};

// By their ids; under the mutex of the recording.
auto &swapchains = *new std::unordered_map<uint64_t, Swapchain>;

Swapchain *recorded(VkSwapchainKHR swapchain) {
  auto found = swapchains.find(recording().ids.find(swapchain));
  return found == swapchains.end() ? nullptr : &found->second;
}

VkResult images_of(DeviceTable &table, VkSwapchainKHR swapchain, uint32_t *count, VkImage *out) {
  if (headless::has(swapchain)) return headless::images(swapchain, count, out);
  return table.GetSwapchainImagesKHR(table.device, swapchain, count, out);
}

std::vector<VkImage> images_of(DeviceTable &table, VkSwapchainKHR swapchain) {
  uint32_t count = 0;
  images_of(table, swapchain, &count, nullptr);
  std::vector<VkImage> images(count);
  images_of(table, swapchain, &count, images.data());
  return images;
}

void put_end(Call &call, VkDevice device, VkSwapchainKHR swapchain) {
  swapchains.erase(recording().ids.find(swapchain));
  call.id(device).id(swapchain).ended(swapchain);
}

void put_swapchain(Call &call, DeviceTable &table, const VkSwapchainCreateInfoKHR &info, VkSwapchainKHR swapchain) {
  bool is_known = !info.flags && info.imageArrayLayers == 1 && is_plain(info.pNext);
  call.require(is_known, "the profile lacks its flags, layers or a structure of its pNext chain");
  call.require(info.presentMode <= VK_PRESENT_MODE_FIFO_RELAXED_KHR, "the profile lacks shared present modes");
  call.require(is_known_format(info.imageFormat), lacks_format(info.imageFormat));
  if (!call.is_good()) return;
  auto images = images_of(table, swapchain);
  call.id(table.device).created(swapchain, table.device).id(info.surface).word(images.size());
  call.word(info.imageFormat).word(info.imageExtent.width).word(info.imageExtent.height).word(info.imageUsage);
  std::vector<bool> none_acquired(images.size());
  swapchains[recording().ids.find(swapchain)] = {images, none_acquired, uint32_t(info.imageFormat), false};
}

void put_acquire(Call &call, VkDevice device, const VkAcquireNextImageInfoKHR &info, uint32_t index, VkResult result) {
  if (!call.succeeded(result)) return;
  Swapchain *swapchain = recorded(info.swapchain);
  bool is_none = result == VK_NOT_READY || result == VK_TIMEOUT;
  // In the profile there is none only if all are acquired: one may still be shown here.
  bool all_acquired = swapchain && !std::count(swapchain->is_acquired.begin(), swapchain->is_acquired.end(), false);
  if (is_none && swapchain && !all_acquired) return call.skip();
  call.id(device).id(info.swapchain).id_or_none(info.semaphore).id_or_none(info.fence);
  call.word(is_none ? 0 : index).word(is_none ? 1 : 0);
  if (call.is_good() && !is_none) swapchain->is_acquired[index] = true;
}

VkResult acquire(const char *name, VkDevice device, const VkAcquireNextImageInfoKHR &info, uint32_t *index) {
  DeviceTable &table = device_table(device);
  bool is_own = headless::has(info.swapchain);
  VkResult result = VK_SUCCESS;
  if (!is_own)  // without the mutex, since it may wait for another thread's present
    result = table.AcquireNextImageKHR(device, info.swapchain, info.timeout, info.semaphore, info.fence, index);
  Call call(CallId::AcquireNextImageKHR, name, is_own ? Uses::Queue : Uses::Objects);
  if (is_own) result = headless::acquire(table, info, index);
  bool has_image = result == VK_SUCCESS || result == VK_SUBOPTIMAL_KHR;
  // In the profile the fence is signalled when the call returns.
  if (call && info.fence && has_image) table.WaitForFences(device, 1, &info.fence, VK_TRUE, UINT64_MAX);
  put_acquire(call, device, info, *index, result);
  return result;
}

bool is_out_of_date(VkResult result) {
  return result == VK_ERROR_OUT_OF_DATE_KHR || result == VK_ERROR_SURFACE_LOST_KHR;
}

// A swapchain that is out of date shows nothing, but its semaphores are waited for: then a submit is recorded that
// waits.
void put_present(Call &call, VkQueue queue, const VkPresentInfoKHR &info, const std::vector<VkResult> &results) {
  call.require(is_plain(info.pNext, {VK_STRUCTURE_TYPE_PRESENT_REGIONS_KHR, VK_STRUCTURE_TYPE_PRESENT_TIMES_INFO_GOOGLE,
                                     VK_STRUCTURE_TYPE_PRESENT_ID_KHR}),
               LACKS_CHAIN);
  uint32_t shown = std::count_if(results.begin(), results.end(), [](VkResult result) { return result >= 0; });
  call.id(queue);
  if (!shown) {
    constexpr uint32_t BATCHES = 1, NONE = 0;
    call.word(BATCHES).ids(info.waitSemaphoreCount, info.pWaitSemaphores).word(NONE).word(NONE).size(NONE);
    call.append_as(CallId::QueueSubmit);
    return call.skip();
  }
  call.ids(info.waitSemaphoreCount, info.pWaitSemaphores).word(shown);
  for (uint32_t at = 0; at < info.swapchainCount; at++) {
    if (results[at] < 0) continue;
    call.id(info.pSwapchains[at]).word(info.pImageIndices[at]);
    if (call.is_good()) recorded(info.pSwapchains[at])->is_acquired[info.pImageIndices[at]] = false;
  }
}

}  // namespace

namespace intercept {

VkResult CreateHeadlessSurfaceEXT(VkInstance instance, const VkHeadlessSurfaceCreateInfoEXT *info,
                                  const VkAllocationCallbacks *allocator, VkSurfaceKHR *out) {
  Call call(CallId::CreateHeadlessSurfaceEXT);
  InstanceTable &table = instance_table(instance);
  VkResult result = VK_SUCCESS;
  if (headless::is_wanted(table)) *out = headless::create_surface();
  else result = table.CreateHeadlessSurfaceEXT(instance, info, allocator, out);
  if (call.succeeded(result)) call.id(instance).created(*out, instance);
  return result;
}

void DestroySurfaceKHR(VkInstance instance, VkSurfaceKHR surface, const VkAllocationCallbacks *allocator) {
  Call call(CallId::DestroySurfaceKHR);
  if (headless::has(surface)) headless::destroy(surface);
  else instance_table(instance).DestroySurfaceKHR(instance, surface, allocator);
  if (!surface) call.skip();
  if (call) call.id(instance).id(surface).ended(surface);
}

VkResult CreateSwapchainKHR(VkDevice device, const VkSwapchainCreateInfoKHR *info,
                            const VkAllocationCallbacks *allocator, VkSwapchainKHR *out) {
  bool is_own = headless::has(info->surface);
  Call call(CallId::CreateSwapchainKHR, is_own ? Uses::Queue : Uses::Objects);
  DeviceTable &table = device_table(device);
  VkResult result =
      is_own ? headless::create(table, *info, out) : table.CreateSwapchainKHR(device, info, allocator, out);
  // A surface has one swapchain in the profile, so the old one ends here; what is still used of it ends the recording.
  if (call && info->oldSwapchain && recorded(info->oldSwapchain)) {
    put_end(call, device, info->oldSwapchain);
    call.append_as(CallId::DestroySwapchainKHR);
  }
  if (call.succeeded(result)) put_swapchain(call, table, *info, *out);
  return result;
}

void DestroySwapchainKHR(VkDevice device, VkSwapchainKHR swapchain, const VkAllocationCallbacks *allocator) {
  bool is_own = headless::has(swapchain);
  Call call(CallId::DestroySwapchainKHR, is_own ? Uses::Queue : Uses::Objects);
  if (is_own) headless::destroy(device_table(device), swapchain);
  else device_table(device).DestroySwapchainKHR(device, swapchain, allocator);
  if (!swapchain || (call && !recorded(swapchain))) call.skip();  // one that a newer swapchain ended
  if (call) put_end(call, device, swapchain);
}

VkResult GetSwapchainImagesKHR(VkDevice device, VkSwapchainKHR handle, uint32_t *count, VkImage *out) {
  Call call(CallId::GetSwapchainImagesKHR);
  VkResult result = images_of(device_table(device), handle, count, out);
  Swapchain *swapchain = call ? recorded(handle) : nullptr;
  if (!out || (swapchain && swapchain->is_fetched)) call.skip();
  if (!call.succeeded(result)) return result;
  call.id(device).id(handle);
  if (!call.is_good()) return result;
  call.word(swapchain->images.size());
  for (VkImage each : swapchain->images) {
    call.created(each, handle);
    Resource image;
    image.texel = texel_size(swapchain->format);
    image.is_opaque = true;
    image.is_integer = is_integer(swapchain->format);
    recording().memory.resource(recording().ids.find(each)) = image;
  }
  swapchain->is_fetched = true;
  return result;
}

VkResult AcquireNextImageKHR(VkDevice device, VkSwapchainKHR swapchain, uint64_t timeout, VkSemaphore semaphore,
                             VkFence fence, uint32_t *index) {
  VkAcquireNextImageInfoKHR info = {VK_STRUCTURE_TYPE_ACQUIRE_NEXT_IMAGE_INFO_KHR};
  info.swapchain = swapchain;
  info.timeout = timeout;
  info.semaphore = semaphore;
  info.fence = fence;
  return acquire("vkAcquireNextImageKHR", device, info, index);
}

VkResult AcquireNextImage2KHR(VkDevice device, const VkAcquireNextImageInfoKHR *info, uint32_t *index) {
  return acquire("vkAcquireNextImage2KHR", device, *info, index);
}

VkResult QueuePresentKHR(VkQueue queue, const VkPresentInfoKHR *info) {
  Call call(CallId::QueuePresentKHR, Uses::Queue);
  DeviceTable &table = device_table(queue);
  std::vector<VkResult> results(info->swapchainCount, VK_SUCCESS);
  VkPresentInfoKHR asked = *info;
  asked.pResults = results.data();
  bool is_own = info->swapchainCount && headless::has(info->pSwapchains[0]);
  VkResult result = is_own ? headless::present(table, queue, asked) : table.QueuePresentKHR(queue, &asked);
  if (info->pResults) std::copy(results.begin(), results.end(), info->pResults);
  if (!call) return result;
  call.require(result >= 0 || is_out_of_date(result), "it failed with " + std::to_string(result));
  put_present(call, queue, *info, results);
  return result;
}

}  // namespace intercept

const char *const window_surfaces[WINDOW_KINDS] = {"vkCreateXcbSurfaceKHR",      "vkCreateXlibSurfaceKHR",
                                                   "vkCreateWaylandSurfaceKHR",  "vkCreateDisplayPlaneSurfaceKHR",
                                                   "vkCreateDirectFBSurfaceEXT", "vkCreateScreenSurfaceQNX"};

namespace {

template <int KIND>
VkResult create_window_surface(VkInstance instance, const void *info, const VkAllocationCallbacks *allocator,
                               VkSurfaceKHR *out) {
  Call call(CallId::CreateHeadlessSurfaceEXT, window_surfaces[KIND]);
  VkResult result = instance_table(instance).create_window_surface[KIND](instance, info, allocator, out);
  if (call.succeeded(result)) call.id(instance).created(*out, instance);
  return result;
}

}  // namespace

PFN_vkVoidFunction window_function(const std::string &name) {
  constexpr CreateWindowSurface functions[WINDOW_KINDS] = {create_window_surface<0>, create_window_surface<1>,
                                                           create_window_surface<2>, create_window_surface<3>,
                                                           create_window_surface<4>, create_window_surface<5>};
  for (int kind = 0; kind < WINDOW_KINDS; kind++)
    if (name == window_surfaces[kind]) return reinterpret_cast<PFN_vkVoidFunction>(functions[kind]);
  return nullptr;
}
