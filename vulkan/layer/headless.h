// Surfaces and swapchains of the layer's own, for VK_EXT_headless_surface: the images are plain, and a present shows
// nothing. They stand in where the driver has no such surface, or where GFXCAP_HEADLESS is 1.
#pragma once
#include "dispatch.h"

namespace headless {

bool is_used();  // whether there ever was a swapchain of the layer's own
bool is_wanted(const InstanceTable &table);
bool has(VkSurfaceKHR surface);
bool has(VkSwapchainKHR swapchain);

VkSurfaceKHR create_surface();
void destroy(VkSurfaceKHR surface);

// These may use a queue, and are called under the mutex of the recording.
VkResult create(DeviceTable &table, const VkSwapchainCreateInfoKHR &info, VkSwapchainKHR *out);
void destroy(DeviceTable &table, VkSwapchainKHR swapchain);
VkResult images(VkSwapchainKHR swapchain, uint32_t *count, VkImage *out);
VkResult acquire(DeviceTable &table, const VkAcquireNextImageInfoKHR &info, uint32_t *index);
VkResult present(DeviceTable &table, VkQueue queue, const VkPresentInfoKHR &info);

}  // namespace headless
