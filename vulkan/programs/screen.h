// A swapchain on a headless surface, and presents whose images are read back and printed as `gfxcap replay` prints
// them.
#pragma once
#include <functional>

#include "commands.h"
#include "sha256.h"

inline const char *name_of(VkFormat format) {
  switch (format) {
    case VK_FORMAT_R8_UINT:
      return "R8_UINT";
    case VK_FORMAT_R8G8B8A8_UNORM:
      return "R8G8B8A8_UNORM";
    case VK_FORMAT_R8G8B8A8_UINT:
      return "R8G8B8A8_UINT";
    case VK_FORMAT_B8G8R8A8_UNORM:
      return "B8G8R8A8_UNORM";
    default:
      return "R32_UINT";
  }
}

struct Window {
  VkExtent2D extent;
  VkFormat format;
  VkSurfaceKHR surface;
  VkSwapchainKHR swapchain;
  std::vector<VkImage> images;
  std::vector<VkImageLayout> layouts;
  uint32_t index;  // of the image that is acquired
  Buffer read_back;

  VkImage image() const { return images[index]; }
  // The layout of the acquired image, which the caller changes to TRANSFER_DST_OPTIMAL.
  void to_be_written(VkCommandBuffer commands) const {
    change_layout(commands, image(), layouts[index], VK_IMAGE_LAYOUT_TRANSFER_DST_OPTIMAL);
  }
};

inline void make_swapchain(const Device &device, Window &window, VkSwapchainKHR old = VK_NULL_HANDLE) {
  VkSwapchainCreateInfoKHR info = {VK_STRUCTURE_TYPE_SWAPCHAIN_CREATE_INFO_KHR};
  info.surface = window.surface;
  info.minImageCount = 2;
  info.imageFormat = window.format;
  info.imageExtent = window.extent;
  info.imageArrayLayers = 1;
  info.imageUsage = IMAGE_USAGE;
  info.preTransform = VK_SURFACE_TRANSFORM_IDENTITY_BIT_KHR;
  info.compositeAlpha = VK_COMPOSITE_ALPHA_OPAQUE_BIT_KHR;
  info.presentMode = VK_PRESENT_MODE_FIFO_KHR;
  info.oldSwapchain = old;
  CHECK(vkCreateSwapchainKHR(device.handle, &info, nullptr, &window.swapchain));
  uint32_t count = 0;
  CHECK(vkGetSwapchainImagesKHR(device.handle, window.swapchain, &count, nullptr));
  window.images.resize(count);
  CHECK(vkGetSwapchainImagesKHR(device.handle, window.swapchain, &count, window.images.data()));
  window.layouts.assign(count, VK_IMAGE_LAYOUT_UNDEFINED);
}

// Asks for what a program has to know of a surface before it makes a swapchain.
inline void ask_surface(const Device &device, VkSurfaceKHR surface) {
  VkBool32 is_supported;
  CHECK(vkGetPhysicalDeviceSurfaceSupportKHR(device.physical, 0, surface, &is_supported));
  VkSurfaceCapabilitiesKHR capabilities;
  CHECK(vkGetPhysicalDeviceSurfaceCapabilitiesKHR(device.physical, surface, &capabilities));
  uint32_t count = 0;
  CHECK(vkGetPhysicalDeviceSurfaceFormatsKHR(device.physical, surface, &count, nullptr));
  std::vector<VkSurfaceFormatKHR> formats(count);
  CHECK(vkGetPhysicalDeviceSurfaceFormatsKHR(device.physical, surface, &count, formats.data()));
  CHECK(vkGetPhysicalDeviceSurfacePresentModesKHR(device.physical, surface, &count, nullptr));
  std::vector<VkPresentModeKHR> modes(count);
  CHECK(vkGetPhysicalDeviceSurfacePresentModesKHR(device.physical, surface, &count, modes.data()));
}

inline Window make_window(const Device &device, VkExtent2D extent, VkFormat format) {
  Window window = {extent, format};
  VkHeadlessSurfaceCreateInfoEXT info = {VK_STRUCTURE_TYPE_HEADLESS_SURFACE_CREATE_INFO_EXT};
  auto make = reinterpret_cast<PFN_vkCreateHeadlessSurfaceEXT>(
      vkGetInstanceProcAddr(device.instance, "vkCreateHeadlessSurfaceEXT"));
  CHECK(make(device.instance, &info, nullptr, &window.surface));
  ask_surface(device, window.surface);
  make_swapchain(device, window);
  window.read_back = make_buffer(device, uint64_t(extent.width) * extent.height * texel_size(format));
  return window;
}

inline void acquire(const Device &device, Window &window, VkSemaphore semaphore, VkFence fence = VK_NULL_HANDLE) {
  CHECK(vkAcquireNextImageKHR(device.handle, window.swapchain, UINT64_MAX, semaphore, fence, &window.index));
}

// A device, what presents, and how many frames it presented.
struct Screen {
  Device device;
  VkCommandPool pool;
  VkCommandBuffer commands;
  VkFence fence;
  VkSemaphore acquired, drawn, read;
  uint64_t frames = 0;
};

inline Screen make_screen(const Device &device) {
  Screen screen = {device, make_pool(device)};
  screen.commands = make_commands(device, screen.pool);
  screen.fence = make_fence(device);
  for (VkSemaphore *semaphore : {&screen.acquired, &screen.drawn, &screen.read}) *semaphore = make_semaphore(device);
  return screen;
}

inline Screen start(uint32_t version = VK_API_VERSION_1_0, const void *features = nullptr) {
  Device device;
  make_instance(device, version);
  make_device(device, features);
  return make_screen(device);
}

inline void print(const Screen &screen, const std::vector<Window *> &windows) {
  for (size_t at = 0; at < windows.size(); at++) {
    auto &window = *windows[at];
    printf("frame %llu.%zu %ux%u %s %s\n", static_cast<unsigned long long>(screen.frames), at + 1, window.extent.width,
           window.extent.height, name_of(window.format),
           Sha256::of(window.read_back.bytes, window.read_back.size).c_str());
  }
}

// What has to be done before memory is read that isn't coherent.
inline std::function<void()> before_reading = [] {};

// Reads the acquired images, which are in TRANSFER_DST_OPTIMAL, once `drawn` is signalled; presents and prints them.
inline void present(Screen &screen, const std::vector<Window *> &windows) {
  begin(screen.commands, VK_COMMAND_BUFFER_USAGE_ONE_TIME_SUBMIT_BIT);
  std::vector<VkSwapchainKHR> swapchains;
  std::vector<uint32_t> indices;
  for (Window *window : windows) {
    constexpr VkImageLayout WRITTEN = VK_IMAGE_LAYOUT_TRANSFER_DST_OPTIMAL, READ = VK_IMAGE_LAYOUT_TRANSFER_SRC_OPTIMAL;
    change_layout(screen.commands, window->image(), WRITTEN, READ);
    auto all = region({0, 0, window->extent.width, window->extent.height});
    vkCmdCopyImageToBuffer(screen.commands, window->image(), READ, window->read_back.handle, 1, &all);
    change_layout(screen.commands, window->image(), READ, VK_IMAGE_LAYOUT_PRESENT_SRC_KHR);
    window->layouts[window->index] = VK_IMAGE_LAYOUT_PRESENT_SRC_KHR;
    swapchains.push_back(window->swapchain);
    indices.push_back(window->index);
  }
  CHECK(vkEndCommandBuffer(screen.commands));
  submit(screen.device, {screen.commands}, screen.drawn, screen.read, screen.fence);
  wait_and_reset(screen.device, screen.fence);
  VkPresentInfoKHR info = {VK_STRUCTURE_TYPE_PRESENT_INFO_KHR};
  info.waitSemaphoreCount = 1;
  info.pWaitSemaphores = &screen.read;
  info.swapchainCount = windows.size();
  info.pSwapchains = swapchains.data();
  info.pImageIndices = indices.data();
  CHECK(vkQueuePresentKHR(screen.device.queue, &info));
  screen.frames++;
  before_reading();
  print(screen, windows);
}

inline void destroy(const Device &device, const Window &window) {
  destroy(device, window.read_back);
  vkDestroySwapchainKHR(device.handle, window.swapchain, nullptr);
}

inline void destroy_device(const Screen &screen) {
  VkDevice device = screen.device.handle;
  for (VkSemaphore semaphore : {screen.acquired, screen.drawn, screen.read})
    vkDestroySemaphore(device, semaphore, nullptr);
  vkDestroyFence(device, screen.fence, nullptr);
  vkDestroyCommandPool(device, screen.pool, nullptr);
  vkDestroyDevice(device, nullptr);
}

inline void finish(const Screen &screen, const std::vector<Window *> &windows) {
  CHECK(vkDeviceWaitIdle(screen.device.handle));
  for (Window *window : windows) destroy(screen.device, *window);
  destroy_device(screen);
  for (Window *window : windows) vkDestroySurfaceKHR(screen.device.instance, window->surface, nullptr);
  vkDestroyInstance(screen.device.instance, nullptr);
  printf("frames %llu\n", static_cast<unsigned long long>(screen.frames));
}
