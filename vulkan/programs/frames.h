// Frames whose image is copied from a mapped buffer.
#pragma once
#include "screen.h"

struct Frames {
  Screen &screen;
  Window &window;
  Buffer stage = make_buffer(screen.device, window.read_back.size);
  VkCommandPool pool = make_pool(screen.device);
  VkCommandBuffer commands = make_commands(screen.device, pool);

  Frames(Screen &screen, Window &window) : screen(screen), window(window) {}

  void show(const VkBufferImageCopy &copy) {
    acquire(screen.device, window, screen.acquired);
    begin(commands, VK_COMMAND_BUFFER_USAGE_ONE_TIME_SUBMIT_BIT);
    window.to_be_written(commands);
    constexpr VkImageLayout WRITTEN = VK_IMAGE_LAYOUT_TRANSFER_DST_OPTIMAL;
    vkCmdCopyBufferToImage(commands, stage.handle, window.image(), WRITTEN, 1, &copy);
    CHECK(vkEndCommandBuffer(commands));
    submit(screen.device, {commands}, screen.acquired, screen.drawn, VK_NULL_HANDLE);
    present(screen, {&window});
  }

  void show_all() { show(region({0, 0, window.extent.width, window.extent.height})); }

  void end() {
    CHECK(vkDeviceWaitIdle(screen.device.handle));
    vkDestroyCommandPool(screen.device.handle, pool, nullptr);
    destroy(screen.device, stage);
  }
};
