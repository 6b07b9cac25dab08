// Commands, and submits of them.
#pragma once
#include "objects.h"

constexpr VkImageSubresourceRange ALL_OF_IMAGE = {VK_IMAGE_ASPECT_COLOR_BIT, 0, 1, 0, 1};
constexpr VkImageSubresourceLayers LAYERS = {VK_IMAGE_ASPECT_COLOR_BIT, 0, 0, 1};

inline void begin(VkCommandBuffer commands, VkCommandBufferUsageFlags flags = 0) {
  VkCommandBufferBeginInfo info = {VK_STRUCTURE_TYPE_COMMAND_BUFFER_BEGIN_INFO};
  info.flags = flags;
  CHECK(vkBeginCommandBuffer(commands, &info));
}

inline void barrier(VkCommandBuffer commands, uint32_t count = 0, const VkImageMemoryBarrier *images = nullptr) {
  VkMemoryBarrier all = {VK_STRUCTURE_TYPE_MEMORY_BARRIER};
  all.srcAccessMask = VK_ACCESS_MEMORY_WRITE_BIT;
  all.dstAccessMask = VK_ACCESS_MEMORY_READ_BIT | VK_ACCESS_MEMORY_WRITE_BIT;
  constexpr VkPipelineStageFlags STAGES = VK_PIPELINE_STAGE_ALL_COMMANDS_BIT;
  vkCmdPipelineBarrier(commands, STAGES, STAGES, 0, 1, &all, 0, nullptr, count, images);
}

inline void change_layout(VkCommandBuffer commands, VkImage image, VkImageLayout before, VkImageLayout after) {
  VkImageMemoryBarrier change = {VK_STRUCTURE_TYPE_IMAGE_MEMORY_BARRIER};
  change.srcAccessMask = VK_ACCESS_MEMORY_WRITE_BIT;
  change.dstAccessMask = VK_ACCESS_MEMORY_READ_BIT | VK_ACCESS_MEMORY_WRITE_BIT;
  change.oldLayout = before;
  change.newLayout = after;
  change.srcQueueFamilyIndex = change.dstQueueFamilyIndex = VK_QUEUE_FAMILY_IGNORED;
  change.image = image;
  change.subresourceRange = ALL_OF_IMAGE;
  barrier(commands, 1, &change);
}

struct Area {
  uint32_t x, y, width, height;
};

inline VkBufferImageCopy region(Area area, uint64_t offset = 0, uint32_t row = 0) {
  VkBufferImageCopy copy = {};
  copy.bufferOffset = offset;
  copy.bufferRowLength = row;
  copy.imageSubresource = LAYERS;
  copy.imageOffset = {static_cast<int32_t>(area.x), static_cast<int32_t>(area.y), 0};
  copy.imageExtent = {area.width, area.height, 1};
  return copy;
}

inline VkImageCopy image_region(VkOffset3D from, VkOffset3D to, VkExtent3D extent) {
  return {LAYERS, from, LAYERS, to, extent};
}

inline void submit(const Device &device, const std::vector<VkCommandBuffer> &commands, VkSemaphore wait,
                   VkSemaphore signal, VkFence fence) {
  VkPipelineStageFlags stage = VK_PIPELINE_STAGE_ALL_COMMANDS_BIT;
  VkSubmitInfo info = {VK_STRUCTURE_TYPE_SUBMIT_INFO};
  info.waitSemaphoreCount = wait ? 1 : 0;
  info.pWaitSemaphores = &wait;
  info.pWaitDstStageMask = &stage;
  info.commandBufferCount = commands.size();
  info.pCommandBuffers = commands.data();
  info.signalSemaphoreCount = signal ? 1 : 0;
  info.pSignalSemaphores = &signal;
  CHECK(vkQueueSubmit(device.queue, 1, &info, fence));
}
