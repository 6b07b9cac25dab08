// The second forms of barriers, copies, binds and submits; and lists that are longer than those of a capture: 300
// regions of a copy, 20 batches of a submit, one of them with 100 command buffers.
#include "frames.h"

namespace {

constexpr uint32_t FRAMES = 3, BATCHES = 20, COMMAND_BUFFERS = 100, SIDE = 40, PIECES = 300;
constexpr VkPipelineStageFlags2 STAGES = VK_PIPELINE_STAGE_2_ALL_COMMANDS_BIT;
constexpr VkImageLayout GENERAL = VK_IMAGE_LAYOUT_GENERAL, WRITTEN = VK_IMAGE_LAYOUT_TRANSFER_DST_OPTIMAL;

struct Scene {
  VkPhysicalDeviceSynchronization2Features features = {VK_STRUCTURE_TYPE_PHYSICAL_DEVICE_SYNCHRONIZATION_2_FEATURES,
                                                       nullptr, VK_TRUE};
  Screen screen = start(VK_API_VERSION_1_3, &features);
  Device &device = screen.device;
  Window window = make_window(device, {SIDE, SIDE}, VK_FORMAT_R8G8B8A8_UINT);
  Frames frames = Frames(screen, window);
  Buffer copied = make_buffer(device, frames.stage.size), back = make_buffer(device, frames.stage.size);
  VkMemoryRequirements requirements;
  VkImage first = unbound_image(device, {SIDE, SIDE}, VK_FORMAT_R8G8B8A8_UINT, &requirements);
  VkImage second = unbound_image(device, {SIDE, SIDE}, VK_FORMAT_R8G8B8A8_UINT, &requirements);
  VkDeviceMemory memory = allocate(device, 2 * requirements.size, requirements.memoryTypeBits, 0);
  std::vector<VkCommandBuffer> commands = std::vector<VkCommandBuffer>(BATCHES + COMMAND_BUFFERS);

  Scene() {
    VkBindImageMemoryInfo binds[2] = {
        {VK_STRUCTURE_TYPE_BIND_IMAGE_MEMORY_INFO, nullptr, first, memory, 0},
        {VK_STRUCTURE_TYPE_BIND_IMAGE_MEMORY_INFO, nullptr, second, memory, requirements.size}};
    CHECK(vkBindImageMemory2(device.handle, 2, binds));
    for (auto &each : commands) each = make_commands(device, frames.pool);
  }

  void barrier2(VkCommandBuffer to, VkImage image, VkImageLayout before, VkImageLayout after) {
    VkImageMemoryBarrier2 change = {VK_STRUCTURE_TYPE_IMAGE_MEMORY_BARRIER_2};
    change.srcStageMask = change.dstStageMask = STAGES;
    change.srcAccessMask = VK_ACCESS_2_MEMORY_WRITE_BIT;
    change.dstAccessMask = VK_ACCESS_2_MEMORY_READ_BIT | VK_ACCESS_2_MEMORY_WRITE_BIT;
    change.oldLayout = before;
    change.newLayout = after;
    change.srcQueueFamilyIndex = change.dstQueueFamilyIndex = VK_QUEUE_FAMILY_IGNORED;
    change.image = image;
    change.subresourceRange = ALL_OF_IMAGE;
    VkMemoryBarrier2 all = {
        VK_STRUCTURE_TYPE_MEMORY_BARRIER_2, nullptr, STAGES,
        VK_ACCESS_2_MEMORY_WRITE_BIT,       STAGES,  VK_ACCESS_2_MEMORY_READ_BIT | VK_ACCESS_2_MEMORY_WRITE_BIT};
    VkDependencyInfo info = {VK_STRUCTURE_TYPE_DEPENDENCY_INFO};
    info.memoryBarrierCount = info.imageMemoryBarrierCount = 1;
    info.pMemoryBarriers = &all;
    info.pImageMemoryBarriers = &change;
    vkCmdPipelineBarrier2(to, &info);
  }

  void copy_buffer2(VkCommandBuffer to) {
    std::vector<VkBufferCopy2> pieces(PIECES, {VK_STRUCTURE_TYPE_BUFFER_COPY_2});
    uint64_t size = frames.stage.size / PIECES;
    for (uint32_t at = 0; at < PIECES; at++) {
      pieces[at].srcOffset = at * size;
      pieces[at].dstOffset = (PIECES - 1 - at) * size;
      pieces[at].size = size;
    }
    VkCopyBufferInfo2 info = {
        VK_STRUCTURE_TYPE_COPY_BUFFER_INFO_2, nullptr, frames.stage.handle, copied.handle, PIECES, pieces.data()};
    vkCmdCopyBuffer2(to, &info);
    barrier(to);
  }

  VkBufferImageCopy2 region2() {
    VkBufferImageCopy2 all = {VK_STRUCTURE_TYPE_BUFFER_IMAGE_COPY_2};
    all.imageSubresource = LAYERS;
    all.imageExtent = {SIDE, SIDE, 1};
    return all;
  }

  void copy_images2(VkCommandBuffer to) {
    VkBufferImageCopy2 all = region2();
    VkCopyBufferToImageInfo2 into = {
        VK_STRUCTURE_TYPE_COPY_BUFFER_TO_IMAGE_INFO_2, nullptr, copied.handle, first, GENERAL, 1, &all};
    vkCmdCopyBufferToImage2(to, &into);
    barrier2(to, first, GENERAL, GENERAL);
    VkImageCopy2 part = {VK_STRUCTURE_TYPE_IMAGE_COPY_2, nullptr, LAYERS, {1, 2, 0}, LAYERS, {3, 4, 0}, {30, 31, 1}};
    VkCopyImageInfo2 across = {VK_STRUCTURE_TYPE_COPY_IMAGE_INFO_2, nullptr, first, GENERAL, second, GENERAL, 1, &part};
    vkCmdCopyImage2(to, &across);
    barrier2(to, second, GENERAL, GENERAL);
    VkCopyImageToBufferInfo2 out = {
        VK_STRUCTURE_TYPE_COPY_IMAGE_TO_BUFFER_INFO_2, nullptr, second, GENERAL, back.handle, 1, &all};
    vkCmdCopyImageToBuffer2(to, &out);
    barrier(to);
  }

  // Each command buffer writes a word of its own, in the order in which all are submitted.
  void record(uint32_t frame) {
    for (uint32_t at = 0; at < commands.size(); at++) {
      begin(commands[at]);
      if (at == 0) {
        for (VkImage image : {first, second}) barrier2(commands[0], image, VK_IMAGE_LAYOUT_UNDEFINED, GENERAL);
        VkClearColorValue color = {};
        color.uint32[0] = frame;
        vkCmdClearColorImage(commands[0], second, GENERAL, &color, 1, &ALL_OF_IMAGE);
        barrier(commands[0]);
        copy_buffer2(commands[0]);
        copy_images2(commands[0]);
      }
      vkCmdFillBuffer(commands[at], back.handle, at * 8 % 256, 4, at + frame * 1000);
      barrier(commands[at]);
      CHECK(vkEndCommandBuffer(commands[at]));
    }
  }

  void draw() {
    begin(frames.commands);
    barrier2(frames.commands, window.image(), window.layouts[window.index], WRITTEN);
    auto all = region({0, 0, SIDE, SIDE});
    vkCmdCopyBufferToImage(frames.commands, back.handle, window.image(), WRITTEN, 1, &all);
    CHECK(vkEndCommandBuffer(frames.commands));
  }

  void submit2() {
    std::vector<VkCommandBufferSubmitInfo> infos;
    for (VkCommandBuffer each : commands)
      infos.push_back({VK_STRUCTURE_TYPE_COMMAND_BUFFER_SUBMIT_INFO, nullptr, each});
    infos.push_back({VK_STRUCTURE_TYPE_COMMAND_BUFFER_SUBMIT_INFO, nullptr, frames.commands});
    VkSemaphoreSubmitInfo wait = {VK_STRUCTURE_TYPE_SEMAPHORE_SUBMIT_INFO, nullptr, screen.acquired, 0, STAGES};
    VkSemaphoreSubmitInfo signal = {VK_STRUCTURE_TYPE_SEMAPHORE_SUBMIT_INFO, nullptr, screen.drawn, 0, STAGES};
    std::vector<VkSubmitInfo2> batches(BATCHES, {VK_STRUCTURE_TYPE_SUBMIT_INFO_2});
    for (uint32_t at = 0; at < BATCHES; at++) {
      batches[at].commandBufferInfoCount = 1;
      batches[at].pCommandBufferInfos = &infos[at];
    }
    batches[0].waitSemaphoreInfoCount = 1;
    batches[0].pWaitSemaphoreInfos = &wait;
    batches.back().commandBufferInfoCount = infos.size() - (BATCHES - 1);
    batches.back().signalSemaphoreInfoCount = 1;
    batches.back().pSignalSemaphoreInfos = &signal;
    CHECK(vkQueueSubmit2(device.queue, batches.size(), batches.data(), screen.fence));
    wait_and_reset(device, screen.fence);
  }

  void show(uint32_t frame) {
    for (uint32_t i = 0; i < frames.stage.size; i++) frames.stage.bytes[i] = i * (frame + 3) >> 3;
    acquire(device, window, screen.acquired);
    record(frame);
    draw();
    submit2();
    present(screen, {&window});
  }

  void end() {
    frames.end();
    for (VkImage image : {first, second}) vkDestroyImage(device.handle, image, nullptr);
    vkFreeMemory(device.handle, memory, nullptr);
    for (auto &buffer : {copied, back}) destroy(device, buffer);
    finish(screen, {&window});
  }
};

}  // namespace

int main() {
  Scene scene;
  for (uint32_t frame = 0; frame < FRAMES; frame++) scene.show(frame);
  scene.end();
}
