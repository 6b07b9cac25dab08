// One thread: writes to mapped memory, fills, updates, copies and clears; layouts, semaphores and fences; memory that a
// buffer and an image share while it is mapped; memory that is freed and allocated again with the same bytes. With the
// word `again` frame 7 gets a new swapchain in place of the old one.
#include "screen.h"

namespace {

constexpr uint32_t FRAMES = 12, NEW_SWAPCHAIN = 7;
constexpr VkExtent2D EXTENT = {100, 60};
constexpr VkImageLayout GENERAL = VK_IMAGE_LAYOUT_GENERAL;

struct Shared {  // a buffer at 0 and an image behind it
  VkBuffer buffer;
  VkImage image;
  VkDeviceMemory memory;
  uint8_t *bytes;
};

Shared make_shared(const Device &device) {
  Shared shared;
  VkMemoryRequirements buffer, image;
  shared.buffer = unbound_buffer(device, 4096, &buffer);
  shared.image = unbound_image(device, {13, 11}, VK_FORMAT_R32_UINT, &image);
  uint64_t behind = (buffer.size + image.alignment - 1) / image.alignment * image.alignment;
  shared.memory = allocate(device, behind + image.size, buffer.memoryTypeBits & image.memoryTypeBits, mappable);
  shared.bytes = map(device, shared.memory);
  memset(shared.bytes, 0x5a, 4096);
  CHECK(vkBindBufferMemory(device.handle, shared.buffer, shared.memory, 0));
  CHECK(vkBindImageMemory(device.handle, shared.image, shared.memory, behind));
  return shared;
}

struct Scene {
  Screen screen = start();
  Device &device = screen.device;
  Window window = make_window(device, EXTENT, VK_FORMAT_R8G8B8A8_UINT);
  Buffer stage = make_buffer(device, EXTENT.width *EXTENT.height * 4), words = make_buffer(device, 16384);
  Image small = make_image(device, {37, 23}, VK_FORMAT_R8_UINT);
  Image large = make_image(device, {50, 30}, VK_FORMAT_R8G8B8A8_UINT);
  Image square = make_image(device, {20, 20}, VK_FORMAT_R32_UINT);
  Shared shared = make_shared(device);
  VkCommandPool pool = make_pool(device);
  VkCommandBuffer commands = make_commands(device, pool);
  VkFence fence = make_fence(device, VK_FENCE_CREATE_SIGNALED_BIT);

  void clear(VkImage image, uint32_t red, uint32_t green, uint32_t blue, uint32_t alpha) {
    VkClearColorValue color;
    color.uint32[0] = red;
    color.uint32[1] = green;
    color.uint32[2] = blue;
    color.uint32[3] = alpha;
    vkCmdClearColorImage(commands, image, GENERAL, &color, 1, &ALL_OF_IMAGE);
  }

  void to_image(VkBuffer source, VkImage target, VkImageLayout layout, const VkBufferImageCopy &copy) {
    vkCmdCopyBufferToImage(commands, source, target, layout, 1, &copy);
    barrier(commands);
  }

  // Memory whose driver may give it the bytes of the frame before, which are then written once more.
  void write_same_bytes() {
    Buffer again = make_buffer(device, 8192);
    memset(again.bytes, 0x77, 8192);
    vkUnmapMemory(device.handle, again.memory);
    VkCommandBuffer once = make_commands(device, pool);
    begin(once, VK_COMMAND_BUFFER_USAGE_ONE_TIME_SUBMIT_BIT);
    VkBufferCopy copy = {64, 128, 1000};
    vkCmdCopyBuffer(once, again.handle, words.handle, 1, &copy);
    barrier(once);
    CHECK(vkEndCommandBuffer(once));
    submit(device, {once}, VK_NULL_HANDLE, VK_NULL_HANDLE, screen.fence);
    wait_and_reset(device, screen.fence);
    vkFreeCommandBuffers(device.handle, pool, 1, &once);
    destroy(device, again);
  }

  void write_mapped(uint32_t frame) {
    for (uint32_t i = 0; i < 500; i++) stage.bytes[(frame * 2371 + i * 13) % stage.size] = frame + i;
    for (uint32_t i = 0; i < 64; i++) shared.bytes[frame * 256 + i * 3 + i % 2] = 200 + frame + i;
  }

  void fill(uint32_t frame) {
    vkCmdFillBuffer(commands, words.handle, 4 * frame, VK_WHOLE_SIZE, 0x01020304 * (frame + 1));
    barrier(commands);
    uint32_t few[16];
    for (uint32_t i = 0; i < 16; i++) few[i] = frame * 1000 + i;
    vkCmdUpdateBuffer(commands, words.handle, 256, sizeof few, few);
    for (VkImage image : {small.handle, large.handle, square.handle})
      change_layout(commands, image, VK_IMAGE_LAYOUT_UNDEFINED, GENERAL);
    clear(small.handle, 17 * frame % 256, 0, 0, 0);
    clear(large.handle, frame, 2 * frame, 3 * frame, 255);
    clear(square.handle, 0xdeadbeef + frame, 0, 0, 0);
    // The shared image keeps its texels from frame to frame; their rows are padded in real memory.
    change_layout(commands, shared.image, frame ? GENERAL : VK_IMAGE_LAYOUT_UNDEFINED, GENERAL);
    if (!frame) clear(shared.image, 0xaabbcc00, 0, 0, 0);
    barrier(commands);
  }

  void copy(uint32_t frame) {
    to_image(words.handle, small.handle, GENERAL, region({2, 3, 30, 20}, 128, 40));
    to_image(shared.buffer, shared.image, GENERAL, region({frame % 5, frame % 3, 8, 4}, 256));
    VkImageCopy of_square = image_region({2, 2, 0}, {10, 5, 0}, {12, 9, 1});
    vkCmdCopyImage(commands, square.handle, GENERAL, large.handle, GENERAL, 1, &of_square);
    barrier(commands);
    VkImageCopy of_shared = image_region({0, 0, 0}, {30, 12, 0}, {13, 11, 1});
    vkCmdCopyImage(commands, shared.image, GENERAL, large.handle, GENERAL, 1, &of_shared);
    auto all = region({0, 0, 37, 23}, 8192);
    vkCmdCopyImageToBuffer(commands, small.handle, GENERAL, words.handle, 1, &all);
    auto rows_with_gaps = region({0, 0, 8, 8}, 1024, 16);
    vkCmdCopyImageToBuffer(commands, square.handle, GENERAL, shared.buffer, 1, &rows_with_gaps);
  }

  void draw() {
    constexpr VkImageLayout WRITTEN = VK_IMAGE_LAYOUT_TRANSFER_DST_OPTIMAL;
    window.to_be_written(commands);
    to_image(stage.handle, window.image(), WRITTEN, region({0, 0, EXTENT.width, EXTENT.height}));
    VkImageCopy of_large = image_region({0, 0, 0}, {5, 5, 0}, {50, 30, 1});
    vkCmdCopyImage(commands, large.handle, GENERAL, window.image(), WRITTEN, 1, &of_large);
    barrier(commands);
    to_image(words.handle, window.image(), WRITTEN, region({60, 10, 16, 16}, 8192));
    to_image(shared.buffer, window.image(), WRITTEN, region({60, 40, 32, 16}, 1024));
  }

  void show(uint32_t frame) {
    wait_and_reset(device, fence);
    write_mapped(frame);
    acquire(device, window, screen.acquired);
    write_same_bytes();
    begin(commands);
    fill(frame);
    copy(frame);
    draw();
    CHECK(vkEndCommandBuffer(commands));
    submit(device, {commands}, screen.acquired, screen.drawn, fence);
    CHECK(vkGetFenceStatus(device.handle, fence));
    present(screen, {&window});
    // In the gaps between the rows that the device wrote.
    for (uint32_t i = 0; i < 8; i++) shared.bytes[1024 + 32 + i * 64 + frame] = frame;
  }

  void replace_swapchain() {
    CHECK(vkDeviceWaitIdle(device.handle));
    VkSwapchainKHR old = window.swapchain;
    make_swapchain(device, window, old);
    vkDestroySwapchainKHR(device.handle, old, nullptr);
  }

  void end() {
    CHECK(vkQueueWaitIdle(device.queue));
    vkDestroyFence(device.handle, fence, nullptr);
    vkDestroyCommandPool(device.handle, pool, nullptr);
    vkDestroyBuffer(device.handle, shared.buffer, nullptr);
    vkDestroyImage(device.handle, shared.image, nullptr);
    vkDestroyImage(device.handle, VK_NULL_HANDLE, nullptr);
    vkFreeMemory(device.handle, shared.memory, nullptr);
    for (auto &image : {small, large, square}) destroy(device, image);
    for (auto &buffer : {stage, words}) destroy(device, buffer);
    finish(screen, {&window});
  }
};

}  // namespace

int main(int count, char **words) {
  bool is_again = count > 1 && !strcmp(words[1], "again");
  Scene scene;
  for (uint32_t frame = 0; frame < FRAMES; frame++) {
    if (is_again && frame + 1 == NEW_SWAPCHAIN) scene.replace_swapchain();
    scene.show(frame);
  }
  scene.end();
}
