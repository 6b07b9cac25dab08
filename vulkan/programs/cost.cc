// Prints how long calls take, in nanoseconds: `cost [MIB]`, MIB being how much memory is mapped. It has no surface, so
// that it runs without the layer, too.
#include <algorithm>
#include <chrono>

#include "commands.h"

namespace {

constexpr int ROUNDS = 9, MANY = 20000, FEW = 100;

template <class Call>
void measure(const char *name, int count, Call call) {
  double least = 1e18;
  for (int round = 0; round < ROUNDS; round++) {
    auto begin = std::chrono::steady_clock::now();
    for (int at = 0; at < count; at++) call(at);
    std::chrono::duration<double, std::nano> taken = std::chrono::steady_clock::now() - begin;
    least = std::min(least, taken.count() / count);
  }
  printf("%-44s %10.0f\n", name, least);
}

void measure_commands(const Device &device, VkCommandBuffer commands, VkBuffer buffer) {
  Image image = make_image(device, {16, 16}, VK_FORMAT_R32_UINT);
  begin(commands);
  measure("vkCmdFillBuffer", MANY, [&](int) { vkCmdFillBuffer(commands, buffer, 0, 64, 7); });
  measure("vkCmdPipelineBarrier", MANY,
          [&](int) { change_layout(commands, image.handle, VK_IMAGE_LAYOUT_UNDEFINED, VK_IMAGE_LAYOUT_GENERAL); });
  CHECK(vkResetCommandBuffer(commands, 0));
  destroy(device, image);
}

void measure_objects(const Device &device) {
  measure("vkCreateFence and vkDestroyFence", MANY,
          [&](int) { vkDestroyFence(device.handle, make_fence(device), nullptr); });
}

void measure_submits(const Device &device, VkCommandBuffer commands, const Buffer &buffer) {
  begin(commands);
  vkCmdFillBuffer(commands, buffer.handle, 0, 64, 7);
  CHECK(vkEndCommandBuffer(commands));
  auto submit_and_wait = [&](int) {
    submit(device, {commands}, VK_NULL_HANDLE, VK_NULL_HANDLE, VK_NULL_HANDLE);
    CHECK(vkQueueWaitIdle(device.queue));
  };
  measure("submit and wait, nothing written", FEW, submit_and_wait);
  measure("submit and wait, 64 KiB written", FEW, [&](int at) {
    memset(buffer.bytes + (1 << 19), at, 1 << 16);
    submit_and_wait(at);
  });
}

}  // namespace

int main(int count, char **words) {
  uint64_t mib = count > 1 ? atoi(words[1]) : 1;
  Device device;
  make_instance(device, VK_API_VERSION_1_0, false);
  make_device(device, nullptr, false);
  Buffer buffer = make_buffer(device, mib << 20);
  memset(buffer.bytes, 1, buffer.size);
  VkCommandPool pool = make_pool(device);
  VkCommandBuffer commands = make_commands(device, pool);
  measure_commands(device, commands, buffer.handle);
  measure_objects(device);
  measure_submits(device, commands, buffer);
  vkDestroyCommandPool(device.handle, pool, nullptr);
  destroy(device, buffer);
  vkDestroyDevice(device.handle, nullptr);
  vkDestroyInstance(device.instance, nullptr);
}
