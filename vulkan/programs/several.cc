// Two instances one after another. The first has two devices with a swapchain each, the second a device with two
// swapchains, of which each frame presents both.
#include "frames.h"

namespace {

constexpr uint32_t FRAMES = 4;

void write(const Frames &frames, uint32_t seed) {
  for (uint32_t i = 0; i < frames.stage.size; i += 1 + seed % 3) frames.stage.bytes[i] = i * seed + seed;
}

uint64_t show_two_devices() {
  Screen first = start();
  Device other = first.device;
  make_device(other);
  Screen second = make_screen(other);
  Window left = make_window(first.device, {24, 16}, VK_FORMAT_R8G8B8A8_UNORM);
  Window right = make_window(second.device, {10, 33}, VK_FORMAT_R8_UINT);
  Frames of_left(first, left), of_right(second, right);
  for (uint32_t frame = 0; frame < FRAMES; frame++) {
    write(of_left, frame);
    write(of_right, frame + 100);
    of_left.show_all();
    second.frames = first.frames;
    of_right.show_all();
    first.frames = second.frames;
  }
  of_left.end();
  of_right.end();
  destroy(second.device, right);
  destroy_device(second);
  vkDestroySurfaceKHR(second.device.instance, right.surface, nullptr);
  destroy(first.device, left);
  destroy_device(first);
  vkDestroySurfaceKHR(first.device.instance, left.surface, nullptr);
  vkDestroyInstance(first.device.instance, nullptr);
  return first.frames;
}

void draw(Screen &screen, const std::vector<Frames *> &all, VkCommandBuffer commands, VkSemaphore second_acquired) {
  begin(commands, VK_COMMAND_BUFFER_USAGE_ONE_TIME_SUBMIT_BIT);
  for (Frames *frames : all) {
    Window &window = frames->window;
    window.to_be_written(commands);
    auto copy = region({0, 0, window.extent.width, window.extent.height});
    constexpr VkImageLayout WRITTEN = VK_IMAGE_LAYOUT_TRANSFER_DST_OPTIMAL;
    vkCmdCopyBufferToImage(commands, frames->stage.handle, window.image(), WRITTEN, 1, &copy);
  }
  CHECK(vkEndCommandBuffer(commands));
  submit(screen.device, {}, second_acquired, VK_NULL_HANDLE, VK_NULL_HANDLE);
  submit(screen.device, {commands}, screen.acquired, screen.drawn, VK_NULL_HANDLE);
}

void show_two_swapchains(uint64_t shown) {
  Screen screen = start();
  screen.frames = shown;
  Window left = make_window(screen.device, {40, 8}, VK_FORMAT_B8G8R8A8_UNORM);
  Window right = make_window(screen.device, {9, 21}, VK_FORMAT_R32_UINT);
  Frames of_left(screen, left), of_right(screen, right);
  VkSemaphore second_acquired = make_semaphore(screen.device);
  for (uint32_t frame = 0; frame < FRAMES; frame++) {
    write(of_left, frame + 7);
    write(of_right, frame + 50);
    acquire(screen.device, left, screen.acquired);
    acquire(screen.device, right, second_acquired);
    draw(screen, {&of_left, &of_right}, of_left.commands, second_acquired);
    present(screen, {&left, &right});
  }
  of_left.end();
  of_right.end();
  vkDestroySemaphore(screen.device.handle, second_acquired, nullptr);
  finish(screen, {&left, &right});
}

}  // namespace

int main() { show_two_swapchains(show_two_devices()); }
