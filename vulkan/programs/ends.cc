// Three frames, then something that ends a recording, and three frames more: `ends CASE`. CASE is
//   draws   a render pass is made, which the profile lacks
//   format  an image has a format that the profile lacks
//   twice   a command buffer is in a submit twice, which a rule of the profile forbids
//   leaks   a semaphore is still there when the device is destroyed, which is another
//   killed  the process is killed, with a frame begun
#include <csignal>

#include "frames.h"

namespace {

void make_render_pass(const Device &device) {
  VkSubpassDescription subpass = {};
  VkRenderPassCreateInfo info = {VK_STRUCTURE_TYPE_RENDER_PASS_CREATE_INFO};
  info.subpassCount = 1;
  info.pSubpasses = &subpass;
  VkRenderPass pass;
  CHECK(vkCreateRenderPass(device.handle, &info, nullptr, &pass));
  vkDestroyRenderPass(device.handle, pass, nullptr);
}

void submit_twice(const Screen &screen) {
  VkCommandBuffer commands = make_commands(screen.device, screen.pool);
  begin(commands, VK_COMMAND_BUFFER_USAGE_SIMULTANEOUS_USE_BIT);
  CHECK(vkEndCommandBuffer(commands));
  submit(screen.device, {commands, commands}, VK_NULL_HANDLE, VK_NULL_HANDLE, VK_NULL_HANDLE);
  CHECK(vkQueueWaitIdle(screen.device.queue));
}

void end_by(const std::string &how, const Screen &screen, Window &window) {
  if (how == "draws") return make_render_pass(screen.device);
  if (how == "format") return destroy(screen.device, make_image(screen.device, {8, 8}, VK_FORMAT_R16_UINT));
  if (how == "twice") return submit_twice(screen);
  if (how == "leaks") return static_cast<void>(make_semaphore(screen.device));
  acquire(screen.device, window, screen.acquired);
  fflush(stdout);
  raise(SIGKILL);
}

}  // namespace

int main(int count, char **words) {
  if (count != 2) return fputs("usage: ends draws|format|twice|leaks|killed\n", stderr), 2;
  Screen screen = start();
  Window window = make_window(screen.device, {32, 32}, VK_FORMAT_R8G8B8A8_UNORM);
  Frames frames(screen, window);
  for (uint32_t frame = 0; frame < 6; frame++) {
    if (frame == 3) end_by(words[1], screen, window);
    for (uint32_t i = 0; i < frames.stage.size; i++) frames.stage.bytes[i] = i * (frame + 1);
    frames.show_all();
  }
  frames.end();
  finish(screen, {&window});
}
