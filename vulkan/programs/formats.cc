// Frames of one format: `formats FORMAT`, FORMAT being Vulkan's number. Some frames write a part of the image alone.
#include "frames.h"

int main(int count, char **words) {
  constexpr uint32_t FRAMES = 20, WRITES = 4000;
  auto format = static_cast<VkFormat>(count > 1 ? atoi(words[1]) : VK_FORMAT_B8G8R8A8_UNORM);
  Screen screen = start();
  Window window = make_window(screen.device, {61, 47}, format);
  Frames frames(screen, window);
  uint32_t random = 12345;
  for (uint32_t frame = 0; frame < FRAMES; frame++) {
    for (uint32_t i = 0; i < WRITES; i++) {
      random = random * 1664525 + 1013904223;
      frames.stage.bytes[(random >> 8) % frames.stage.size] = random >> 24;
    }
    if (frame > 2 && frame % 3) frames.show(region({frame, frame, 20, 20}, 64, 30));
    else frames.show_all();
  }
  frames.end();
  finish(screen, {&window});
}
