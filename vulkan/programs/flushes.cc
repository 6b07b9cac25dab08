// Memory that isn't coherent, under layers/incoherent.cc: what is written is flushed, and what the device wrote is
// invalidated before it is read. A part of what is written comes from what the device wrote.
#include "frames.h"

namespace {

constexpr uint32_t FRAMES = 8;

VkMappedMemoryRange whole(const Buffer &buffer) {
  return {VK_STRUCTURE_TYPE_MAPPED_MEMORY_RANGE, nullptr, buffer.memory, 0, VK_WHOLE_SIZE};
}

void flush(const Device &device, const Buffer &buffer) {
  VkMappedMemoryRange range = whole(buffer);
  CHECK(vkFlushMappedMemoryRanges(device.handle, 1, &range));
}

void invalidate(const Device &device, const Buffer &buffer) {
  VkMappedMemoryRange range = whole(buffer);
  CHECK(vkInvalidateMappedMemoryRanges(device.handle, 1, &range));
}

// The device fills a stretch of the buffer, and the program writes some of these bytes elsewhere.
void write_from_device(const Screen &screen, const Buffer &buffer, uint32_t frame) {
  VkCommandBuffer commands = make_commands(screen.device, screen.pool);
  begin(commands, VK_COMMAND_BUFFER_USAGE_ONE_TIME_SUBMIT_BIT);
  vkCmdFillBuffer(commands, buffer.handle, 512, 256, 0x01010101 * (frame + 1));
  barrier(commands);
  CHECK(vkEndCommandBuffer(commands));
  submit(screen.device, {commands}, VK_NULL_HANDLE, VK_NULL_HANDLE, screen.fence);
  wait_and_reset(screen.device, screen.fence);
  vkFreeCommandBuffers(screen.device.handle, screen.pool, 1, &commands);
  invalidate(screen.device, buffer);
  memcpy(buffer.bytes + 1024 + frame * 16, buffer.bytes + 600, 16);
}

}  // namespace

int main() {
  mappable = VK_MEMORY_PROPERTY_HOST_VISIBLE_BIT;
  Screen screen = start();
  Window window = make_window(screen.device, {40, 30}, VK_FORMAT_R8G8B8A8_UNORM);
  Frames frames(screen, window);
  before_reading = [&] { invalidate(screen.device, window.read_back); };
  for (uint32_t frame = 0; frame < FRAMES; frame++) {
    for (uint32_t i = frame; i < frames.stage.size; i += 3 + frame) frames.stage.bytes[i] = i * 7 + frame;
    flush(screen.device, frames.stage);
    write_from_device(screen, frames.stage, frame);
    flush(screen.device, frames.stage);
    frames.show_all();
  }
  frames.end();
  finish(screen, {&window});
}
