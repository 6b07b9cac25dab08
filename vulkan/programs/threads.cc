// Four threads record at once, each into buffers of its own pool and from memory of its own; a fifth submits all that
// they recorded, and presents. Two of the four also submit, under a lock on the queue, while the others write.
#include <condition_variable>
#include <mutex>
#include <thread>

#include "screen.h"

namespace {

constexpr uint32_t WORKERS = 4, FRAMES = 40, STRIP = 16;
constexpr VkExtent2D EXTENT = {64, STRIP *WORKERS};

struct Meeting {  // where the workers wait for a frame, and the presenter for their command buffers
  std::mutex mutex;
  std::condition_variable changed;
  uint32_t frame = 0, ready = 0;
  VkCommandBuffer recorded[WORKERS];

  void begin(uint32_t next) {
    std::lock_guard<std::mutex> lock(mutex);
    frame = next;
    ready = 0;
    changed.notify_all();
  }
  void wait_for_frame(uint32_t next) {
    std::unique_lock<std::mutex> lock(mutex);
    changed.wait(lock, [&] { return frame >= next; });
  }
  void give(uint32_t worker, VkCommandBuffer commands) {
    std::lock_guard<std::mutex> lock(mutex);
    recorded[worker] = commands;
    ready++;
    changed.notify_all();
  }
  void wait_for_workers() {
    std::unique_lock<std::mutex> lock(mutex);
    changed.wait(lock, [&] { return ready == WORKERS; });
  }
};

Screen screen;
Window window;
Meeting meeting;
std::mutex queue;

struct Worker {
  uint32_t number;
  bool submits = number < 2;  // what it wrote, copied to a second buffer
  Device &device = screen.device;
  Buffer written = make_buffer(device, EXTENT.width *STRIP * 4), copied = make_buffer(device, written.size);
  VkCommandPool pool = make_pool(device);
  VkCommandBuffer strips[2] = {make_commands(device, pool), make_commands(device, pool)};
  VkCommandBuffer copies = make_commands(device, pool);
  VkFence fence = make_fence(device);

  explicit Worker(uint32_t number) : number(number) {}

  void copy() {
    begin(copies, VK_COMMAND_BUFFER_USAGE_ONE_TIME_SUBMIT_BIT);
    VkBufferCopy all = {0, 0, written.size};
    vkCmdCopyBuffer(copies, written.handle, copied.handle, 1, &all);
    barrier(copies);
    CHECK(vkEndCommandBuffer(copies));
    {
      std::lock_guard<std::mutex> lock(queue);
      submit(device, {copies}, VK_NULL_HANDLE, VK_NULL_HANDLE, fence);
    }
    wait_and_reset(device, fence);
  }

  void draw(VkCommandBuffer commands) {
    begin(commands);
    auto strip = region({0, number * STRIP, EXTENT.width, STRIP});
    VkBuffer source = submits ? copied.handle : written.handle;
    vkCmdCopyBufferToImage(commands, source, window.image(), VK_IMAGE_LAYOUT_TRANSFER_DST_OPTIMAL, 1, &strip);
    barrier(commands);
    CHECK(vkEndCommandBuffer(commands));
  }

  void work() {
    for (uint32_t frame = 1; frame <= FRAMES; frame++) {
      meeting.wait_for_frame(frame);
      for (uint32_t i = 0; i < written.size; i += 1 + (number + frame) % 5) written.bytes[i] = number * 50 + frame + i;
      if (submits) copy();
      draw(strips[frame % 2]);
      meeting.give(number, strips[frame % 2]);
    }
    meeting.wait_for_frame(FRAMES + 1);
    vkDestroyFence(device.handle, fence, nullptr);
    vkDestroyCommandPool(device.handle, pool, nullptr);
    destroy(device, written);
    destroy(device, copied);
  }
};

void show(VkCommandBuffer first, uint32_t frame) {
  acquire(screen.device, window, screen.acquired);
  begin(first);
  window.to_be_written(first);
  CHECK(vkEndCommandBuffer(first));
  meeting.begin(frame);
  meeting.wait_for_workers();
  std::vector<VkCommandBuffer> all = {first};
  all.insert(all.end(), meeting.recorded, meeting.recorded + WORKERS);
  std::lock_guard<std::mutex> lock(queue);
  submit(screen.device, all, screen.acquired, screen.drawn, VK_NULL_HANDLE);
  present(screen, {&window});
}

}  // namespace

int main() {
  screen = start();
  window = make_window(screen.device, EXTENT, VK_FORMAT_R8G8B8A8_UNORM);
  VkCommandPool pool = make_pool(screen.device);
  VkCommandBuffer first = make_commands(screen.device, pool);
  std::vector<std::thread> threads;
  for (uint32_t number = 0; number < WORKERS; number++) threads.emplace_back([=] { Worker(number).work(); });
  for (uint32_t frame = 1; frame <= FRAMES; frame++) show(first, frame);
  meeting.begin(FRAMES + 1);
  for (auto &thread : threads) thread.join();
  CHECK(vkDeviceWaitIdle(screen.device.handle));
  vkDestroyCommandPool(screen.device.handle, pool, nullptr);
  finish(screen, {&window});
}
