// Queues: submits and waits. A submit is waited for, since one of the profile is complete when its call is.
#include <algorithm>

#include "call.h"
#include "formats.h"

namespace {

constexpr size_t MOST_BATCHES = 16, MOST_SEMAPHORES = 16, MOST_COMMAND_BUFFERS = 64;  // of a QueueSubmit

struct Batch {
  std::vector<VkSemaphore> waits;
  std::vector<VkCommandBuffer> commands;
  std::vector<VkSemaphore> signals;
};

struct Submission {
  std::vector<Batch> batches;
  bool is_plain = true;
};

// Moves items, and tells whether none is left.
template <class Handle>
bool move_up_to(size_t most, std::vector<Handle> &to, const std::vector<Handle> &from, size_t &next) {
  size_t end = std::min(from.size(), next + most);
  to.assign(from.begin() + next, from.begin() + end);
  next = end;
  return next == from.size();
}

// Batches that mean the same one after another, each within what the profile takes.
void add_pieces(std::vector<Batch> &pieces, const Batch &whole) {
  size_t wait = 0, command = 0, signal = 0;
  bool is_done;
  do {
    Batch piece;
    is_done = move_up_to(MOST_SEMAPHORES, piece.waits, whole.waits, wait) &&
              move_up_to(MOST_COMMAND_BUFFERS, piece.commands, whole.commands, command) &&
              move_up_to(MOST_SEMAPHORES, piece.signals, whole.signals, signal);
    pieces.push_back(piece);
  } while (!is_done);
}

Submission submission_of(uint32_t count, const VkSubmitInfo *infos) {
  Submission all;
  for (auto *info = infos; info < infos + count; info++) {
    all.is_plain &= is_plain(info->pNext);
    Batch batch;
    batch.waits.assign(info->pWaitSemaphores, info->pWaitSemaphores + info->waitSemaphoreCount);
    batch.commands.assign(info->pCommandBuffers, info->pCommandBuffers + info->commandBufferCount);
    batch.signals.assign(info->pSignalSemaphores, info->pSignalSemaphores + info->signalSemaphoreCount);
    add_pieces(all.batches, batch);
  }
  return all;
}

void add_semaphores(Submission &all, std::vector<VkSemaphore> &to, uint32_t count, const VkSemaphoreSubmitInfo *infos) {
  for (auto *info = infos; info < infos + count; info++) {
    all.is_plain &= is_plain(info->pNext);
    to.push_back(info->semaphore);
  }
}

Submission submission_of(uint32_t count, const VkSubmitInfo2 *infos) {
  Submission all;
  for (auto *info = infos; info < infos + count; info++) {
    all.is_plain &= is_plain(info->pNext) && !info->flags;
    Batch batch;
    add_semaphores(all, batch.waits, info->waitSemaphoreInfoCount, info->pWaitSemaphoreInfos);
    add_semaphores(all, batch.signals, info->signalSemaphoreInfoCount, info->pSignalSemaphoreInfos);
    for (uint32_t at = 0; at < info->commandBufferInfoCount; at++) {
      all.is_plain &= is_plain(info->pCommandBufferInfos[at].pNext);
      batch.commands.push_back(info->pCommandBufferInfos[at].commandBuffer);
    }
    add_pieces(all.batches, batch);
  }
  return all;
}

void put_submits(Call &call, VkQueue queue, const std::vector<Batch> &batches, VkFence fence) {
  size_t at = 0;
  do {
    size_t end = std::min(batches.size(), at + MOST_BATCHES);
    call.id(queue).word(end - at);
    for (; at < end; at++) call.ids(batches[at].waits).ids(batches[at].commands).ids(batches[at].signals);
    bool is_last = at == batches.size();
    call.id_or_none(is_last ? fence : VK_NULL_HANDLE);
    if (!is_last) call.append_as(CallId::QueueSubmit);
  } while (at < batches.size());
}

void put_submission(Call &call, VkQueue queue, const Submission &all, VkFence fence) {
  call.require(all.is_plain, LACKS_CHAIN);
  put_submits(call, queue, all.batches, fence);
  if (!call.is_good()) return;
  call.require(device_table(queue).QueueWaitIdle(queue) == VK_SUCCESS, "the device is lost");
  for (auto &batch : all.batches)
    for (VkCommandBuffer commands : batch.commands) recording().memory.executed(recording().ids.find(commands));
}

// The first queue of a device is recorded. Another one ends the recording where it is used.
void put_queue(Call &call, VkDevice device, VkQueue queue) {
  if (!call) return;
  if (!queue || recording().ids.owns(recording().ids.find(device), Kind::Queue)) return call.skip();
  call.id(device).created(queue, device);
}

}  // namespace

namespace intercept {

void GetDeviceQueue(VkDevice device, uint32_t family, uint32_t index, VkQueue *out) {
  Call call(CallId::GetDeviceQueue);
  device_table(device).GetDeviceQueue(device, family, index, out);
  put_queue(call, device, *out);
}

void GetDeviceQueue2(VkDevice device, const VkDeviceQueueInfo2 *info, VkQueue *out) {
  Call call(CallId::GetDeviceQueue, "vkGetDeviceQueue2");
  device_table(device).GetDeviceQueue2(device, info, out);
  put_queue(call, device, *out);
}

VkResult QueueSubmit(VkQueue queue, uint32_t count, const VkSubmitInfo *infos, VkFence fence) {
  Call call(CallId::QueueSubmit, Uses::Queue);
  if (call) call.append_writes();
  VkResult result = device_table(queue).QueueSubmit(queue, count, infos, fence);
  if (call.succeeded(result)) put_submission(call, queue, submission_of(count, infos), fence);
  return result;
}

VkResult QueueSubmit2(VkQueue queue, uint32_t count, const VkSubmitInfo2 *infos, VkFence fence) {
  Call call(CallId::QueueSubmit, "vkQueueSubmit2", Uses::Queue);
  if (call) call.append_writes();
  VkResult result = device_table(queue).QueueSubmit2(queue, count, infos, fence);
  if (call.succeeded(result)) put_submission(call, queue, submission_of(count, infos), fence);
  return result;
}

VkResult QueueWaitIdle(VkQueue queue) {
  Call call(CallId::QueueWaitIdle, Uses::Queue);
  VkResult result = device_table(queue).QueueWaitIdle(queue);
  if (call.succeeded(result)) call.id(queue);
  return result;
}

VkResult DeviceWaitIdle(VkDevice device) {
  Call call(CallId::DeviceWaitIdle, Uses::Queue);
  VkResult result = device_table(device).DeviceWaitIdle(device);
  if (call.succeeded(result)) call.id(device);
  return result;
}

}  // namespace intercept
