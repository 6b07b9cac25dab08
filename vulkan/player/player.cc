// Draws a capture on a Vulkan driver, and prints what `gfxcap replay` prints of it.
//
//   player [--pixels] < FILE    with --pixels also the rows of each image
//   player --defined < FILE     rows, and behind those of each image `all` where Vulkan defines all of its bytes, or
//                               else `some` and rows in which defined bytes are ff, and others 00
//   player --driver             the driver's name and version; status 3 where there is none
//
// Whether the file is good is gfxcap's to say: a player stops with status 1 where it can't go on. Each call of the
// capture is made on the driver, and these stand in for what the profile has and a driver hasn't:
//
//   - A swapchain is images of the player's own. An acquire is an empty submit that signals. A present is a submit that
//     waits, and a copy of the image to where the player reads it.
//   - Each image has memory of its own, tiled as the driver likes.
//   - Memory and images are zeros when they are made.
//   - A barrier over all memory stands behind each command, since the profile does commands in order.
//   - Each submit is waited for.
//
// With VALIDATE in the environment the Khronos validation layer looks at all of it, and what it says is on standard
// error.
#include <algorithm>
#include <array>

#include "recorder.h"

namespace {

// A method for each call, and for what a section says of an object.
class Player : public Recorder {
 public:
  explicit Player(uint32_t minor) : minor(minor) {}

  void begin_section(uint64_t frame) {
    in_section = true;
    next_frame = frame;
  }
  void end_section() { in_section = false; }
  void print_count() const { printf("frames %llu\n", static_cast<unsigned long long>(shown)); }

  void call(uint32_t number, Reader &fields) {
    if (number == 0 || number >= methods.size()) stop("an unknown call");
    (this->*methods[number])(fields);
  }

  void metadata(uint32_t number, Reader &fields) {
    switch (number) {
      case 2:
        return fill_memory(fields);
      case 3:
        return init_image(fields);
      case 4:
        return set_swapchain_state(fields);
      case 5:
        return set_semaphore_state(fields);
    }
    stop("an unknown metadata");
  }

 private:
  using Method = void (Player::*)(Reader &);

  uint32_t minor;
  uint64_t next_frame = 1, shown = 0;
  Objects<Swapchain> swapchains;
  std::map<Id, VkFence> fences;
  Objects<Semaphore> semaphores;
  static const std::array<Method, 49> methods;

  // --- Fences, semaphores, submits

  void create_fence(Reader &fields) {
    auto device = of(devices, fields.id());
    Id id = fields.id();
    VkFenceCreateInfo info = {VK_STRUCTURE_TYPE_FENCE_CREATE_INFO};
    info.flags = fields.word();
    CHECK(vkCreateFence(device->handle, &info, nullptr, &fences[id]));
  }

  void destroy_fence(Reader &fields) {
    auto device = of(devices, fields.id());
    Id id = fields.id();
    vkDestroyFence(device->handle, of(fences, id), nullptr);
    fences.erase(id);
  }

  void reset_fences(Reader &fields) {
    auto device = of(devices, fields.id());
    auto some = all_of(fences, fields.ids());
    CHECK(vkResetFences(device->handle, some.size(), some.data()));
  }

  static void same_answer(VkResult given, uint32_t recorded) {
    if (static_cast<uint32_t>(given) != recorded)
      stop("the driver answers " + std::to_string(given) + " where the capture has " + std::to_string(recorded));
  }

  void wait_for_fences(Reader &fields) {
    constexpr uint64_t FIVE_SECONDS = 5000000000;
    auto device = of(devices, fields.id());
    auto some = all_of(fences, fields.ids());
    uint32_t all = fields.word(), answer = fields.word();
    same_answer(vkWaitForFences(device->handle, some.size(), some.data(), all, answer == VK_SUCCESS ? FIVE_SECONDS : 0),
                answer);
  }

  void fence_status(Reader &fields) {
    auto device = of(devices, fields.id());
    VkFence fence = of(fences, fields.id());
    same_answer(vkGetFenceStatus(device->handle, fence), fields.word());
  }

  void create_semaphore(Reader &fields) {
    auto semaphore = std::make_shared<Semaphore>();
    semaphore->device = of(devices, fields.id());
    VkSemaphoreCreateInfo info = {VK_STRUCTURE_TYPE_SEMAPHORE_CREATE_INFO};
    CHECK(vkCreateSemaphore(semaphore->device->handle, &info, nullptr, &semaphore->handle));
    semaphores[fields.id()] = semaphore;
  }

  void destroy_semaphore(Reader &fields) {
    fields.id();
    Id id = fields.id();
    vkDestroySemaphore(of(semaphores, id)->device->handle, of(semaphores, id)->handle, nullptr);
    semaphores.erase(id);
  }

  std::vector<VkSemaphore> semaphores_of(const std::vector<Id> &ids) const {
    std::vector<VkSemaphore> handles;
    for (Id id : ids) handles.push_back(of(semaphores, id)->handle);
    return handles;
  }

  void submit(Reader &fields) {
    auto device = of(queues, fields.id());
    std::vector<Batch> batches(fields.word());
    std::vector<std::shared_ptr<Commands>> done;
    for (Batch &batch : batches) {
      batch.waits = semaphores_of(fields.ids());
      for (auto &some : all_of(commands, fields.ids())) {
        batch.commands.push_back(some->handle);
        done.push_back(some);
      }
      batch.signals = semaphores_of(fields.ids());
    }
    Id fence = fields.id();
    device->submit(batches, fence ? of(fences, fence) : VK_NULL_HANDLE);
    for (auto &some : done)
      for (auto &defines : some->defines) defines();
  }

  // --- Swapchains

  void create_swapchain(Reader &fields) {
    auto swapchain = std::make_shared<Swapchain>();
    swapchain->device = of(devices, fields.id());
    Id id = fields.id();
    fields.id();
    uint32_t count = fields.word(), format = fields.word(), width = fields.word(), height = fields.word();
    swapchain->acquired = std::make_shared<std::vector<bool>>(count);
    for (uint32_t index = 0; index < count; index++) {
      auto image = std::make_shared<Image>(Image{swapchain->device, format, width, height});
      create(*image);
      give_memory(*image);
      image->view.place = std::make_shared<Place>(image->size());
      image->acquired = swapchain->acquired;
      image->index = index;
      swapchain->images.push_back(image);
    }
    swapchains[id] = swapchain;
  }

  void destroy_swapchain(Reader &fields) {
    fields.id();
    Id id = fields.id();
    auto swapchain = of(swapchains, id);
    for (auto image = images.begin(); image != images.end();)
      image = image->second->acquired == swapchain->acquired ? images.erase(image) : std::next(image);
    for (auto &image : swapchain->images) destroy(*image);
    swapchains.erase(id);
  }

  void get_images(Reader &fields) {
    fields.id();
    auto swapchain = of(swapchains, fields.id());
    std::vector<Id> ids = fields.ids();
    for (size_t index = 0; index < ids.size(); index++) images[ids[index]] = swapchain->images[index];
  }

  void acquire(Reader &fields) {
    fields.id();
    auto swapchain = of(swapchains, fields.id());
    Id semaphore = fields.id(), fence = fields.id();
    uint32_t index = fields.word(), answer = fields.word();
    if (answer) return;
    Batch batch;
    if (semaphore) batch.signals = semaphores_of({semaphore});
    swapchain->device->submit({batch}, fence ? of(fences, fence) : VK_NULL_HANDLE);
    (*swapchain->acquired)[index] = true;
  }

  void present(Reader &fields) {
    auto device = of(queues, fields.id());
    Batch batch;
    batch.waits = semaphores_of(fields.ids());
    device->submit({batch});
    uint32_t count = minor == 1 ? 1 : fields.word();
    for (uint32_t at = 1; at <= count; at++) {
      auto swapchain = of(swapchains, fields.id());
      uint32_t index = fields.word();
      show(*swapchain->images.at(index), std::to_string(next_frame) + (minor == 1 ? "" : "." + std::to_string(at)));
      (*swapchain->acquired)[index] = false;
    }
    next_frame++;
    shown++;
  }

  // --- Metadata

  void fill_memory(Reader &fields) {
    auto memory = of(memories, fields.id());
    uint64_t offset = fields.size();
    Bytes bytes = fields.bytes();
    memory->with_bytes([&](uint8_t *all) { memcpy(all + offset, bytes.data, bytes.size); });
    write({memory->place, 0, IN_A_ROW}, offset, bytes.size);
  }

  // The section has the bytes of a created image among those of its memory, and a swapchain's image with its own.
  void init_image(Reader &fields) {
    auto image = of(images, fields.id());
    uint32_t layout = fields.word();
    Bytes bytes = fields.bytes();
    if (image->memory) image->memory->with_bytes([&](uint8_t *all) { fill(*image, all + image->view.offset, layout); });
    else fill(*image, bytes.data, layout);
    write(image->view, 0, image->size());
  }

  void set_swapchain_state(Reader &fields) {
    auto swapchain = of(swapchains, fields.id());
    uint32_t count = fields.word();
    for (uint32_t index = 0; index < count; index++) (*swapchain->acquired)[index] = fields.word();
  }

  void set_semaphore_state(Reader &fields) {
    auto semaphore = of(semaphores, fields.id());
    Batch batch;
    batch.signals.push_back(semaphore->handle);
    if (fields.word()) semaphore->device->submit({batch});
  }
};

// In the order of the numbers of the calls.
const std::array<Player::Method, 49> Player::methods = {
    nullptr,
    &Player::create_instance,
    &Player::destroy_instance,
    &Player::nothing,  // a surface
    &Player::nothing,
    &Player::create_device,
    &Player::destroy_device,
    &Player::get_queue,
    &Player::allocate_memory,
    &Player::free_memory,
    &Player::map_memory,
    &Player::unmap_memory,
    &Player::create_buffer,
    &Player::destroy_buffer,
    &Player::bind_buffer,
    &Player::create_image,
    &Player::destroy_image,
    &Player::bind_image,
    &Player::create_pool,
    &Player::destroy_pool,
    &Player::reset_pool,
    &Player::allocate_commands,
    &Player::free_commands,
    &Player::begin_commands,
    &Player::end_commands,
    &Player::reset_commands,
    &Player::barriers,
    &Player::fill_buffer,
    &Player::update_buffer,
    &Player::copy_buffer,
    &Player::copy_image,
    &Player::copy_buffer_to_image,
    &Player::copy_image_to_buffer,
    &Player::clear_image,
    &Player::create_fence,
    &Player::destroy_fence,
    &Player::reset_fences,
    &Player::wait_for_fences,
    &Player::fence_status,
    &Player::create_semaphore,
    &Player::destroy_semaphore,
    &Player::submit,
    &Player::wait_for_queue,
    &Player::wait_for_device,
    &Player::create_swapchain,
    &Player::destroy_swapchain,
    &Player::get_images,
    &Player::acquire,
    &Player::present,
};

void play_block(Player &player, uint32_t kind, Reader payload) {
  constexpr uint32_t STATE = 2, METADATA = 3, CALL = 4, MESSAGE = 1, BEGINS = 1;
  if (kind == STATE) {
    if (payload.word() == BEGINS) player.begin_section(payload.size());
    else player.end_section();
  } else if (kind == METADATA || kind == CALL) {
    uint32_t number = payload.word();
    if (kind == METADATA && number == MESSAGE) return;
    payload.size();  // the thread
    if (kind == CALL) player.call(number, payload);
    else player.metadata(number, payload);
  }
}

// Reads a number of bytes, and fewer at the end of the file.
std::vector<uint8_t> read_up_to(uint64_t count) {
  constexpr uint64_t PIECE = 1 << 20;  // room is made for bytes that came
  std::vector<uint8_t> bytes;
  while (bytes.size() < count) {
    size_t old = bytes.size();
    bytes.resize(old + std::min(PIECE, count - old));
    size_t came = fread(&bytes[old], 1, bytes.size() - old, stdin);
    bytes.resize(old + came);
    if (!came) break;
  }
  return bytes;
}

Reader reader_of(const std::vector<uint8_t> &bytes) { return Reader(bytes.data(), bytes.data() + bytes.size()); }

Player player_of_header() {
  auto header = read_up_to(16);
  Reader fields = reader_of(header);
  fields.take(8);
  uint32_t minor = fields.word();
  read_up_to(8 * static_cast<uint64_t>(fields.word()));
  return Player(minor);
}

void play() {
  Player player = player_of_header();
  for (;;) {
    auto head = read_up_to(12);
    if (head.empty()) break;
    current_block++;
    Reader fields = reader_of(head);
    uint64_t size = fields.size();
    uint32_t kind = fields.word();
    auto payload = read_up_to(size);
    if (payload.size() < size) stop("the file ends too early");
    play_block(player, kind, reader_of(payload));
  }
  player.print_count();
}

int print_driver() {
  std::string name = driver_name();
  if (name.empty()) return 3;
  puts(name.c_str());
  return 0;
}

}  // namespace

int main(int count, char **words) {
  std::string word = count == 2 ? words[1] : "";
  if (word == "--driver") return print_driver();
  prints_rows = word == "--pixels" || word == "--defined";
  follows_defined = word == "--defined";
  if (count > 2 || (count == 2 && !prints_rows)) {
    fputs("usage: player [--pixels | --defined] < FILE; player --driver\n", stderr);
    return 2;
  }
  play();
  fflush(stdout);
  for (auto &[name, times] : messages) fprintf(stderr, "layer: %d times %s\n", times, name.c_str());
  fflush(stderr);
  _Exit(0);  // the objects of a capture needn't all end
}
