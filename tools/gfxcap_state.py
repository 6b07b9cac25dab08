"""Follows a listing: which objects live, in which state each is, and what submitted commands write.

The capture must be one that replays: what the rules forbid isn't looked for.
"""
from gfxcap_frames import TEXEL_SIZES
from gfxcap_names import FORMAT, LAYOUT, WHOLE

# What a call makes: the kind, the field with the ids, and the field with the parent.
MAKES = {
    "vkCreateInstance": ("Instance", "instance", None),
    "vkCreateHeadlessSurfaceEXT": ("Surface", "surface", "instance"),
    "vkCreateDevice": ("Device", "device", "instance"),
    "vkGetDeviceQueue": ("Queue", "queue", "device"),
    "vkAllocateMemory": ("Memory", "memory", "device"),
    "vkCreateBuffer": ("Buffer", "buffer", "device"),
    "vkCreateImage": ("Image", "image", "device"),
    "vkCreateCommandPool": ("Pool", "pool", "device"),
    "vkAllocateCommandBuffers": ("CommandBuffer", "buffers", "pool"),
    "vkCreateFence": ("Fence", "fence", "device"),
    "vkCreateSemaphore": ("Semaphore", "semaphore", "device"),
    "vkCreateSwapchainKHR": ("Swapchain", "swapchain", "device"),
    "vkGetSwapchainImagesKHR": ("Image", "images", "swapchain"),
}
# What a call ends, by the field with the ids.
ENDS = {
    "vkDestroyInstance": "instance",
    "vkDestroySurfaceKHR": "surface",
    "vkDestroyDevice": "device",
    "vkFreeMemory": "memory",
    "vkDestroyBuffer": "buffer",
    "vkDestroyImage": "image",
    "vkDestroyCommandPool": "pool",
    "vkFreeCommandBuffers": "buffers",
    "vkDestroyFence": "fence",
    "vkDestroySemaphore": "semaphore",
    "vkDestroySwapchainKHR": "swapchain",
}
OWNED = {"Queue", "CommandBuffer"}  # and images of a swapchain: they end with their parent
KINDS = (
    "Instance", "Surface", "Device", "Queue", "Memory", "Buffer", "Image", "Swapchain", "Fence", "Semaphore", "Pool",
    "CommandBuffer",
)  # fmt: skip


class Work:
    """How often each way of writing was met, and the bytes of each."""

    WAYS = ("writes", "fills", "updates", "clears", "copies")

    def __init__(self):
        self.count, self.bytes = dict.fromkeys(self.WAYS, 0), dict.fromkeys(self.WAYS, 0)

    def add(self, way, size):
        self.count[way] += 1
        self.bytes[way] += size

    def join(self, other):
        for way in self.WAYS:
            self.count[way] += other.count[way]
            self.bytes[way] += other.bytes[way]

    def total(self):
        return sum(self.bytes.values())


class Object:
    """A live object, with the fields of the call that made it."""

    def __init__(self, kind, id, parent, fields):
        self.kind, self.id, self.parent, self.fields = kind, id, parent, fields
        self.memory, self.offset, self.is_of_swapchain = None, 0, False
        self.layout, self.is_signalled, self.map, self.acquired = "0", False, None, set()
        self.owned, self.bound, self.named_by, self.names = [], set(), set(), set()
        self.state, self.commands, self.work, self.barriers, self.is_once = "initial", 0, Work(), [], False

    def texel(self):
        return TEXEL_SIZES[FORMAT.name(self.fields["format"])]

    def size(self):
        """The bytes of an image, of a buffer or of a memory, and of all images of a swapchain."""
        if self.kind in ("Image", "Swapchain"):
            count = int(self.fields.get("images", 1)) if self.kind == "Swapchain" else 1
            return count * int(self.fields["width"]) * int(self.fields["height"]) * self.texel()
        return int(self.fields.get("size", 0))

    def describe_state(self):
        """Its state in words."""
        if self.kind == "Memory":
            return f"mapped {self.map}" if self.map else "not mapped"
        if self.kind in ("Fence", "Semaphore"):
            return "signalled" if self.is_signalled else "not signalled"
        if self.kind in ("Buffer", "Image") and not self.memory and not self.is_of_swapchain:
            return "not bound"
        if self.kind in ("Buffer", "Image"):
            place = [f"in memory {self.memory} at {self.offset}"] if self.memory else []
            return ", ".join([LAYOUT.name(self.layout)] * (self.kind == "Image") + place)
        if self.kind == "Swapchain":
            return f"acquired {','.join(map(str, sorted(self.acquired)))}" if self.acquired else "none acquired"
        if self.kind == "CommandBuffer":
            return self.state + (f", {self.commands} commands" if self.state in ("recording", "executable") else "")
        return ""


class State:
    """What lives after the lines that were taken, and what they wrote. `touched` are ids that may have changed."""

    def __init__(self):
        self.live, self.work, self.touched, self.is_section, self.first = {}, Work(), set(), False, 1

    def take(self, line):
        """Takes the next line of a listing."""
        if line.name in MAKES:
            self.make(line, *MAKES[line.name])
        elif line.name in ENDS:
            given = line.fields[ENDS[line.name]]
            for id in line.items(ENDS[line.name]) if given.startswith("[") else [int(given)]:
                self.end(id)
        elif step := STEPS.get(line.name):
            step(self, line)
        elif line.name.startswith("vkCmd"):
            self.record(line)

    def make(self, line, kind, field, parent):
        given, above = line.fields[field], int(line.fields[parent]) if parent else None
        fields = {name: value for name, value in line.fields.items() if name not in (field, parent, "device")}
        if line.name == "vkGetSwapchainImagesKHR":
            fields = {name: self.live[above].fields[name] for name in ("format", "width", "height", "usage")}
        for id in line.items(field) if given.startswith("[") else [int(given)]:
            if id in self.live:  # a second query
                continue
            made = self.live[id] = Object(kind, id, above, fields)
            made.is_signalled = kind == "Fence" and fields["flags"] == "1"
            made.is_of_swapchain = line.name == "vkGetSwapchainImagesKHR"
            if kind in OWNED or made.is_of_swapchain:
                self.live[above].owned.append(id)
            self.touched.add(id)

    def end(self, id):
        ended = self.live.pop(id)
        self.touched.add(id)
        for owned in ended.owned:
            if owned in self.live:
                self.end(owned)
        for bound in ended.bound:
            if bound in self.live:
                self.live[bound].memory = None
                self.touched.add(bound)
                self.invalidate(self.live[bound])
        if ended.memory in self.live:
            self.live[ended.memory].bound.discard(id)
        self.invalidate(ended)
        self.unname(ended)

    def invalidate(self, resource):
        """What was recorded with a resource that ended, or lost its memory, is invalid."""
        for id in list(resource.named_by):
            if id in self.live:
                self.live[id].state = "invalid"
                self.touched.add(id)
                self.unname(self.live[id])

    def unname(self, buffer):
        for id in buffer.names:
            if id in self.live:
                self.live[id].named_by.discard(buffer.id)
        buffer.names = set()

    def signal(self, id, is_signalled):
        self.live[id].is_signalled = is_signalled
        self.touched.add(id)

    def bind(self, line):
        id = line.number("buffer" if line.name == "vkBindBufferMemory" else "image")
        bound = self.live[id]
        bound.memory, bound.offset = line.number("memory"), line.number("offset")
        self.live[bound.memory].bound.add(id)
        self.touched.add(id)

    def map(self, line):
        memory, start = self.live[line.number("memory")], line.number("offset")
        length = memory.size() - start if line.fields["size"] == WHOLE else line.number("size")
        memory.map = f"from {start}, {length} bytes"
        self.touched.add(memory.id)

    def unmap(self, line):
        self.live[line.number("memory")].map = None
        self.touched.add(line.number("memory"))

    def begin(self, line):
        buffer = self.reset(line.number("cb"))
        buffer.state, buffer.is_once = "recording", bool(line.number("flags") & 1)

    def reset(self, id):
        buffer = self.live[id]
        self.unname(buffer)
        buffer.state, buffer.commands, buffer.work, buffer.barriers = "initial", 0, Work(), []
        self.touched.add(id)
        return buffer

    def finish(self, line):
        self.live[line.number("cb")].state = "executable"
        self.touched.add(line.number("cb"))

    def reset_pool(self, line):
        for id in self.live[line.number("pool")].owned:
            if id in self.live:
                self.reset(id)

    def record(self, line):
        """Adds a command: what it names, and what it will write."""
        buffer = self.live[line.number("cb")]
        buffer.commands += 1
        self.touched.add(buffer.id)
        if line.name == "vkCmdPipelineBarrier":
            barriers = line.items("barriers")
            buffer.barriers += [(image, str(after)) for image, _, after in barriers]
            names = {image for image, _, _ in barriers}
        else:
            names = {line.number(field) for field in ("buffer", "image", "source", "target") if field in line.fields}
            buffer.work.add(*self.written(line))
        for id in names - buffer.names:
            self.live[id].named_by.add(buffer.id)
        buffer.names |= names

    def written(self, line):
        """How a command writes, and how many bytes."""
        if line.name == "vkCmdFillBuffer":
            rest = self.live[line.number("buffer")].size() - line.number("offset")
            return "fills", rest // 4 * 4 if line.fields["size"] == WHOLE else line.number("size")
        if line.name == "vkCmdUpdateBuffer":
            return "updates", line.size
        if line.name == "vkCmdClearColorImage":
            return "clears", self.live[line.number("image")].size()
        regions = line.items("regions")
        if line.name == "vkCmdCopyBuffer":
            return "copies", sum(size for _, _, size in regions)
        image = self.live[line.number("target" if line.name == "vkCmdCopyBufferToImage" else "source")]
        return "copies", sum(region[-1] * region[-2] for region in regions) * image.texel()

    def submit(self, line):
        for waits, buffers, signals in line.items("submits"):
            for id in waits:
                self.signal(id, False)
            for id in buffers:
                self.execute(self.live[id])
            for id in signals:
                self.signal(id, True)
        if fence := line.number("fence"):
            self.signal(fence, True)

    def execute(self, buffer):
        self.work.join(buffer.work)
        for image, layout in buffer.barriers:
            self.live[image].layout = layout
            self.touched.add(image)
        if buffer.is_once:
            buffer.state = "invalid"
            self.touched.add(buffer.id)
            self.unname(buffer)

    def acquire(self, line):
        if line.number("answer"):
            return
        self.live[line.number("swapchain")].acquired.add(line.number("index"))
        self.touched.add(line.number("swapchain"))
        for id in (line.number("semaphore"), line.number("fence")):
            if id:
                self.signal(id, True)

    def present(self, line):
        for id in line.items("waits"):
            self.signal(id, False)
        for swapchain, index in presents(line):
            self.live[swapchain].acquired.discard(index)
            self.touched.add(swapchain)

    def reset_fences(self, line):
        for id in line.items("fences"):
            self.signal(id, False)

    def write(self, line):
        if not self.is_section:
            self.work.add("writes", line.size)

    def set_layout(self, line):
        self.live[line.number("image")].layout = line.fields["layout"]
        self.touched.add(line.number("image"))

    def set_acquired(self, line):
        marks = line.items("acquired")
        self.live[line.number("swapchain")].acquired = {index for index, mark in enumerate(marks) if mark}
        self.touched.add(line.number("swapchain"))

    def mark(self, line):
        self.is_section, self.first = line.name == "begin", line.number("frame")


def presents(line):
    """The swapchains that a present shows, each with the index of an image."""
    return line.items("presents") if "presents" in line.fields else [(line.number("swapchain"), line.number("index"))]


STEPS = {
    "begin": State.mark,
    "end": State.mark,
    "FillMemory": State.write,
    "InitImage": State.set_layout,
    "SetSwapchainState": State.set_acquired,
    "SetSemaphoreState": lambda state, line: state.signal(line.number("semaphore"), line.fields["signalled"] == "1"),
    "vkBindBufferMemory": State.bind,
    "vkBindImageMemory": State.bind,
    "vkMapMemory": State.map,
    "vkUnmapMemory": State.unmap,
    "vkResetCommandPool": State.reset_pool,
    "vkBeginCommandBuffer": State.begin,
    "vkEndCommandBuffer": State.finish,
    "vkResetCommandBuffer": lambda state, line: state.reset(line.number("cb")),
    "vkResetFences": State.reset_fences,
    "vkQueueSubmit": State.submit,
    "vkAcquireNextImageKHR": State.acquire,
    "vkQueuePresentKHR": State.present,
}
