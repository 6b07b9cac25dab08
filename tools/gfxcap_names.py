"""Vulkan's names for the numbers of a listing, and back."""
import re

WHOLE = str(2**64 - 1)


class Names:
    """Numbers of which each has one name."""

    def __init__(self, table):
        self.names = {str(number): name for number, name in table.items()}
        self.numbers = {name: number for number, name in self.names.items()}

    def name(self, text):
        return self.names.get(text, text)

    def number(self, text):
        if text.isdecimal():
            return text
        return self.numbers[text]


class Bits:
    """Numbers whose bits have names, which are joined by `|`; bits without one stand as one number behind them."""

    def __init__(self, *names):
        self.bits = {1 << place: name for place, name in enumerate(names)}
        self.numbers = {name: bit for bit, name in self.bits.items()}

    def name(self, text):
        if not re.fullmatch(r"0|[1-9]\d{0,9}", text):
            return text
        left, parts = int(text), []
        for bit, name in self.bits.items():
            if left & bit:
                parts.append(name)
                left -= bit
        return "|".join([*parts, *([str(left)] if left or not parts else [])])

    def number(self, text):
        if text.isdecimal():
            return text
        total = 0
        for part in text.split("|"):
            total |= int(part) if part.isdecimal() else self.numbers[part]
        return str(total)


class Records:
    """A list of records, of some of whose values there are names."""

    def __init__(self, names, *places):
        self.names, self.places = names, places

    def each(self, text, change):
        def record(found):
            values = found[1].split(",")
            for place in self.places:
                if place < len(values):
                    values[place] = change(values[place])
            return f"({','.join(values)})"

        return re.sub(r"\(([^()]*)\)", record, text)

    def name(self, text):
        return self.each(text, self.names.name)

    def number(self, text):
        return self.each(text, self.names.number)


FORMAT = Names({13: "R8_UINT", 37: "R8G8B8A8_UNORM", 41: "R8G8B8A8_UINT", 44: "B8G8R8A8_UNORM", 98: "R32_UINT"})
LAYOUT = Names(
    {0: "UNDEFINED", 1: "GENERAL", 6: "TRANSFER_SRC_OPTIMAL", 7: "TRANSFER_DST_OPTIMAL", 1000001002: "PRESENT_SRC_KHR"}
)
RESULT = Names({0: "SUCCESS", 1: "NOT_READY", 2: "TIMEOUT"})
SIZE = Names({WHOLE: "WHOLE_SIZE"})
BUFFER_USAGE = Bits(
    "TRANSFER_SRC", "TRANSFER_DST", "UNIFORM_TEXEL_BUFFER", "STORAGE_TEXEL_BUFFER", "UNIFORM_BUFFER", "STORAGE_BUFFER",
    "INDEX_BUFFER", "VERTEX_BUFFER", "INDIRECT_BUFFER",
)  # fmt: skip
IMAGE_USAGE = Bits(
    "TRANSFER_SRC", "TRANSFER_DST", "SAMPLED", "STORAGE", "COLOR_ATTACHMENT", "DEPTH_STENCIL_ATTACHMENT",
    "TRANSIENT_ATTACHMENT", "INPUT_ATTACHMENT",
)  # fmt: skip
POOL_FLAGS = Bits("TRANSIENT", "RESET_COMMAND_BUFFER")
BEGIN_FLAGS = Bits("ONE_TIME_SUBMIT", "RENDER_PASS_CONTINUE", "SIMULTANEOUS_USE")
FENCE_FLAGS = Bits("SIGNALED")

# The fields that have names, of each call or metadata.
FIELDS = {
    "InitImage": {"layout": LAYOUT},
    "vkMapMemory": {"size": SIZE},
    "vkCreateBuffer": {"usage": BUFFER_USAGE},
    "vkCreateImage": {"format": FORMAT, "usage": IMAGE_USAGE},
    "vkCreateCommandPool": {"flags": POOL_FLAGS},
    "vkBeginCommandBuffer": {"flags": BEGIN_FLAGS},
    "vkCmdPipelineBarrier": {"barriers": Records(LAYOUT, 1, 2)},
    "vkCmdFillBuffer": {"size": SIZE},
    "vkCmdCopyImage": {"source_layout": LAYOUT, "target_layout": LAYOUT},
    "vkCmdCopyBufferToImage": {"layout": LAYOUT},
    "vkCmdCopyImageToBuffer": {"layout": LAYOUT},
    "vkCmdClearColorImage": {"layout": LAYOUT},
    "vkCreateFence": {"flags": FENCE_FLAGS},
    "vkWaitForFences": {"answer": RESULT},
    "vkGetFenceStatus": {"answer": RESULT},
    "vkCreateSwapchainKHR": {"format": FORMAT, "usage": IMAGE_USAGE},
    "vkAcquireNextImageKHR": {"answer": RESULT},
}


class NoName(ValueError):
    """A value that is neither a number nor a name of its field."""


def changed(line, is_numbers=False):
    """A line of a listing with names in place of numbers, or with numbers in place of names. Any other line stays."""
    words = line.removesuffix("\n").split(" ")
    fields = FIELDS.get(words[1]) if len(words) > 1 else None
    if not fields:
        return line
    for at in range(2, len(words)):
        field, is_pair, value = words[at].partition("=")
        names = fields.get(field) if is_pair else None
        if names:
            try:
                words[at] = f"{field}={names.number(value) if is_numbers else names.name(value)}"
            except KeyError as error:
                raise NoName(f"{field}={value} has no number: {error.args[0]}") from None
    return " ".join(words) + "\n" * line.endswith("\n")
