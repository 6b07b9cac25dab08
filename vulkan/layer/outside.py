#!/usr/bin/env python3
"""Writes outside.inc: the functions of devices, queues and command buffers whose call ends a recording.

    outside.py [VK.XML]     the registry of the Vulkan headers; Debian has it as /usr/share/vulkan/registry/vk.xml

Functions of functions.h are left out, and those that change nothing that a capture holds.

It is run by hand, after a change of functions.h or for other headers.
"""
import os
import re
import sys
import xml.etree.ElementTree

HERE = os.path.dirname(os.path.abspath(__file__))
REGISTRY = "/usr/share/vulkan/registry/vk.xml"
EXPORTS = re.compile(r"vkGet\w*(Fd|Handle|RemoteAddress)(KHR|NV)$")  # these give objects to others
HARMLESS = re.compile(
    r"vk(Get(?!DeviceQueue)|Enumerate|SetDebugUtils|DebugMarker|TrimCommandPool|SetPrivateData|CmdDebugMarker"
    r"|(Create|Destroy)PrivateDataSlot|WaitForPresent|SetDeviceMemoryPriority|SetHdrMetadata"
    r"|(Acquire|Release)ProfilingLock|(Cmd|Queue)(Begin|End|Insert)DebugUtilsLabel)")


def intercepted():
    with open(os.path.join(HERE, "functions.h"), encoding="utf-8") as file:
        return {f"vk{name}" for name in re.findall(r"\bX\((\w+)\)", file.read())}


def first_types(registry):
    """The type of each function's first argument."""
    found, aliases = {}, {}
    for command in registry.find("commands"):
        if command.get("alias"):
            aliases[command.get("name")] = command.get("alias")
        else:
            found[command.findtext("proto/name")] = command.findtext("param/type")
    return found | {name: found[alias] for name, alias in aliases.items()}


def in_headers(registry):
    """The functions that vulkan.h has without a platform."""
    for part in registry.findall("feature") + list(registry.find("extensions")):
        supported = "vulkan" in (part.get("supported") or part.get("api") or "").split(",")
        if supported and not part.get("platform") or part.get("provisional"):
            yield from (command.get("name") for command in part.iter("command"))


def main():
    registry = xml.etree.ElementTree.parse(sys.argv[1] if len(sys.argv) > 1 else REGISTRY).getroot()
    own, types, names = intercepted(), first_types(registry), []
    for name in sorted(set(in_headers(registry))):
        is_own = name in own or name.removesuffix("KHR") in own
        is_harmless = HARMLESS.match(name) and not EXPORTS.match(name)
        if types[name] in ("VkDevice", "VkQueue", "VkCommandBuffer") and not is_own and not is_harmless:
            names.append(name)
    with open(os.path.join(HERE, "outside.inc"), "w", encoding="utf-8") as file:
        file.write(f"// Written by outside.py: {len(names)} functions that end a recording.\n")
        file.writelines(f"X({name})\n" for name in names)
    print(len(names), "functions")


if __name__ == "__main__":
    main()
