#!/usr/bin/env python3
"""Compares the layouts and numbers of the directory service with the machine's linux/fuse.h.

The layouts are read from the definitions of crates/vub_dir (specs/), the numbers from its src/fuse.rt; their offsets,
sizes and values are compared with what a small C program prints. Where the header or a C compiler is missing, the
script says so and ends with status 0. A difference ends it with status 1.
"""
import os
import re
import shutil
import subprocess
import sys
import tempfile

ROOT = os.path.join(os.path.dirname(os.path.abspath(__file__)), "..", "crates", "vub_dir")
HEADER = "/usr/include/linux/fuse.h"

# each structure that is written, its members in order (an array counts for each of its items), and where its
# definition stands
WRITTEN = {
    "fuse_out_header": (["len", "error", "unique"], "Replies", "header_fields"),
    "fuse_init_out": (
        ["major", "minor", "max_readahead", "flags", "max_background", "congestion_threshold", "max_write", "time_gran",
         "max_pages", "map_alignment", "flags2"] + [f"unused[{i}]" for i in range(7)],
        "Directory", "init_fields"),
    "fuse_attr": (
        ["ino", "size", "blocks", "atime", "mtime", "ctime", "atimensec", "mtimensec", "ctimensec", "mode", "nlink",
         "uid", "gid", "rdev", "blksize", "flags"],
        "Attributes", "attribute_fields"),
    "fuse_entry_out": (
        ["nodeid", "generation", "entry_valid", "attr_valid", "entry_valid_nsec", "attr_valid_nsec"],
        "Directory", "entry_fields"),
    "fuse_attr_out": (["attr_valid", "attr_valid_nsec", "dummy"], "Directory", "attributes_at"),
    "fuse_open_out": (["fh", "open_flags", "padding"], "Directory", "opened"),
    "fuse_write_out": (["size", "padding"], "Directory", "write_of"),
    "fuse_dirent": (["ino", "off", "namelen", "type"], "Directory", "dirent"),
}
# structures that end with attributes, and their whole sizes
FOLLOWED = {"fuse_entry_out": "attr", "fuse_attr_out": "attr"}
# members that are read: the structure, its member, and the definition's text with the place
READ = [
    ("fuse_in_header", "len", "Requests", r"length = u32_at request (\d+)", 4),
    ("fuse_in_header", "opcode", "Requests", r"opcode = u32_at request (\d+)", 4),
    ("fuse_in_header", "unique", "Requests", r"unique = u64_at request (\d+)", 8),
    ("fuse_in_header", "nodeid", "Requests", r"node = u64_at request (\d+)", 8),
    ("fuse_init_in", "major", "Directory", r"u32_at body (\d+) == FUSE_KERNEL_VERSION", 4),
    ("fuse_init_in", "max_readahead", "Directory", r"init_fields \(u32_at body (\d+)\)", 4),
    ("fuse_read_in", "offset", "Directory", r"offset_in body = u64_at body (\d+)", 8),
    ("fuse_write_in", "offset", "Directory", r"offset_in body = u64_at body (\d+)", 8),
    ("fuse_read_in", "size", "Directory", r"size_in body = u32_at body (\d+)", 4),
    ("fuse_write_in", "size", "Directory", r"size_in body = u32_at body (\d+)", 4),
]
# whole sizes of what is read and written: the structure, and the constant that has it
SIZES = [
    ("fuse_in_header", "FUSE_IN_HEADER_SIZE"),
    ("fuse_out_header", "FUSE_OUT_HEADER_SIZE"),
    ("fuse_open_in", "FUSE_OPEN_IN_SIZE"),
    ("fuse_read_in", "FUSE_READ_IN_SIZE"),
    ("fuse_write_in", "FUSE_WRITE_IN_SIZE"),
]
# numbers that the header has under the same name
NUMBERS = ["FUSE_KERNEL_VERSION", "FUSE_ROOT_ID", "FUSE_LOOKUP", "FUSE_FORGET", "FUSE_GETATTR", "FUSE_OPEN", "FUSE_READ",
           "FUSE_WRITE", "FUSE_INIT", "FUSE_READDIR", "DT_DIR", "DT_REG", "ENOENT", "EIO", "ENOTDIR", "EISDIR", "EINVAL",
           "EFBIG", "ENOSYS", "EPROTO"]
MODES = {"FILE_MODE": "S_IFREG | 0644", "DIRECTORY_MODE": "S_IFDIR | 0755"}
WIDTHS = {"U16": 2, "U32": 4, "U64": 8}


def text_of(*parts):
    with open(os.path.join(ROOT, *parts), encoding="utf-8") as file:
        return file.read()


def widths_in(spec, name):
    """The widths of the fields of the definition, from its last line on, in order."""
    text = text_of("specs", spec + ".antt")
    start = [match.start() for match in re.finditer(rf"^{name} ", text, re.M)][-1]
    body = re.split(r"\n\s*\n", text[start:])[0]
    return [WIDTHS[word] for word in re.findall(r"\b(U16|U32|U64)\b", body.split("=", 1)[1])]


def number_of(name):
    return int(re.search(rf"pub const {name}: \w+ = ([\d_]+);", text_of("src", "fuse.rt")).group(1).replace("_", ""))


def questions():
    """What the C program prints, a line for each: its name and the C term."""
    asked = {}
    for struct, (members, _, _) in WRITTEN.items():
        for member in members:
            plain = member.split("[")[0]
            asked[f"{struct}.{member}"] = f"offsetof(struct {struct}, {member})"
            item = f"{plain}[0]" if "[" in member else plain
            asked[f"{struct}.{member} size"] = f"sizeof(((struct {struct} *)0)->{item})"
        asked[f"{struct} size"] = f"sizeof(struct {struct})"
    for struct, last in FOLLOWED.items():
        asked[f"{struct} rest"] = f"offsetof(struct {struct}, {last})"
    for struct, member, _, _, _ in READ:
        asked[f"{struct}.{member}"] = f"offsetof(struct {struct}, {member})"
        asked[f"{struct}.{member} size"] = f"sizeof(((struct {struct} *)0)->{member})"
    for struct, _ in SIZES:
        asked[f"{struct} size"] = f"sizeof(struct {struct})"
    for name in NUMBERS:
        asked[name] = name
    asked.update(MODES)
    return asked


def answers(asked):
    lines = "".join(f'    printf("%s\\t%lld\\n", "{name}", (long long)({term}));\n' for name, term in asked.items())
    program = ("#define _GNU_SOURCE\n#include <stddef.h>\n#include <stdint.h>\n#include <stdio.h>\n#include <errno.h>\n"
               "#include <dirent.h>\n#include <sys/stat.h>\n#include <linux/fuse.h>\n\nint main(void)\n{\n" + lines
               + "    return 0;\n}\n")
    with tempfile.TemporaryDirectory() as folder:
        source, binary = os.path.join(folder, "layouts.c"), os.path.join(folder, "layouts")
        with open(source, "w", encoding="utf-8") as file:
            file.write(program)
        subprocess.run(["gcc", "-o", binary, source], check=True)
        printed = subprocess.run([binary], check=True, capture_output=True, text=True).stdout
    return {name: int(value) for name, value in (line.split("\t") for line in printed.splitlines())}


def main():
    if not os.path.exists(HEADER) or shutil.which("gcc") is None:
        print("skipped: linux/fuse.h or gcc is missing")
        return 0
    found = answers(questions())
    checks = []
    for struct, (members, spec, name) in WRITTEN.items():
        widths = widths_in(spec, name)
        checks.append((f"{struct}: number of fields", len(widths), len(members)))
        place = 0
        for member, width in zip(members, widths):
            checks.append((f"{struct}.{member}: offset", place, found[f"{struct}.{member}"]))
            checks.append((f"{struct}.{member}: size", width, found[f"{struct}.{member} size"]))
            place += width
        whole = found[f"{struct} rest"] if struct in FOLLOWED else found[f"{struct} size"]
        checks.append((f"{struct}: size", place, whole))
    for struct, member, spec, pattern, width in READ:
        place = int(re.search(pattern, text_of("specs", spec + ".antt")).group(1))
        checks.append((f"{struct}.{member}: offset", place, found[f"{struct}.{member}"]))
        checks.append((f"{struct}.{member}: size", width, found[f"{struct}.{member} size"]))
    for struct, name in SIZES:
        checks.append((f"{struct}: size", number_of(name), found[f"{struct} size"]))
    for name in NUMBERS + list(MODES):
        checks.append((name, number_of(name), found[name]))
    wrong = [check for check in checks if check[1] != check[2]]
    for what, ours, theirs in wrong:
        print(f"{what}: {ours} in the crate, {theirs} in the header")
    print(f"{len(checks)} offsets, sizes and numbers compared, {len(wrong)} differ")
    return 1 if wrong else 0


if __name__ == "__main__":
    sys.exit(main())
