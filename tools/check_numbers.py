#!/usr/bin/env python3
"""Compares the numbers and texts of crates/vub_util with this machine's headers and C library.

All that it compares is read from the crate and its tests (crates/vub_host_rows/src/util.rt): the constants of src/ioctl.rt; the tests' table of ioctl numbers,
each a call with the number that it is to answer; the error texts of specs/Errno.antt, which src/errno.rt must repeat
and each of whose numbers must be one of <errno.h>; and the printed errors that the tests expect. The other side is
what a small C program prints: <asm-generic/ioctl.h>'s own macros at the same arguments, and strerror. A number that
has no text in the table is printed as unknown, whatever strerror says of it. A difference ends it with status 1.
"""
import os
import re
import subprocess
import sys
import tempfile

TOP = os.path.join(os.path.dirname(os.path.abspath(__file__)), "..", "crates", "vub_util")
CC = os.environ.get("CC", "cc")

# the header's macro for each function of src/ioctl.rt, and how it takes the arguments
MACROS = {
    "ioctl_expr": "_IOC({0}, {1}, {2}, {3})",
    "ioctl_io_nr": "_IO({0}, {1})",
    "ioctl_ior_nr": "_IOR({0}, {1}, char[{2}])",
    "ioctl_iow_nr": "_IOW({0}, {1}, char[{2}])",
    "ioctl_iowr_nr": "_IOWR({0}, {1}, char[{2}])",
}

# the function that each case of the tests' table calls
CALLS = {
    "Of": "ioctl_expr",
    "Neither": "ioctl_io_nr",
    "Read": "ioctl_ior_nr",
    "Write": "ioctl_iow_nr",
    "Both": "ioctl_iowr_nr",
}


def text_of(*parts):
    with open(os.path.join(TOP, *parts), encoding="utf-8") as file:
        return file.read()


def constants():
    """The constants of the source, by name."""
    found = re.findall(r"pub const (\w+): u32 = ([\d_]+);", text_of("src", "ioctl.rt"))
    return {name: int(value.replace("_", "")) for name, value in found}


def expected_ioctls(known):
    """What the tests expect: the function, its arguments as numbers, and the number that it is to answer."""
    tested = re.findall(r"\(Ioctl::(\w+)\(([^()]*)\), (0x[\da-f_]+|[\d_]+)\)", text_of("..", "vub_host_rows", "src", "util.rt"))
    return [(CALLS[call], [value_of(word, known) for word in arguments.split(",")], int(number.replace("_", ""), 0))
            for call, arguments, number in tested]


def value_of(sum_of_words, known):
    words = [word.strip().removeprefix("ioctl::") for word in sum_of_words.split("+")]
    return sum(known[word] if word in known else int(word.replace("_", ""), 0) for word in words)


def texts():
    """The rows of the table of error texts, and of the source's match, by number."""
    rows = re.findall(r'row (\d+) \(codes "(.*?)"\)', text_of("specs", "Errno.antt"))
    arms = re.findall(r'^\s*(\d+) => Some\("(.*?)"\)', text_of("src", "errno.rt"), re.M)
    return {int(number): text for number, text in rows}, {int(number): text for number, text in arms}


def expected_errors():
    """The printed errors that the tests expect, by number."""
    found = re.findall(r'\((-?\d+), "(.*? \(os error -?\d+\))"\)', text_of("..", "vub_host_rows", "src", "util.rt"))
    return {int(number): text for number, text in found}


def asked_of_c(terms, numbers):
    """What the C compiler and library of this machine say: the value of each term, and the text of each number."""
    lines = ["#include <stdio.h>", "#include <string.h>", "#include <asm-generic/ioctl.h>", "int main(void) {"]
    lines += [f'  printf("%lu\\n", (unsigned long)({term}));' for term in terms]
    lines += [f'  printf("%s\\n", strerror({number}));' for number in numbers]
    lines.append("  return 0;\n}")
    with tempfile.TemporaryDirectory() as folder:
        source, program = os.path.join(folder, "ask.c"), os.path.join(folder, "ask")
        with open(source, "w", encoding="utf-8") as file:
            file.write("\n".join(lines))
        subprocess.run([CC, "-o", program, source], check=True)
        plain = dict(os.environ, LC_ALL="C")
        printed = subprocess.run([program], check=True, capture_output=True, text=True, env=plain).stdout
    answers = printed.splitlines()
    return [int(answer) for answer in answers[:len(terms)]], dict(zip(numbers, answers[len(terms):]))


def header_numbers():
    """The numbers that <errno.h> has a name for."""
    printed = subprocess.run([CC, "-dM", "-E", "-include", "errno.h", "-x", "c", os.devnull], check=True,
                             capture_output=True, text=True).stdout
    return {int(number) for number in re.findall(r"#define E\w+ (\d+)$", printed, re.M)}


def printed_as(number, said):
    """How an error is to be printed: by the library's text where the table has its number."""
    return f"{said.get(number, f'Unknown error {number}')} (os error {number})"


def main():
    known = constants()
    ioctls = expected_ioctls(known)
    rows, arms = texts()
    errors = expected_errors()
    terms = list(known) + [MACROS[function].format(*arguments) for function, arguments, _ in ioctls]
    values, said = asked_of_c(terms, list(rows))
    named = header_numbers()

    checks = [(name, known[name], value) for name, value in zip(known, values)]
    checks += [(f"{function} at {arguments}", number, value)
               for (function, arguments, number), value in zip(ioctls, values[len(known):])]
    checks += [(f"error {number} in the table", text, said[number]) for number, text in rows.items()]
    checks += [(f"error {number} in the source", arms.get(number), rows.get(number)) for number in rows | arms]
    checks += [(f"error {number} as printed in the tests", text, printed_as(number, said)) for number, text in errors.items()]
    wrong = [f"{what}: {ours} in the crate, {theirs} on this machine" for what, ours, theirs in checks if ours != theirs]
    wrong += [f"error {number}: not in <errno.h>" for number in rows if number not in named]
    tested = {function for function, _, _ in ioctls}
    wrong += [f"{function}: no test has its number" for function in MACROS if function not in tested]
    for difference in wrong:
        print("differs:", difference)
    print(f"{len(known)} constants, {len(ioctls)} ioctl numbers of the tests, {len(rows)} error numbers with their texts "
          f"in the table and in the source, {len(errors)} printed errors of the tests compared, {len(wrong)} differ")
    return 1 if wrong else 0


if __name__ == "__main__":
    sys.exit(main())
