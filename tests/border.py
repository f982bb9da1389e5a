#!/usr/bin/env python3
"""Holds what is said of the calls from C together: c/pump.h, the declarations of tests/rust/src/ffi.rs, the source in
crates/pump_c/src and the archive target/staticlib/libpump.a.

The C compiler is the judge of types: target/border.c declares each function of the header again as Rust and as Rattle
have it, and compares constants. Names and order of parameters are compared here.
"""
import pathlib
import re
import subprocess
import sys

NUMBERS = {"usize": "size_t", "u8": "uint8_t", "u16": "uint16_t", "u32": "uint32_t", "u64": "uint64_t"}

# In Rattle these parameters have other names, and a slice is one parameter where C has a pointer and a length.
RENAMED = {("pump_same", "one"): "first", ("pump_same", "two"): "second"}
LENGTHS = {"buffer": "size", "out": "size", "file": "length", "bytes": "length", "first": "first_length", "second": "second_length"}

# Constants of the header and what they are called in Rattle.
CONSTANTS = {
    "PUMP_LARGEST_SIDE": "LARGEST_SIDE",
    "PUMP_MOST_SPLITS": "MOST_SPLITS",
    "PUMP_MOST_ALLOWANCE": "MOST_ALLOWANCE",
    "PUMP_MOST_BLENDS": "MOST_BLENDS",
    "PUMP_LARGEST_FILE": "LARGEST_FILE",
    "PUMP_TABLE_TEXT": "LARGEST_TEXT",
}

# What the archive may ask of whoever links it.
ASKED = {"memcpy", "memset"}


def need(holds, what):
    if not holds:
        sys.exit(f"border: {what}")


def read(name):
    return pathlib.Path(name).read_text()


def pairs(parameters):
    """The names and types of `name: type, ..`."""
    return [tuple(part.strip() for part in one.split(":")) for one in parameters.split(",") if one.strip()]


def rust_type(text):
    for start, end in (("*mut ", " *"), ("*const ", " *"), ("", "")):
        if text.startswith(start):
            const = "const " if start == "*const " else ""
            return const + NUMBERS[text[len(start) :]] + end


def by_rust():
    block = re.search(r'extern "C" \{(.*?)\n    \}', read("tests/rust/src/ffi.rs"), re.S).group(1)
    found = re.findall(r"pub fn (\w+)\(([^)]*)\) -> (\w+);", block)
    need(len(found) == block.count("fn "), "a function of ffi.rs is written in a way that is not read here")
    return {name: (NUMBERS[answer], [(rust_type(t), p) for p, t in pairs(inside)]) for name, inside, answer in found}


def by_rattle():
    source = "".join(re.sub(r"//.*", "", path.read_text()) for path in sorted(pathlib.Path("crates/pump_c/src").glob("*.rt")))
    found = re.findall(r'#\[unsafe\(no_mangle\)\]\s+pub extern "C" fn (\w+)(?:<[^>]*>)?\(([^)]*)\) -> (\w+)', source)
    need(len(found) == source.count('extern "C"'), "a function of crates/pump_c is written in a way that is not read here")
    functions = {}
    for name, inside, answer in found:
        parameters = []
        for parameter, kind in pairs(inside):
            parameter = RENAMED.get((name, parameter), parameter)
            kind = re.sub(r"^&'\w+ ", "&", kind)
            if kind in ("&[u8]", "&mut [u8]"):
                const = "" if kind.startswith("&mut") else "const "
                parameters += [(const + "uint8_t *", parameter), ("size_t", LENGTHS[parameter])]
            elif kind.startswith("&mut "):
                parameters.append((NUMBERS[kind[5:]] + " *", parameter))
            else:
                parameters.append((NUMBERS[kind], parameter))
        functions[name] = (NUMBERS[answer], parameters)
    return functions


def by_header():
    source = re.sub(r"/\*.*?\*/", "", read("c/pump.h"), flags=re.S)
    functions = {}
    for answer, name, inside in re.findall(r"(\w+) (pump_\w+)\(([^)]*)\);", source):
        parameters = [re.fullmatch(r"(.*?)(\w+)", " ".join(one.split())).groups() for one in inside.split(",")]
        functions[name] = (answer, [(kind.strip(), parameter) for kind, parameter in parameters])
    return functions


def constants():
    """The constants of Rattle, by their last names."""
    values = {}
    for name in ("mesh/src/lib.rt", "files/src/lib.rt", "files/src/listing.rt"):
        for constant, told in re.findall(r"const (\w+): usize = ([^;]+);", read("crates/" + name)):
            values[constant] = eval(re.sub(r"\w+::", "", told), {}, values)
    return values


def declaration(name, function):
    answer, parameters = function
    return f"{answer} {name}({', '.join(kind + ' ' + parameter for kind, parameter in parameters)});"


def run(*command):
    return subprocess.run(command, check=True, capture_output=True, text=True).stdout


def main():
    header, rust, rattle, values = by_header(), by_rust(), by_rattle(), constants()
    lines = ['#include "pump.h"']
    for where, functions in (("tests/rust/src/ffi.rs", rust), ("crates/pump_c/src", rattle)):
        lines.append(f"/* {where} */")
        lines += [declaration(name, function) for name, function in functions.items()]
    told = {constant: values[name] for constant, name in CONSTANTS.items()}
    told |= {"sizeof(pump_entry)": 16, "sizeof(pump_weight)": 16}
    lines += [f"typedef char told_{at}[{what} == {value} ? 1 : -1];" for at, (what, value) in enumerate(told.items())]
    pathlib.Path("target/border.c").write_text("\n".join(lines) + "\n")
    compiled = subprocess.run("cc -std=c99 -Wall -Wextra -Werror -Ic -c -o target/border.o target/border.c".split())
    need(compiled.returncode == 0, "c/pump.h declares something else")

    for where, functions in (("tests/rust/src/ffi.rs", rust), ("crates/pump_c/src", rattle)):
        for name in sorted(header.keys() | functions.keys()):
            here, there = header.get(name), functions.get(name)
            need(here == there, f"{name}: c/pump.h has {here}, {where} {there}")
    for where, pattern in (("tests/rust/src/lib.rs", r"LARGEST_FILE: usize = ([\d_]+);"), ("c/engineer.py", r"LARGEST_FILE = (\d+)")):
        need(int(re.search(pattern, read(where)).group(1)) == values["LARGEST_FILE"], f"{where}: another LARGEST_FILE")

    archive = "target/staticlib/libpump.a"
    symbols = [line.split()[-2:] for line in run("nm", archive).splitlines() if len(line.split()) > 1]
    offered = {name for kind, name in symbols if kind in "TDBRVWC"}
    asked = {name for kind, name in symbols if kind == "U"} - offered
    need(offered == header.keys(), f"the archive has {sorted(offered)}")
    need(asked == ASKED, f"the archive asks for {sorted(asked)}")
    machines = set(re.findall(r"Machine: +(.*)", run("readelf", "-h", archive)))
    need(machines == {"Advanced Micro Devices X86-64"}, f"the archive is for {machines}")
    print(f"border: header, Rust, Rattle and archive agree on {len(header)} functions and {len(told)} constants")
    print(f"border: the archive is for x86-64 and asks for {' and '.join(sorted(asked))} alone")


main()
