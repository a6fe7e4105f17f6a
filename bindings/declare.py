"""The declarations of include/aoc.h and aoc_text.h for other languages: bindings/python/aoc/raw.py and bindings/rust/src/raw.rs.

python3 bindings/declare.py                 compares both files with the headers
python3 bindings/declare.py write           puts the headers' declarations into them
python3 bindings/declare.py layout WORK     prints the layout of every struct, as the C compiler has it, and as Python has it

The headers are read as the C preprocessor (CC, default cc) leaves them. Of a union the first member is declared: the functions
aoc_unit_at and aoc_rate_at read the others. The function with the layout's number is declared too, so that a library with another
layout is not taken."""
import os
import re
import subprocess
import sys

ROOT = os.path.dirname(os.path.dirname(os.path.abspath(__file__)))
PYTHON, RUST = "bindings/python/aoc/raw.py", "bindings/rust/src/raw.rs"
CC = os.environ.get("CC", "cc")
# a type of C, for Python and for Rust
SCALARS = {"uint8_t": ("U8", "u8"), "uint16_t": ("U16", "u16"), "uint32_t": ("U32", "u32"), "uint64_t": ("U64", "u64"),
           "size_t": ("SIZE", "usize"), "double": ("DOUBLE", "f64"), "_Bool": ("BOOL", "bool"), "char": ("CHAR", "c_char"), "void": ("None", "()")}


def preprocessed():
    """aoc.h, aoc_text.h and aoc_parts.h, each on one line, without what they include. What is not for hosts is `static` in aoc_text.h."""
    out = subprocess.run([CC, "-E", "-DAOC_INLINE=", f"-I{ROOT}/include", "-x", "c", "-"], input='#include "aoc_text.h"\n',
                         stdout=subprocess.PIPE, check=True, text=True).stdout
    lines, at = {"aoc.h": [], "aoc_text.h": [], "aoc_parts.h": []}, ""
    for line in out.splitlines():
        marker = re.match(r'# \d+ "(.*?)"', line)
        at = os.path.basename(marker[1]) if marker else at
        if not marker and at in lines:
            lines[at].append(line)
    return [" ".join(re.sub(r"__attribute__\s*\(\(.*?\)\)|__extension__|\[\[\w+\]\]", " ", " ".join(found)).split()) for found in lines.values()]


class Headers:
    def __init__(self):
        header, words, inside = preprocessed()
        self.layout = re.search(r"\b(aoc_layout_\d+)\(void\)", inside)[1]
        self.constants, self.enums = {}, set()
        for body, name in re.findall(r"\benum \{([^{}]*)\} ?(\w*) ?;", header):
            self.enums.add(name)
            for entry in filter(None, (part.strip() for part in body.split(","))):
                constant, number = (part.strip() for part in entry.split("="))
                self.constants[constant] = int(number, 0)
        self.structs = {name: self.fields(body)
                        for body, name in re.findall(r"typedef struct \{((?:[^{}]|\{[^{}]*\})*)\} (\w+) ?;", header)}
        self.functions = {self.layout: ("uint32_t", [])}
        for result, star, name, arguments in re.findall(r"(?:^|[;}] )((?:const )?\w+) (\*?)(aoc_\w+)\(([^(){};]*)\)(?= ?[;{])", header + " " + words):
            if result != "return":
                self.functions[name] = (result + (" *" if star else ""), [] if arguments == "void" else [self.argument(a) for a in arguments.split(",")])

    def number(self, text):
        return int(text, 0) if text[0].isdigit() else self.constants[text]

    def fields(self, body):
        """(name, type, sizes) of each field, the last the sizes of an array."""
        body = re.sub(r"union \{([^{};]*;)[^{}]*\} ?;", r"\1", body)
        found = []
        for line in filter(None, (part.strip() for part in body.split(";"))):
            kind, names = line.split(" ", 1)
            for one in names.split(","):
                name, *sizes = re.split(r"[\[\]]+", one.strip())
                found.append((name, kind, [self.number(size) for size in sizes if size]))
        return found

    def argument(self, text):
        kind, name = re.match(r"(.*?)(\w+)$", text.strip()).groups()
        return name, " ".join(kind.replace("*", " * ").split())

    # ---- Python
    def python_type(self, kind):
        if kind in ("const char *", "char *", "const uint8_t *"):
            return "OCTETS"         # what ctypes takes from bytes and from a buffer of characters
        if kind.endswith(" *"):
            return f"pointer({self.python_type(kind[:-2].replace('const ', ''))})"
        return "U32" if kind in self.enums else SCALARS[kind][0] if kind in SCALARS else kind

    def python(self):
        for name, number in self.constants.items():
            yield f"{name} = {number}"
        for name, fields in self.structs.items():
            yield "\n"
            yield f"class {name}(Structure):"
            row = ", ".join(f'("{field}", {" * ".join([self.python_type(kind), *map(str, reversed(sizes))])})'
                            for field, kind, sizes in fields)
            yield f"    _fields_ = [{row}]"
        yield "\n"
        yield "FUNCTIONS = {"
        for name, (result, arguments) in self.functions.items():
            types = [self.python_type(result), *(self.python_type(kind) for _, kind in arguments)]
            yield f'    "{name}": ({", ".join(types)}{"" if arguments else ","}),'
        yield "}"

    # ---- Rust
    def rust_type(self, kind):
        if kind.endswith(" *"):
            inner = kind[:-2]
            return f"*const {self.rust_type(inner[6:])}" if inner.startswith("const ") else f"*mut {self.rust_type(inner)}"
        return "u32" if kind in self.enums else SCALARS[kind][1] if kind in SCALARS else kind

    def rust_name(self, name):
        return f"r#{name}" if name in ("type", "use", "in", "ref", "match", "mod", "fn", "loop", "move", "where") else name

    def rust(self):
        for name, number in self.constants.items():
            yield f"pub const {name}: u32 = {number};"
        for name, fields in self.structs.items():
            yield ""
            yield "#[repr(C)]"
            yield "#[derive(Clone, Copy, Debug, PartialEq)]"
            yield f"pub struct {name} {{"
            for field, kind, sizes in fields:
                text = self.rust_type(kind)
                for size in reversed(sizes):
                    text = f"[{text}; {size}]"
                yield f"    pub {self.rust_name(field)}: {text},"
            yield "}"
        yield ""
        yield 'unsafe extern "C" {'
        for name, (result, arguments) in self.functions.items():
            row = ", ".join(f"{self.rust_name(word)}: {self.rust_type(kind)}" for word, kind in arguments)
            yield f"    pub fn {name}({row}){'' if result == 'void' else ' -> ' + self.rust_type(result)};"
        yield "}"
        yield f"pub use {self.layout} as aoc_layout;"

    # ---- the layout, a line for a struct and a line for a field
    def layout_program(self):
        yield '#include <stdio.h>\n#include "aoc_text.h"\nint main(void)\n{'
        for name, fields in self.structs.items():
            yield f'    printf("{name} %zu aligned to %zu\\n", sizeof({name}), _Alignof({name}));'
            for field, _, _ in fields:
                yield f'    printf("{name}.{field} %zu at %zu\\n", sizeof((({name} *)0)->{field}), offsetof({name}, {field}));'
        yield "    return 0;\n}"

    def rust_layout_program(self):
        yield "use aoc::raw;\nuse std::mem::{align_of, offset_of, size_of};\nfn size<S, F>(_: fn(&S) -> &F) -> usize {\n    size_of::<F>()\n}\nfn main() {"
        for name, fields in self.structs.items():
            yield f'    println!("{name} {{}} aligned to {{}}", size_of::<raw::{name}>(), align_of::<raw::{name}>());'
            for field, _, _ in fields:
                yield f'    println!("{name}.{field} {{}} at {{}}", size(|s: &raw::{name}| &s.{self.rust_name(field)}), offset_of!(raw::{name}, {self.rust_name(field)}));'
        yield "}"


# what stands between these two lines of a file is the headers'
FROM, TO = "declared by the headers, as bindings/declare.py writes it", "end of what the headers declare"


def parts(path):
    with open(path, encoding="utf-8") as file:
        found = re.fullmatch(rf"(.*?{FROM}\n)(.*?)(\S+ {TO}\n.*)", file.read(), re.S)
    if not found:
        sys.exit(f"declare: {path} has not both lines: '{FROM}', '{TO}'")
    return found.groups()


def python_layout():
    sys.path.insert(0, f"{ROOT}/bindings/python")
    sys.dont_write_bytecode = True
    raw = {}
    with open(f"{ROOT}/{PYTHON}", encoding="utf-8") as file:
        exec(compile(file.read(), PYTHON, "exec"), raw)
    import ctypes
    for name, struct in raw.items():
        if isinstance(struct, type) and issubclass(struct, ctypes.Structure) and struct is not ctypes.Structure:
            yield f"{name} {ctypes.sizeof(struct)} aligned to {ctypes.alignment(struct)}"
            for field, _ in struct._fields_:
                yield f"{name}.{field} {getattr(struct, field).size} at {getattr(struct, field).offset}"


def main(arguments):
    os.chdir(ROOT)
    headers = Headers()
    files = {PYTHON: headers.python, RUST: headers.rust}
    if arguments[:1] == ["layout"] and len(arguments) == 2:
        work = arguments[1]
        for name, lines in (("layout.c", headers.layout_program()), ("layout.rs", headers.rust_layout_program()), ("python.layout", python_layout())):
            with open(f"{work}/{name}", "w", encoding="utf-8") as file:
                print(*lines, sep="\n", file=file)
        return 0
    if arguments not in ([], ["write"]):
        print(__doc__, file=sys.stderr)
        return 2
    wrong = 0
    for path, lines in files.items():
        before, now, after = parts(path)
        true = "".join(line + "\n" for line in lines())
        if now != true and arguments == ["write"]:
            with open(path, "w", encoding="utf-8") as file:
                file.write(before + true + after)
        elif now != true:
            wrong += 1
            print(f"declare: {path} is not what the headers declare; 'python3 bindings/declare.py write' puts that there")
            for line in sorted(set(true.splitlines()) ^ set(now.splitlines())):
                print(f"  {'in the headers' if line in true.splitlines() else 'in the file'}: {line}")
    print(f"declare: {len(headers.constants)} constants, {len(headers.structs)} structs, {len(headers.functions)} functions; {wrong} wrong")
    return 1 if wrong or len(headers.constants) < 150 or len(headers.structs) < 25 or len(headers.functions) < 60 else 0


if __name__ == "__main__":
    sys.exit(main(sys.argv[1:]))
