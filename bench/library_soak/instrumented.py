"""Builds the library for C with sanitizers, from its sources and unproved: `instrumented.built(FOLDER)`.

The kit's command builds no library with sanitizers, but a program that is tried before it is proved (`rt try`) has the marks of
AddressSanitizer in its bitcode. So in a copy of this repository the files of td_c become a program `library_soak`, whose `main` calls each
export in a branch that is never taken. Its bitcode is taken from the folder for temporary files while the program is built; linking it may
fail. The exports get their names back, and the bitcode is compiled three times: for AddressSanitizer, for ThreadSanitizer, and plainly.
"""

import glob
import os
import re
import shutil
import subprocess
import threading
import time

TOP = os.path.dirname(os.path.dirname(os.path.dirname(os.path.abspath(__file__))))
NAME = "library_soak"
LIMIT = 3600
# How each object is compiled: the attribute of its functions, and the flags.
KINDS = {
    "address": (" sanitize_address", ["-O1", "-fsanitize=address"]),
    "thread": (" sanitize_thread", ["-O1", "-fsanitize=thread"]),
    "plain": ("", ["-O2"]),
}
# A call of each export, by the module that it stands in.
CALLS = """
exports::td_c_open_1(alloc, &mut h, false, b"x", &mut fault);
exports::td_c_again(alloc, &mut h, false, &mut other, false);
exports::td_c_close(&mut h, false);
exports::td_c_validate(&mut h, false, &mut call, &mut words, 0, &mut rows);
exports::td_c_validate_parts(alloc, &mut h, false, &mut call, &parts, &mut words, 0, &mut rows);
tables::td_c_entry(&mut h, false, b"x", &mut number);
tables::td_c_describe(&mut h, false, 0, &mut entry);
tables::td_c_param(&mut h, false, 0, 0, &mut part);
tables::td_c_cell(&mut h, false, 0, 0, &mut part);
tables::td_c_buffer(&mut h, false, 0, 0, &mut buffer);
tables::td_c_name(&mut h, false, 0, &mut bytes, &mut size);
copies::td_c_copy(&mut h, false, 0, &mut bytes, &mut size);
frames::td_c_frame(&mut h, false, 0, &mut frame);
versions::td_c_codes_1(alloc, &mut h, false);
versions::td_c_add(alloc, &mut h, false, b"x", &mut fault);
versions::td_c_begin(alloc, &mut h, false);
versions::td_c_publish(&mut h, false, &mut number);
versions::td_c_seat(alloc, &mut h, false, &mut other, false);
versions::td_c_current(&mut h, false, &mut number);
versions::td_c_version(alloc, &mut h, false, 0, &mut other, false);
""".split("\n")[1:-1]
TOUCH = """//! Calls each export, so that each is built.

use crate::answers::TdFrame;
use crate::call::TdCall;
use crate::handle::TdSession;
use crate::images::TdFault;
use crate::parts::TdStretch;
use crate::tables::{TdBuffer, TdEntry, TdPart};
use crate::{copies, exports, frames, tables, versions};
use std::alloc::Global;
use td_foreign::{TdLoad, TdWords};

pub fn touch(alloc: Global) {
    let mut h = TdSession::none();
    let mut other = TdSession::none();
    let mut fault = TdFault { place: 0, rule: 0 };
    let mut number = 0u32;
    let mut size = 0u64;
    let mut bytes = [0u8; 4];
    let mut words = TdWords::none();
    let mut rows = [TdLoad { stretch: 0, word: 0, value: 0 }];
    let parts = [TdStretch { place: 0, size: 0 }];
    let mut frame = TdFrame { kind: 0, spot: 0, field: 0, start: 0, reason: 0 };
    let mut entry = TdEntry { name: 0, unused: 0, param_count: 0, cell_count: 0, buffer_count: 0 };
    let mut part = TdPart { name: 0, has_field: 0, field: 0, bytes: 0, is_place: 0 };
    let mut buffer = TdBuffer { name: 0, room: 0 };
    let mut call = TdCall {
        entry: 0, place: 0, length: 0, arg_count: 0, cell_count: 0, position: 0, reason: 0, unused: 0,
        frame_count: 0, load_count: 0, step_count: 0, args: [0; 16], cells: [0; 64],
    };
%s
}
""" % "\n".join("    " + line for line in CALLS)
# A word count of a hundred is never given, and the compiler doesn't know that.
MAIN = """
mod touch;

unsafe extern "C" {
    fn library_soak_main() -> i32;
}

fn main(rt: HostRuntime) -> std::process::ExitCode {
    let mut n = 0;
    if let Ok(words) = std::env::args(&rt) {
        for _word in words {
            n += 1;
        }
    }
    if n > 100 {
        touch::touch(rt.alloc());
    }
    let code = unsafe { library_soak_main() };
    std::process::ExitCode::from(if code == 0 { 0 } else { 1 })
}
"""


def crates():
    """The crates of crates.txt, each with those that its line names."""
    found = {}
    with open(os.path.join(TOP, "crates.txt"), encoding="utf-8") as file:
        for line in file:
            before, colon, after = line.split("#")[0].partition(":")
            if colon:
                found[before.split()[0]] = after.split()
    return found


def below(deps, name):
    """The repository's crates below this one."""
    found, left = set(), [name]
    while left:
        for dep in deps[left.pop()]:
            if dep in deps and dep not in found:
                found.add(dep)
                left.append(dep)
    return found


def write(path, text):
    with open(path, "w", encoding="utf-8") as file:
        file.write(text)


def read(path):
    with open(path, encoding="utf-8") as file:
        return file.read()


def own_files(folder):
    """td_c's files as those of the program; what its `main` calls is in reach there."""
    for path in glob.glob(folder + "/**/*", recursive=True):
        if os.path.isfile(path):
            text = read(path).replace("Rattle.td_c.", "Rattle.%s." % NAME)
            text = text.replace("    fn none() -> TdSession", "    pub(crate) fn none() -> TdSession")
            write(path, re.sub(r"#\[repr\(C\)\]\npub struct (TdFault|TdCall)", r"#[repr(C)]\n#[derive(Drop)]\npub struct \1", text))
    root = os.path.join(folder, "src/lib.rt")
    write(os.path.join(folder, "src/main.rt"), read(root) + MAIN)
    os.remove(root)
    write(os.path.join(folder, "src/touch.rt"), TOUCH)
    os.makedirs(os.path.join(folder, "c"))
    write(os.path.join(folder, "c/soak.c"), "int td_c_close();\nint library_soak_main(void) { return td_c_close(); }\n")


def copied(repository):
    """A copy of td_c's crates, with the program in td_c's place; the program's folder."""
    deps, lines = crates(), []
    needed = below(deps, "td_c")
    for crate in deps:
        if crate in needed:
            for part in ("src", "specs", "proofs"):
                if os.path.isdir(os.path.join(TOP, "crates", crate, part)):
                    shutil.copytree(os.path.join(TOP, "crates", crate, part), os.path.join(repository, "crates", crate, part))
            lines.append("%s: %s" % (crate, " ".join(deps[crate])))
    own = os.path.join(repository, "crates", NAME)
    for part in ("src", "specs"):
        shutil.copytree(os.path.join(TOP, "crates/td_c", part), os.path.join(own, part))
    lines.append("%s: %s" % (NAME, " ".join(deps["td_c"])))
    write(os.path.join(repository, "crates.txt"), "\n".join(lines) + "\n")
    shutil.copy(os.path.join(TOP, "HANDLES"), repository)
    subprocess.run(["git", "init", "-q", repository], check=True)
    own_files(own)
    return own


def bitcode(own, folder):
    """The bitcode of the program, as the kit's command writes it on its way."""
    temporary, kept, is_over = os.path.join(folder, "temporary"), os.path.join(folder, "module.bc"), threading.Event()
    os.makedirs(temporary)

    def keep():
        while not is_over.is_set():
            for path in glob.glob(temporary + "/**/module.bc", recursive=True):
                try:
                    shutil.copy(path, kept)
                except OSError:
                    pass
            time.sleep(0.1)

    watch = threading.Thread(target=keep)
    watch.start()
    try:
        environment = {**os.environ, "TMPDIR": temporary, "RT_ALLOW_C": NAME}
        ran = subprocess.run(["rt", "try", NAME], cwd=own, stdin=subprocess.DEVNULL, stdout=subprocess.PIPE, stderr=subprocess.STDOUT, env=environment, check=False, timeout=LIMIT)
    finally:
        is_over.set()
        watch.join()
    if not os.path.exists(kept):
        raise SystemExit("library_soak: no bitcode: " + ran.stdout.decode(errors="replace")[-800:])
    return kept


def with_own_names(text):
    """The exports under the names that C calls, and the program's `main` under another."""
    for name in sorted(set(re.findall(r'@"%s::\w+::(td_c_\w+)"' % NAME, text))):
        long = re.search(r'@"(%s::\w+::%s)"' % (NAME, name), text)[1]
        for kind in ("noundef i32", "void"):
            text = text.replace('define internal %s @"%s"(' % (kind, long), "define %s @%s(" % (kind, name))
        text = text.replace('@"%s"' % long, "@" + name)
    return re.sub(r"@main\b", "@rattle_main", text)


def built(folder):
    """The objects, by kind, each with the compiler that has its sanitizer."""
    kept = bitcode(copied(os.path.join(folder, "repository")), folder)
    page = subprocess.run(["rt", "doc"], stdout=subprocess.PIPE, check=True).stdout.decode().strip()
    clang = os.path.join(os.path.dirname(page), "toolchain/bin/clang")
    listing = os.path.join(folder, "module.ll")
    subprocess.run([clang, "-S", "-emit-llvm", "-x", "ir", kept, "-o", listing], check=True)
    text, objects = with_own_names(read(listing)), {}
    if text.count("define noundef i32 @td_c_") + text.count("define void @td_c_") != len(CALLS):
        raise SystemExit("library_soak: the exports of the bitcode aren't those that are called")
    for kind, (attribute, flags) in KINDS.items():
        path = os.path.join(folder, kind)
        write(path + ".ll", text.replace("nounwind sanitize_address", "nounwind" + attribute))
        subprocess.run([clang, "-c", *flags, "-x", "ir", path + ".ll", "-o", path + ".o"], check=True)
        objects[kind] = path + ".o"
    return objects
