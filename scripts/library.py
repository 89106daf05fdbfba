"""Makes the library for C of the archive that `rt lib` builds, and installs it.

What is made lies in bindings/out: a static library, a shared library, and a file for pkg-config.
"""
import glob
import os
import re
import shutil
import subprocess
import tempfile

HERE = os.path.dirname(os.path.dirname(os.path.realpath(__file__)))
CRATE = "jeihpal_c"
OUT = f"{HERE}/bindings/out"
ABI = 1  # as JEIHPAL_ABI of the header
UNPROVED = "unproved"  # a file beside a library that isn't proved
LINE = 64  # bytes of a line of the processor's cache
VERSION = "0.1.0"
SHARED = f"libjeihpal.so.{ABI}"
PYTHON = f"{HERE}/bindings/python"
COMMANDS = ("share", "jeihpal-test", "screenplay")
PKG_CONFIG = f"""prefix=${{pcfiledir}}/../..
includedir=${{prefix}}/include
libdir=${{prefix}}/lib

Name: jeihpal
Description: Terminal screens that arrive whole
Version: {VERSION}
Cflags: -I${{includedir}}
Libs: -L${{libdir}} -ljeihpal
"""
# For find_package(jeihpal): the targets jeihpal::jeihpal, which is shared, and jeihpal::static.
CMAKE = f"""get_filename_component(_jeihpal_prefix "${{CMAKE_CURRENT_LIST_DIR}}/../../.." ABSOLUTE)
if(NOT TARGET jeihpal::jeihpal)
  add_library(jeihpal::jeihpal SHARED IMPORTED)
  set_target_properties(jeihpal::jeihpal PROPERTIES
    IMPORTED_LOCATION "${{_jeihpal_prefix}}/lib/{SHARED}"
    IMPORTED_SONAME "{SHARED}"
    INTERFACE_INCLUDE_DIRECTORIES "${{_jeihpal_prefix}}/include")
  add_library(jeihpal::static STATIC IMPORTED)
  set_target_properties(jeihpal::static PROPERTIES
    IMPORTED_LOCATION "${{_jeihpal_prefix}}/lib/libjeihpal.a"
    INTERFACE_INCLUDE_DIRECTORIES "${{_jeihpal_prefix}}/include")
endif()
set(jeihpal_FOUND TRUE)
"""
CMAKE_VERSION = f"""set(PACKAGE_VERSION "{VERSION}")
if(PACKAGE_FIND_VERSION VERSION_GREATER PACKAGE_VERSION)
  set(PACKAGE_VERSION_COMPATIBLE FALSE)
else()
  set(PACKAGE_VERSION_COMPATIBLE TRUE)
endif()
"""


class Missing(Exception):
    """Something that is needed isn't there."""


def toolchain():
    """The folder of the Rattle toolchain."""
    said = subprocess.run(["rt", "doc"], stdout=subprocess.PIPE, text=True, check=True).stdout
    return os.path.dirname(said.split()[0])


def memory_archive():
    """The toolchain's few lines for memory, over malloc, realloc and free."""
    path = f"{toolchain()}/c/liblibc_c.a"
    if not os.path.isfile(path):
        raise Missing(f"there is no {path}")
    return path


def tool(*names):
    """The first of these programs that is on the path."""
    for name in names:
        if shutil.which(name):
            return name
    raise Missing(f"there is no {' or '.join(names)} on the path")


def code_sections(path):
    """The names of an object file's sections of code, each of which is a function."""
    words = [tool("objdump", "llvm-objdump"), "-h", "-w", path]
    said = subprocess.run(words, stdout=subprocess.PIPE, text=True, check=True).stdout
    return re.findall(r"^ *\d+ (\.text\S*) ", said, re.MULTILINE)


def aligned(archive, folder):
    """A copy of an archive, in the folder. Each function begins a line of the cache, wherever a linker puts it, so that
    what it takes depends less on the program."""
    ar, unpacked, made = tool("ar", "llvm-ar"), f"{folder}/unpacked", f"{folder}/{os.path.basename(archive)}"
    os.mkdir(unpacked)
    subprocess.run([ar, "x", archive], cwd=unpacked, check=True)
    members = sorted(os.listdir(unpacked))
    for name in members:
        path = f"{unpacked}/{name}"
        words = [it for section in code_sections(path) for it in ("--set-section-alignment", f"{section}={LINE}")]
        subprocess.run([tool("objcopy", "llvm-objcopy"), *words, path], check=True)
    subprocess.run([ar, "rcsD", made, *members], cwd=unpacked, check=True)
    return made


def make_static(archive, memory):
    """The proved archive, with the lines for memory merged in: one file to link."""
    made = f"{OUT}/libjeihpal.a"
    ar = tool("ar", "llvm-ar")
    with tempfile.TemporaryDirectory() as folder:
        subprocess.run([ar, "x", memory], cwd=folder, check=True)
        shutil.copy(archive, f"{folder}/made.a")
        members = sorted(name for name in os.listdir(folder) if name.endswith(".o"))
        subprocess.run([ar, "rcsD", "made.a", *members], cwd=folder, check=True)
        os.replace(shutil.copy(f"{folder}/made.a", f"{made}.new"), made)
    return made


def make_shared(archive, memory):
    """A shared library that needs the C library alone, and exports the header's names alone."""
    made = f"{OUT}/{SHARED}"
    whole = ["-Wl,--whole-archive", archive, "-Wl,--no-whole-archive", memory]
    how = ["-Wl,--exclude-libs,liblibc_c.a", "-Wl,-z,defs", "-Wl,-z,text", "-Wl,-z,relro", "-Wl,-z,now"]
    words = [tool("cc", "clang", "gcc"), "-shared", "-O2", "-o", f"{made}.new", f"-Wl,-soname,{SHARED}", *whole, *how]
    subprocess.run(words, check=True)
    os.replace(f"{made}.new", made)
    link(SHARED, f"{OUT}/libjeihpal.so")
    return made


def link(to, at):
    """Makes a symbolic link, in place of an earlier one."""
    if os.path.lexists(at):
        os.remove(at)
    os.symlink(to, at)


def make(archive=f"{HERE}/crates/{CRATE}/out/lib{CRATE}.a", is_proved=True):
    """Makes everything, of the archive that `rt lib` has built, or of another one. Answers the files' names."""
    if not os.path.isfile(archive):
        raise Missing(f"there is no {archive}: rt ci builds none, and removes one; rt lib makes it")
    os.makedirs(OUT, exist_ok=True)
    if not is_proved:
        mark_proof(is_proved)
    memory = memory_archive()
    with open(f"{OUT}/jeihpal.pc", "w", encoding="utf-8") as file:
        file.write(PKG_CONFIG)
    with tempfile.TemporaryDirectory() as folder:
        archive = aligned(archive, folder)
        made = [make_static(archive, memory), make_shared(archive, memory), f"{OUT}/jeihpal.pc"]
    keep_licenses(f"{OUT}/licenses")
    mark_proof(is_proved)
    return made


def mark_proof(is_proved):
    """Says in a file beside the library that it is unproved, or removes that."""
    if not is_proved:
        with open(f"{OUT}/{UNPROVED}", "w", encoding="utf-8") as file:
            file.write("This library is compiled without proofs; ./build --library makes a proved one.\n")
    elif os.path.exists(f"{OUT}/{UNPROVED}"):
        os.remove(f"{OUT}/{UNPROVED}")


def libraries_below(name):
    """The libraries that one of the toolchain's stands on."""
    below = f"{toolchain()}/rlibs/{name}.rlib/below"
    return os.listdir(below) if os.path.isdir(below) else []


def toolchain_libraries():
    """The toolchain's libraries that the archive stands on: those that crates.txt names, and those below them."""
    uses, found, left = {}, set(), [CRATE]
    with open(f"{HERE}/crates.txt", encoding="utf-8") as file:
        for line in file:
            head, colon, words = line.split("#")[0].partition(":")
            if colon:
                uses[head.split()[0]] = words.split()
    while left:
        name = left.pop()
        if name not in found:
            found.add(name)
            left += uses[name] if name in uses else libraries_below(name)
    return sorted(found - set(uses))


def keep_licenses(folder):
    """Copies the licenses of the toolchain's libraries that the archive holds, for what is packed of it."""
    os.makedirs(folder, exist_ok=True)
    for name in toolchain_libraries():
        for path in glob.glob(f"{toolchain()}/rattle/{name}/LICENSE*"):
            shutil.copy(path, f"{folder}/{os.path.basename(path)}-{name}")


def install_licenses(folder):
    """Copies the license here, and those of the toolchain's libraries that the archive holds."""
    shutil.copy(f"{HERE}/LICENSE", folder)
    keep_licenses(folder)


def install_cmake(folder):
    """Writes what find_package(jeihpal) reads."""
    os.makedirs(folder, exist_ok=True)
    for name, text in (("jeihpal-config", CMAKE), ("jeihpal-config-version", CMAKE_VERSION)):
        with open(f"{folder}/{name}.cmake", "w", encoding="utf-8") as file:
            file.write(text)
    return f"{folder}/jeihpal-config.cmake"


def install_python(folder):
    """Copies the module, share and screenplay, with a link to the shared library."""
    for name in ("jeihpal", "jeihpal_share", "jeihpal_play"):
        shutil.rmtree(f"{folder}/{name}", ignore_errors=True)
        shutil.copytree(f"{PYTHON}/{name}", f"{folder}/{name}", ignore=shutil.ignore_patterns("__pycache__"))
    link(f"../../../{SHARED}", f"{folder}/jeihpal/libjeihpal.so")


def install_configurations(folder):
    """Copies the configurations of nginx for share."""
    shutil.rmtree(folder, ignore_errors=True)
    shutil.copytree(f"{HERE}/bindings/share", folder)


def install_share(path):
    """Copies the command, which finds the module from where it lies."""
    with open(f"{HERE}/{os.path.basename(path)}", encoding="utf-8") as file:
        text = file.read()
    text = text.replace('"bindings", "python"', '"..", "lib", "jeihpal", "python"')
    ours = "from a checkout, over the library that ./build --library has made"
    text = text.replace(ours, "over the installed library")
    with open(path, "w", encoding="utf-8") as file:
        file.write(text)
    os.chmod(path, 0o755)


def install(prefix):
    """Copies everything below a folder. Answers the names of what was copied."""
    prefix = os.path.abspath(prefix)
    for name in ("bin", "include", "lib/pkgconfig", "lib/jeihpal/python", "share/doc/jeihpal"):
        os.makedirs(f"{prefix}/{name}", exist_ok=True)
    copied = [
        shutil.copy(f"{OUT}/libjeihpal.a", f"{prefix}/lib"),
        shutil.copy(f"{OUT}/{SHARED}", f"{prefix}/lib"),
        shutil.copy(f"{OUT}/jeihpal.pc", f"{prefix}/lib/pkgconfig"),
        shutil.copy(f"{HERE}/bindings/include/jeihpal.h", f"{prefix}/include"),
        shutil.copy(f"{HERE}/bindings/include/jeihpal.hpp", f"{prefix}/include"),
        install_cmake(f"{prefix}/lib/cmake/jeihpal"),
    ]
    install_licenses(f"{prefix}/share/doc/jeihpal")
    install_configurations(f"{prefix}/share/doc/jeihpal/nginx")
    link(SHARED, f"{prefix}/lib/libjeihpal.so")
    install_python(f"{prefix}/lib/jeihpal/python")
    commands = [f"{prefix}/bin/{name}" for name in COMMANDS]
    for path in commands:
        install_share(path)
    return [*copied, f"{prefix}/lib/libjeihpal.so", f"{prefix}/lib/jeihpal/python", *commands]
