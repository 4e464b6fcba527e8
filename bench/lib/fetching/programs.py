"""The programs that are fetched: their source packages, and how each is built so that all its compilations are seen."""
import dataclasses

# what Linux wants for its configuration and for the headers of these folders; all of it would be 1.3 GB
KERNEL_UNPACKED = ["Kconfig*", "Makefile*", "Kbuild*", "arch/x86/*", "include/*", "scripts/*", "kernel/*", "lib/*", "mm/*", "fs/*",
                   "init/*", "drivers/ata/*", "drivers/input/*", "drivers/usb/core/*", "drivers/base/*.h", "drivers/scsi/*.h",
                   "block/*.h", "sound/core/*", "security/selinux/include/*", "tools/include/*", "tools/objtool/*", "tools/build/*",
                   "tools/lib/*", "tools/scripts/*", "tools/arch/x86/*"]
# objects without content are nothing for objtool, and the kernel's own tools run too shortly to be worth an optimization
KERNEL_MAKE = 'make CC="$CC" HOSTCFLAGS=-O0 CONFIG_OBJTOOL='
KERNEL_PARTS = ["drivers/ata", "drivers/input", "drivers/usb/core", "fs/jbd2", "fs/proc", "mm", "sound/core"]
KERNEL_FILES = ["bitmap", "cmdline", "debugobjects", "dynamic_debug", "genalloc", "hexdump", "idr", "iov_iter", "klist", "kobject",
                "kstrtox", "parser", "radix-tree", "rbtree", "rhashtable", "sbitmap", "scatterlist", "string", "vsprintf", "xarray"]


@dataclasses.dataclass(frozen=True)
class Program:
    """A program: its name here, its source package, the commands before its compilations are recorded, those whose compilations are, which
    folders of its source count (all, where there is none), what has to stand on the machine for it, and which parts of its source are
    unpacked (all, where there is none)."""
    name: str
    package: str
    before: tuple = ()
    recorded: tuple = ()
    folders: tuple = ()
    needs: tuple = ("make", "gcc")
    parts: tuple = ()


PROGRAMS = [
    Program("zlib", "zlib", ("sh configure --static",), ("make libz.a",)),
    Program("less", "less", ("sh configure",), ("make -k",)),
    Program("dash", "dash", ("sh configure",), ("make -k ACLOCAL=: AUTOCONF=: AUTOMAKE=: AUTOHEADER=:",)),
    Program("hiredis", "hiredis", (), ("make -k static",)),
    Program("redis", "redis", (), ("make -k -C src MALLOC=libc OPTIMIZATION=-O0 all",), folders=("src",)),
    Program("busybox", "busybox", ("make defconfig",), ("RECORD_ONLY=yes make -k CC=\"$CC\" busybox_unstripped",)),
    Program("cjson", "cjson", (), ("make -k CC=\"$CC -std=c89\" static",)),
    Program("bzip2", "bzip2", (), ("make -k CC=\"$CC\" libbz2.a bzip2.o",)),
    Program("jansson", "jansson", ("cmake -S . -B build -DJANSSON_BUILD_DOCS=OFF -DJANSSON_EXAMPLES=OFF -DJANSSON_WITHOUT_TESTS=ON",),
            ("make -k -C build",), needs=("make", "gcc", "cmake")),
    # (its first command makes the header that the package's own build would)
    Program("lua", "lua5.4", ("echo '#define DEB_HOST_MULTIARCH \"any\"' > src/lua5.4-deb-multiarch.h",),
            ("cd src && for file in l*.c; do $CC -std=gnu99 -DLUA_USE_POSIX -c $file; done",)),
    Program("libpng", "libpng1.6", ("sh configure",), ("make -k libpng16.la",)),
    Program("sqlite3", "sqlite3", ("sh configure", "make sqlite3.c"), ("RECORD_ONLY=yes $CC -c sqlite3.c",), needs=("make", "gcc", "tclsh")),
    Program("kernel", "linux", (KERNEL_MAKE + " defconfig", KERNEL_MAKE + " prepare"),
            (f"RECORD_ONLY=yes {KERNEL_MAKE} -k {' '.join(part + '/' for part in KERNEL_PARTS)} "
             f"{' '.join(f'lib/{name}.o' for name in KERNEL_FILES)}",),
            folders=(*KERNEL_PARTS, "lib"), needs=("make", "gcc", "flex", "bison", "bc"), parts=tuple(KERNEL_UNPACKED)),
]
LIBRARIES = ["cjson", "bzip2", "jansson", "lua", "libpng", "sqlite3"]
USUAL = [program.name for program in PROGRAMS if program.name not in [*LIBRARIES, "kernel"]]


def by_name(name):
    """The program of a name, or None."""
    return next((program for program in PROGRAMS if program.name == name), None)
