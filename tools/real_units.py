"""What tools/real-tables compiles: packages, targets and translation units. Everything comes from Debian 12's archive.

Paths of sources and flags stand for files below the work folder: SRC/P is the unpacked source package P, ROOT the unpacked binary packages,
MADE the files below, which stand in for what the packages' own configuration would write.
"""

INSTALLED = {"clang-14": "clang-14", "clang-19": "clang-19", "llvm-bcanalyzer-19": "llvm-19", "xz": "xz-utils", "bzip2": "bzip2"}

SOURCES = """arduino-core-avr box2d brotli bzip2 catch2 chipmunk cjson double-conversion duktape fmtlib googletest hiredis http-parser leveldb
 libjsoncpp libmodbus libpolyclipping libuv1 libyaml libzstd lmdb lua5.4 lwip lz4 mbedtls mujs nanopb ninja-build pixman pugixml re2 spdlog
 tinyxml2 xxhash yaml-cpp zlib""".split()

CROSS = {"amd64": "x86_64-linux-gnu", "i386": "i686-linux-gnu", "arm64": "aarch64-linux-gnu", "armhf": "arm-linux-gnueabihf",
         "riscv64": "riscv64-linux-gnu", "s390x": "s390x-linux-gnu"}
PACKAGES = [p.format(a) for a in CROSS for p in ("libc6-dev-{}-cross", "linux-libc-dev-{}-cross", "libstdc++-12-dev-{}-cross")] + """
 libnewlib-dev libnewlib-arm-none-eabi libstdc++-arm-none-eabi-dev wasi-libc libc++-14-dev-wasm32 libc++-19-dev-wasm32 mingw-w64-x86-64-dev
 mingw-w64-common avr-libc libstb-dev libeigen3-dev nlohmann-json3-dev rapidjson-dev darktable""".split()
CRATES = """adler aho-corasick base64 bytes data-encoding fixedbitset getopts fallible-iterator gimli httparse humantime libm md5 memchr
 minimal-lexical miniz-oxide object percent-encoding regex-syntax rustc-demangle ryu semver strsim textwrap ttf-parser unicode-bidi
 unicode-segmentation unicode-width xml-rs xmlparser""".split()
RUSTCS = {"rustc-1.63": "rustc libstd-rust-1.63 libstd-rust-dev rust-src".split(),
          "rustc-web": "rustc-web libstd-rust-web-1.96 libstd-rust-web-dev rust-web-src libllvm22".split()}

MADE = {
    "arch/cc.h": "",
    "config.h": "",
    "modbus-version.h": "".join(f"#define LIBMODBUS_VERSION_{k} {v}\n" for k, v in {"MAJOR": 3, "MINOR": 1, "MICRO": 6, "STRING": '"3.1.6"'}.items()),
    "compiler_builtins.rs": "#![no_std]\n#![feature(compiler_builtins)]\n#![compiler_builtins]\n",
    "json.cpp": """#include <nlohmann/json.hpp>
std::string again(const std::string &text) { return nlohmann::json::parse(text).dump(2); }
""",
    "rapidjson.cpp": """#include <rapidjson/document.h>
#include <rapidjson/prettywriter.h>
#include <rapidjson/stringbuffer.h>
void again(const char *text, rapidjson::StringBuffer &out) {
    rapidjson::Document document;
    document.Parse(text);
    rapidjson::PrettyWriter<rapidjson::StringBuffer> writer(out);
    document.Accept(writer);
}
""",
    "eigen.cpp": """#include <Eigen/Dense>
Eigen::VectorXd solved(const Eigen::MatrixXd &a, const Eigen::VectorXd &b) { return a.colPivHouseholderQr().solve(b); }
Eigen::Matrix4f inverse(const Eigen::Matrix4f &m) { return m.inverse(); }
""",
}

# ---- targets of clang: flags, folders of the C headers, folders of the C++ headers that stand before them


def linux(triple, folder, *flags):
    c = f"ROOT/usr/{folder}/include"
    return [f"--target={triple}", *flags], [c], [f"{c}/c++/12", f"{c}/c++/12/{folder}", f"{c}/c++/12/backward"]


NEWLIB = "ROOT/usr/include/newlib"
CLANG_TARGETS = {
    "x86_64-linux-gnu": linux("x86_64-linux-gnu", "x86_64-linux-gnu"),
    "i686-linux-gnu": linux("i686-linux-gnu", "i686-linux-gnu"),
    "aarch64-linux-gnu": linux("aarch64-linux-gnu", "aarch64-linux-gnu"),
    "armv7-linux-gnueabihf": linux("armv7-linux-gnueabihf", "arm-linux-gnueabihf"),
    "riscv64-linux-gnu": linux("riscv64-linux-gnu", "riscv64-linux-gnu", "-march=rv64gc"),
    "riscv64-linux-gnu +v": linux("riscv64-linux-gnu", "riscv64-linux-gnu", "-march=rv64gcv"),
    "s390x-linux-gnu": linux("s390x-linux-gnu", "s390x-linux-gnu"),
    "thumbv7m-none-eabi": (["--target=thumbv7m-none-eabi"], [NEWLIB], [f"{NEWLIB}/c++/12.2.1", f"{NEWLIB}/c++/12.2.1/arm-none-eabi/thumb/v7-m/nofp"]),
    "wasm32-wasi": (["--target=wasm32-wasi", "-D_WASI_EMULATED_SIGNAL", "-D_WASI_EMULATED_MMAN", "-D_WASI_EMULATED_PROCESS_CLOCKS"], ["ROOT/usr/include/wasm32-wasi"], ["ROOT/usr/lib/llvm-VERSION/include/wasm32-wasi/c++/v1"]),
    "x86_64-w64-mingw32": (["--target=x86_64-w64-mingw32"], ["ROOT/usr/share/mingw-w64/include"], []),
    "avr": (["--target=avr", "-mmcu=atmega328p"], ["ROOT/usr/lib/avr/include"], []),
    "spirv64": (["--target=spirv64"], [], []),
}
C_TARGETS = [t for t in CLANG_TARGETS if t not in ("avr", "spirv64", "riscv64-linux-gnu +v")]
CPP_TARGETS = ["x86_64-linux-gnu", "armv7-linux-gnueabihf", "thumbv7m-none-eabi", "wasm32-wasi"]

# ---- units of clang: name, source, further flags; the language is that of the list


def each(package, folder, names, *flags, ending=".c"):
    return [(f"{package} {n}{ending}", f"SRC/{package}/{folder}{n}{ending}", list(flags)) for n in names.split()]


def stb(name):
    return (f"stb stb_{name}.h", f"ROOT/usr/include/stb/stb_{name}.h", ["-x", "c", f"-DSTB_{name.upper()}_IMPLEMENTATION"])


YAML = [f"-DYAML_VERSION_{k}={v}" for k, v in {"MAJOR": 0, "MINOR": 2, "PATCH": 5, "STRING": '"0.2.5"'}.items()]
C_UNITS = [
    *each("zlib", "", "deflate inflate"),
    *each("lua5.4", "src/", "lapi lvm lgc lparser"),
    *each("bzip2", "", "bzlib"),
    *each("cjson", "", "cJSON"),
    *each("lz4", "lib/", "lz4hc"),
    *each("libzstd", "lib/", "compress/zstd_compress decompress/zstd_decompress"),
    *each("mbedtls", "library/", "ssl_tls x509_crt bignum", "-ISRC/mbedtls/include"),
    *each("lwip", "src/", "core/tcp_in core/ipv4/dhcp apps/mqtt/mqtt", "-ISRC/lwip/src/include", "-ISRC/lwip/test/fuzz", "-IMADE"),
    *each("nanopb", "", "pb_decode"),
    *each("brotli", "c/", "dec/decode", "-ISRC/brotli/c/include"),
    *each("http-parser", "", "http_parser"),
    *each("hiredis", "", "async"),
    *each("libuv1", "src/", "unix/loop unix/stream", "-D_GNU_SOURCE", "-ISRC/libuv1/include", "-ISRC/libuv1/src"),
    *each("lmdb", "libraries/liblmdb/", "mdb"),
    *each("mujs", "", "jsrun jsparse"),
    *each("chipmunk", "src/", "cpSpace", "-ISRC/chipmunk/include"),
    *each("libmodbus", "src/", "modbus modbus-rtu", "-IMADE", "-ISRC/libmodbus/src"),
    *each("libyaml", "src/", "parser", "-IMADE", "-ISRC/libyaml/include", *YAML),
    *each("pixman", "pixman/", "pixman-image", "-DTLS=__thread", '-DPACKAGE="pixman"', "-ISRC/pixman/pixman"),
    *map(stb, "image truetype ds".split()),
]
# Units for single targets.
MMX_UNITS = each("pixman", "pixman/", "pixman-mmx", "-DTLS=__thread", "-mmmx", "-DUSE_X86_MMX", '-DPACKAGE="pixman"', "-ISRC/pixman/pixman")
LARGE_UNITS = each("duktape", "src/", "duktape")
AVR = ["-DF_CPU=16000000L", "-DARDUINO=10800", "-ISRC/arduino-core-avr/cores/arduino", "-ISRC/arduino-core-avr/variants/standard"]
AVR_UNITS = each("arduino-core-avr", "cores/arduino/", "wiring_analog WInterrupts", *AVR)
AVR_CPP_UNITS = each("arduino-core-avr", "cores/arduino/", "HardwareSerial Print WString", *AVR, ending=".cpp")
KERNELS = "ROOT/usr/share/darktable/kernels"
CL_UNITS = [(f"darktable {n}.cl", f"{KERNELS}/{n}.cl", ["-x", "cl", "-cl-std=CL1.2", "-Xclang", "-finclude-default-header", f"-I{KERNELS}"])
            for n in "basic blendop demosaic_ppg filmic".split()]

GTEST = "SRC/googletest/google"
CPP_UNITS = [
    *each("tinyxml2", "", "tinyxml2", ending=".cpp"),
    *each("pugixml", "src/", "pugixml", ending=".cpp"),
    *each("fmtlib", "src/", "format os", "-ISRC/fmtlib/include", ending=".cc"),
    *each("googletest", "googletest/src/", "gtest-all", f"-I{GTEST}test", f"-I{GTEST}test/include", ending=".cc"),
    *each("libjsoncpp", "src/lib_json/", "json_reader json_writer", "-ISRC/libjsoncpp/include", ending=".cpp"),
    *each("yaml-cpp", "src/", "scanner emitter", "-ISRC/yaml-cpp/include", ending=".cpp"),
    *each("re2", "re2/", "dfa parse", "-ISRC/re2", ending=".cc"),
    *each("double-conversion", "double-conversion/", "string-to-double", "-ISRC/double-conversion", ending=".cc"),
    *each("box2d", "src/", "dynamics/b2_world dynamics/b2_contact_solver collision/b2_dynamic_tree", "-ISRC/box2d/include", "-ISRC/box2d/src", ending=".cpp"),
    *each("ninja-build", "src/", "build manifest_parser", ending=".cc"),
    *each("libpolyclipping", "cpp/", "clipper", ending=".cpp"),
    *each("leveldb", "", "db/version_set", "-DLEVELDB_PLATFORM_POSIX=1", "-DLEVELDB_HAS_PORT_CONFIG_H=0", "-ISRC/leveldb", "-ISRC/leveldb/include", ending=".cc"),
    ("nlohmann-json3 json.hpp", "MADE/json.cpp", ["-IROOT/usr/include"]),
    ("rapidjson document.h", "MADE/rapidjson.cpp", ["-IROOT/usr/include"]),
    ("eigen3 Dense", "MADE/eigen.cpp", ["-IROOT/usr/include/eigen3"]),
]
LARGE_CPP_UNITS = [
    *each("spdlog", "src/", "spdlog", "-DSPDLOG_COMPILED_LIB", "-DSPDLOG_FMT_EXTERNAL", "-ISRC/spdlog/include", "-ISRC/fmtlib/include", ending=".cpp"),
    ("catch2 catch.hpp", "SRC/catch2/single_include/catch2/catch.hpp", ["-x", "c++", "-DCATCH_CONFIG_MAIN"]),
]

# What clang is asked for: language, units, targets, versions, the options that the table's line shows.
PLAIN, OPAQUE = ["x86_64-linux-gnu"], ["x86_64-linux-gnu", "thumbv7m-none-eabi"]
CLANG_RUNS = [
    ("C", C_UNITS, C_TARGETS, "14 19", "-O2"),
    ("C", C_UNITS, PLAIN, "14 19", "-O0"),
    ("C", C_UNITS, OPAQUE, "14", "-O0 -opaque-pointers"),
    ("C", C_UNITS, ["riscv64-linux-gnu +v"], "19", "-O2"),
    ("C", LARGE_UNITS, OPAQUE, "14 19", "-O2"),
    ("C", MMX_UNITS, ["x86_64-linux-gnu", "i686-linux-gnu"], "14 19", "-O2"),
    ("C", AVR_UNITS, ["avr"], "14 19", "-O2"),
    ("C++", CPP_UNITS, CPP_TARGETS, "14 19", "-O2"),
    ("C++", CPP_UNITS, PLAIN, "14 19", "-O0"),
    ("C++", CPP_UNITS, PLAIN, "14", "-O0 -opaque-pointers"),
    ("C++", LARGE_CPP_UNITS, PLAIN, "14 19", "-O2"),
    ("C++", AVR_CPP_UNITS, ["avr"], "14 19", "-O2"),
    ("OpenCL C", CL_UNITS, ["spirv64"], "14 19", "-O2"),
]

# ---- units of rustc: crate, edition, features, crates below it; std where it needs more than core and alloc. Crates stand behind those they need


def crate(name, edition, features="", below="", std=False, path="src/lib.rs"):
    return (name, edition, features.split(), below.split(), std, path)


RUST_UNITS = [
    crate("adler", 2015),
    crate("base64", 2018, "alloc"),
    crate("bytes", 2018),
    crate("data-encoding", 2018, "alloc"),
    crate("fallible-iterator", 2018),
    crate("fixedbitset", 2015),
    crate("gimli", 2018, "read-core"),
    crate("httparse", 2018),
    crate("libm", 2018),
    crate("md5", 2015),
    crate("memchr", 2018),
    crate("minimal-lexical", 2018),
    crate("miniz_oxide", 2018, "with-alloc", "adler"),
    crate("object", 2018, "read_core elf", "memchr"),
    crate("percent-encoding", 2018, "alloc"),
    crate("rustc-demangle", 2015),
    crate("ryu", 2015),
    crate("semver", 2018),
    crate("ttf-parser", 2018),
    crate("unicode-bidi", 2018, "hardcoded-data"),
    crate("unicode-segmentation", 2018),
    crate("unicode-width", 2015),
    crate("xmlparser", 2018),
    crate("aho-corasick", 2018, "std", "memchr", std=True),
    crate("getopts", 2015, "", "unicode-width", std=True),
    crate("humantime", 2018, std=True),
    crate("regex-syntax", 2018, "unicode-perl unicode-case unicode-age unicode-bool unicode-gencat unicode-script unicode-segment", std=True),
    crate("strsim", 2015, std=True),
    crate("textwrap", 2021, std=True),
    crate("xml-rs", 2015, std=True),
]
# The host's own target has std; for the others core and alloc are compiled from the compiler's own sources, and are units as well.
RUST_TARGETS = {
    "rustc-1.63": ["x86_64-unknown-linux-gnu", "thumbv7m-none-eabi", "wasm32-unknown-unknown"],
    "rustc-web": ["x86_64-unknown-linux-gnu", "i686-unknown-linux-gnu", "armv7-unknown-linux-gnueabihf", "thumbv7m-none-eabi",
                  "riscv64gc-unknown-none-elf", "wasm32-unknown-unknown"],
}
