"""The words of C and of GNU C, by what they mean to the other modules. Nothing here looks at a text."""
import re

ATTRIBUTES = {"__attribute__", "__attribute"}
ASSEMBLER = {"asm", "__asm", "__asm__"}
# the last two are qualifiers of asm for a compiler, but not for metalcheck
ASSEMBLER_QUALIFIERS = {"volatile", "__volatile__", "goto", "inline", "__inline__", "__volatile", "__inline"}
ODD_QUALIFIERS = {"__volatile", "__inline"}
STRIPPED = ATTRIBUTES | ASSEMBLER | {"__extension__"}

TYPEOF = {"typeof", "__typeof__", "__typeof", "typeof_unqual", "__typeof_unqual__"}
ALIGNMENT = {"__alignof__", "__alignof", "_Alignof"}
DROPPED = {"_Noreturn", "_Thread_local", "__thread", "__seg_gs", "__seg_fs"}
COMPLEX = {"_Complex", "__complex__", "__complex", "__real__", "__imag__", "__real", "__imag", "_Imaginary"}
WIDE = {"__int128_t", "__uint128_t"}

TAGGED = {"struct", "union", "enum"}
TYPE_WORDS = TAGGED | set(
    "void char short int long float double signed unsigned __signed __signed__ _Bool __int128 _Float32 _Float32x _Float64 _Float64x "
    "_Float128 __float128 __builtin_va_list".split())
QUALIFIERS = set("const volatile restrict __const __const__ __volatile __volatile__ __restrict __restrict__".split())
STORAGE = set("typedef extern static auto register inline __inline __inline__".split())
CONTROL = {"if", "while", "for", "switch"}
KEYWORDS = TYPE_WORDS | QUALIFIERS | STORAGE | CONTROL | set("break case continue default do else goto return sizeof".split())

# words that metalcheck doesn't know, or takes for the name of something that is called
FOREIGN = TYPEOF | ALIGNMENT | DROPPED | COMPLEX | WIDE | {
    "_Generic", "_Static_assert", "__auto_type", "_Alignas", "_Atomic", "__label__", "__builtin_types_compatible_p",
    "__builtin_choose_expr"}

OPENING, CLOSING = {"(", "[", "{"}, {")", "]", "}"}
ASSIGNING = {"=", "+=", "-=", "*=", "/=", "%=", "|=", "&=", "^=", "<<=", ">>="}
STEPPING = {"++", "--"}
WORD = re.compile(r"[A-Za-z_$]")
HEXADECIMAL_FLOATING = re.compile(r"0[xX][0-9a-fA-F.]*[pP]")
BINARY = re.compile(r"0[bB][01]+")


def is_name(text):
    """Whether a token is a word that is no keyword."""
    return WORD.match(text) is not None and text not in KEYWORDS
