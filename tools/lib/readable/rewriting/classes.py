"""The classes of rewriting, by what each may change. Summaries name them, and docs/READABLE.md has a table of them."""

# adds no event and loses none
EXACT = {
    "alignment": "`__alignof__` as `sizeof`",
    "word": "`_Noreturn`, words of threads and segments, `_Alignas`, `_Atomic`, `_Static_assert` left out",
    "128 bits": "`__int128_t` and `__uint128_t` as `__int128`",
    "constant": "hexadecimal floating and binary constants, and literals with `u8`, `u` or `U`, as ordinary ones",
    "asm": "spellings of `asm` that aren't known, left out with their group",
    "case range": "`case A ... B` as `case A`",
    "designator": "`.m =` and `[i] =` left out of initial values",
    "array bound": "a foreign bound left out",
    "old-style head": "the head of an old-style definition with its parameters in the list",
    "typeof of a type": "`typeof` of a type as the type",
    "own type": "a cast of an operand to its own type left out, or of what is assigned to that of the variable",
    "selection": "`_Generic` as the value for the type that its operand is declared with, or as any where they differ in qualifiers alone",
    "repeated declaration": "`extern typeof(f) f` left out",
    "assertion": "assertions at compile time left out",
    "declaration": "declarations in `for` and behind statements as blocks of their own",
    "plain loop": "`do { S } while (0)` without `break` and `continue` as `{ S }`",
    "comma": "`({ e; f; })` as `(e, f)`",
    "block": "a statement expression that is a statement, as a block",
    "branches": "`c ? ({ .. }) : ({ .. });` and `v = c ? a : ({ .. });` as `if` and `else`",
    "variables in front": "`({ T v = E; R; })` as `(v = E, R)`, with `T v;` in front of the statement",
    "nothing": "parts of a statement expression without an event left out",
    "local label": "`__label__ l;` left out, and l under a name of its own where there are several",
    "address of a label": "of a label of its own, as 0",
}
# what is put in stands for something without an event, but a detail of it changes
DETAIL = {
    "foreign size": "`sizeof` and `offsetof` of something foreign as `sizeof(0)`",
    "typeof by declaration": "`typeof(*p)` and `typeof(p->m)` by the declarations of `p` and of `m`",
    "own variable": "the value of a variable of a statement expression in its place",
    "in front": "a statement expression in front of its statement, where it is evaluated first and always",
}
# may add or lose an event, or give a wrong type
APPROXIMATION = {
    "read again": "a variable of a statement expression that is read more than once: its value read as often",
    "automatic type": "`__auto_type` and `typeof` of arithmetic as `unsigned long`",
    "choice": "`__builtin_choose_expr` as `?:`",
    "middle": "`a ?: b` as `a ? a : b`, where `a` only reads",
    "kept result": "`f(x) ?: b` as `r ? r : b`, with `T r = f(x)` in front of the statement, where it is evaluated first and always",
    "compound literal": "`(T){ a, b }` as `(*(T *)(a, b, 0))`",
    "compatible types": "`__builtin_types_compatible_p(..)` as a call without arguments",
    "per-CPU read": "a read of per-CPU data as the variable, a pointer to a processor's own as the pointer",
}
