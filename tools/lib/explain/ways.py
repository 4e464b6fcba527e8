"""The table of ways round: what each refusal means and how to mend it. docs/EXPLAIN.md prints the same table.

A row has a key, what is wrong, and the way round. `of_c` and `of_checkers` are rows by the name of a refusal; `forms` are rows for what of
later C and of GNU C isn't read, each a case of Syntax in a C file.
"""

OF_C = {
    "BadByte": ("no token begins with this byte: `@`, `$`, a backslash, a byte above 127, or a `#` that isn't the first of its line",
                "mostly the file isn't preprocessed: do that (`tools/check` does); else take the byte out"),
    "OpenText": ("a string or a character constant isn't closed on its line, a character constant is empty, or a comment isn't closed",
                 "close it; write a string over two lines as two strings"),
    "BadNumber": ("what begins like a number is no constant: an 8 or 9 in an octal one, an unknown suffix, a value above 2^64 - 1, a "
                  "binary or a hexadecimal floating one",
                  "write the number in another way: 0b101 as 5, 0x1p3 as 8.0"),
    "BadMarker": ("a line begins with `#` and is neither a line marker nor `#pragma` or `#ident`",
                  "preprocess the file (`tools/check` does); turn CR LF at the ends of lines into LF"),
    "Syntax": ("a declaration or function begins here that isn't complete, or has something that isn't read",
               "look from here on for a missing `;` or bracket, for a type's name that isn't declared before, and for one of "
               "the forms in docs/EXPLAIN.md; preprocess with the flags of README.md (`tools/check` does). What has to stay is for "
               "`tools/readable`"),
    "Undeclared": ("a name isn't in force. A function may be called without a declaration, but not be named otherwise",
                   "declare it before, or include its header"),
    "NoField": ("the structure or union has no member of this name", "write the member's name right, or add it to the body"),
    "Redeclared": ("a name, a tag or a member is declared again in the same scope, where it may not be",
                   "give one of them another name, or leave one out"),
    "NotPointer": ("the operand of `*` or `->` is no pointer, or neither operand of `[ ]` is",
                   "take the `*` away, write `.` for `->`, or mend the declaration"),
    "NotStruct": ("the operand of `.`, or what the operand of `->` points to, is no structure or union, or its body hasn't come yet",
                  "put the body, or the header that has it, before; or mend the declaration"),
    "NotFunction": ("what is called is no function and no pointer to one",
                    "mend the declaration, or rename the variable that hides the function"),
    "NotLvalue": ("what is assigned to, counted up or down, or whose address is taken, is the value of an expression and no object",
                  "assign to a variable, and take that"),
    "DuplicateFunction": ("a second body of a function: two in one file, or two in two files of which neither belongs to its file alone",
                          "leave one file out of the run (two programs of a project have a `main` each), or make one of them `static`"),
    "TooLarge": ("the file has more than 16,777,216 bytes, or all files of the run up to it have more than 33,554,432",
                 "divide it, or make several runs"),
}

OF_CHECKERS = {
    "BadByte": ("no token begins with this byte", "take it out; a comment is `// ..` or `/* .. */`, and there is no preprocessor"),
    "OpenText": ("a string, a character constant or a comment isn't closed", "close it; write a message over two lines as two strings"),
    "BadNumber": ("this is no constant", "write the number in another way; an octal one has no 8 or 9"),
    "Syntax": ("a declaration or a section is none of the language",
               "write here what is wanted; docs/METAL_REFERENCE.md has the grammar (The text) and examples (Faults)"),
    "TooMany": ("more than 8 state variables, 16 holes or 1,000 rules",
                "make two checkers of it: each rule is about one variable at most"),
    "Twice": ("a hole is declared a second time", "give each hole a name of its own"),
    "UnknownCallout": ("a question in `${ }` that there isn't, or with other arguments",
                       "take one of `mc_is_const(h)`, `mc_is_global(h)`, `mc_is_param(h)`, `mc_is_local(h)`, `mc_name_is(h, \"s\")`, "
                       "`mc_in_function(\"s\")`, `0`, `1`"),
    "TwoVariables": ("a rule names two state variables", "declare one of them without `state`, or use a hole that is no state variable"),
    "BadSplit": ("a rule with `true=` and `false=` has a message or `$end_of_path$`, or targets of two kinds",
                 "let both targets be global or both of one variable; report from the state behind it"),
    "BadSource": ("a state doesn't fit where it stands",
                  "lead from a state of v to one of v or to `v.stop`, and between global states name no state variable"),
    "VariableMissing": ("no pattern binds what the state, a callout or the message needs",
                        "let each alternative have the name in a pattern, and declare the name by `decl`"),
    "BadFormat": ("the message doesn't fit its arguments",
                  "give as many `mc_identifier(..)` as `%s`; a percent sign is `%%`, and `\\\\` and `\\\"` are the only escapes"),
    "TooLarge": ("the file has more than 16,777,216 bytes, or all files of the run up to it have more than 33,554,432",
                 "take away what isn't the checker"),
}

FORMS = {
    "statement expression": ("`({ .. })`",
                             "write a function in its place, or hide the macro that makes it: `-DNDEBUG` for `assert`, else "
                             "`#ifndef METALCHECK`"),
    "typeof": ("`typeof(..)`, `__auto_type`", "write the type"),
    "static assertion": ("`_Static_assert(..)`", "`-D'_Static_assert(...)=extern int static_assertion'`; among members leave it out"),
    "generic selection": ("`_Generic(..)`", "write the branch that is taken"),
    "word of later C": ("`_Noreturn`, `_Thread_local`, `__thread`, `_Alignas(..)`, `_Atomic`",
                        "let it go: `-D_Noreturn=`, `-D__thread=`, `-D'_Alignas(n)='`, `-D_Atomic=`"),
    "alignment of a type": ("`_Alignof(T)`, `__alignof__(T)`", "`-D__alignof__=sizeof`, `-D_Alignof=sizeof`"),
    "type that isn't read": ("`_Complex`, `_BitInt(n)`, `_Float16`, `_Decimal64` and the like, `__int128_t`",
                             "`-D__int128_t=__int128`; give others a type that is read: `-D_Float16=float`"),
    "built-in with a type": ("`__builtin_types_compatible_p(T, U)`, `__builtin_convertvector(e, T)`",
                             "write its value: `-D'__builtin_types_compatible_p(...)=1'`"),
    "range": ("`case 1 ... 3:`, `[1 ... 3] = x`", "write each value"),
    "label as a value": ("`goto *p;`, `&&label`", "write a `switch`, or hide it: `#ifndef METALCHECK`"),
    "local label": ("`__label__ a;`", "give the label a name of its own in its function"),
    "label at the end": ("a label, `case` or `default` directly before `}`", "write `;` behind it"),
    "break, case or label": ("`break`, `continue`, `case`, `default` or a label where it can't stand",
                             "put it into its loop or `switch`; each label stands once in its function, and each `goto` has its label "
                             "there"),
    "conditional without a middle": ("`a ?: b`", "write `a ? a : b`, or a variable where `a` has an effect"),
    "designated initial value": ("`.a = 1`, `[3] = 1` in an initial value", "write the values in their order, or assign them one by one"),
    "compound literal": ("`(T){ .. }`", "declare a variable of this type"),
    "declaration behind a statement": ("a declaration that doesn't stand at the beginning of its block",
                                       "move it there, or open a block in front of it"),
    "declaration in for": ("`for (int i = 0; ..)`", "declare the variable at the beginning of the block"),
    "parameters behind the list": ("`int f(a) int a; { .. }`", "declare them in the list: `int f(int a) { .. }`"),
    "no type": ("a function or variable without a type", "write `int`, or the type that is meant"),
    "unknown type": ("a name that no declaration in force makes a type", "declare the type before, or include its header"),
    "body in a type": ("a body of a structure or enumeration in a parameter, a cast, a type's name or before a function's name",
                       "declare the structure before, and name it here by its tag"),
    "function behind a result": ("a body directly behind `]`: a function that returns a pointer to an array",
                                 "make the result's type a `typedef`"),
    "nested function": ("a function in a function", "move it before, with what it uses as parameters"),
    "too high": ("an expression, a declarator or blocks nested more than 1,000 deep", "write it in parts"),
}
