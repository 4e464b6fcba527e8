" Vim syntax file for checkers of metalcheck (docs/METAL_REFERENCE.md has the language).
if exists("b:current_syntax")
  finish
endif
syntax case match
" A machine is a region from its name to its last brace, so reading begins at the top; checkers are short.
syntax sync fromstart

syntax region metalComment start="/\*" end="\*/" contains=@Spell
syntax region metalComment start="//" end="$" contains=@Spell

" The machine, its declarations and its states.
syntax keyword metalKeyword sm nextgroup=metalHead skipwhite skipempty
syntax match metalHead contained "\h\w*" nextgroup=metalMachine skipwhite skipempty
syntax region metalMachine contained matchgroup=metalBrace start="{" end="}"
  \ contains=metalComment,metalDeclaration,metalState,metalSource,metalArrow,metalBranch,metalPattern,metalAction,metalCallout,metalEnd,metalOr
syntax keyword metalHoleType contained any_expr any_scalar any_pointer any_arguments any_fn_call
syntax keyword metalType contained void char short int long float double signed unsigned struct union _Bool const
syntax match metalState contained "\h\w*\%(\s*\.\s*\h\w*\)\?"
syntax match metalSource contained "\h\w*\%(\s*\.\s*\h\w*\)\?\ze\s*:"
syntax region metalDeclaration contained matchgroup=metalKeyword start="\<state\s\+decl\>" start="\<decl\>" matchgroup=NONE end=";"
  \ contains=metalComment,metalHoleType,metalType
syntax match metalBranch contained "\<\%(true\|false\)\>\ze\s*=\%([^=]\|$\)"
syntax match metalArrow contained "==>"
syntax match metalOr contained "||\|&&\||"
syntax match metalEnd contained "\$\s*end_of_path\s*\$"

" What stands in braces.
syntax region metalPattern contained matchgroup=metalBrace start="{" end="}" contains=metalComment,metalString,metalNumber,metalCharacter,metalType
syntax region metalAction contained matchgroup=metalBrace start="{\ze\_s*err\>\_s*(\_s*\"" end="}" contains=metalComment,metalErr,metalMessage
syntax region metalCallout contained matchgroup=metalBrace start="\$\s*{" end="}" contains=metalComment,metalCalloutName,metalString,metalNumber,metalNot
syntax keyword metalCalloutName contained mc_is_const mc_is_global mc_is_param mc_is_local mc_name_is mc_in_function
syntax keyword metalErr contained err mc_identifier
syntax match metalNot contained "!"
syntax match metalNumber contained "\<\d\w*"
syntax region metalString contained start=+"+ skip=+\\.+ end=+"+ oneline
syntax region metalCharacter contained start=+'+ skip=+\\.+ end=+'+ oneline
syntax region metalMessage contained start=+"+ skip=+\\.+ end=+"+ oneline contains=metalFormat,metalEscape
syntax match metalFormat contained "%[s%]"
syntax match metalEscape contained +\\["\\]+

highlight default link metalComment Comment
highlight default link metalKeyword Keyword
highlight default link metalHead Structure
highlight default link metalHoleType Type
highlight default link metalType Type
highlight default link metalSource Label
highlight default link metalState Identifier
highlight default link metalBranch Conditional
highlight default link metalArrow Operator
highlight default link metalOr Operator
highlight default link metalEnd Special
highlight default link metalBrace Delimiter
highlight default link metalCalloutName Function
highlight default link metalErr Statement
highlight default link metalNot Operator
highlight default link metalNumber Number
highlight default link metalString String
highlight default link metalCharacter Character
highlight default link metalMessage String
highlight default link metalFormat SpecialChar
highlight default link metalEscape SpecialChar

let b:current_syntax = "metalcheck"
