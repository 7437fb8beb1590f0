" Vim syntax of CQL: made by editors/make.py from docs/LANGUAGE.md.
if exists("b:current_syntax")
  finish
endif
syn case match
syn iskeyword 48-57,65-90,97-122,_,$
" Of two matches at one place the later one is taken.
syn match cqlName /[A-Za-z0-9_$]\+/
syn match cqlMark /->\|{\|}\|(\|)\|\[\|\]\|:\|;\|,\|\.\|=\|+/
syn match cqlDeclared /\%(\<\%(schema_colimit\|transform\|instance\|typeside\|mapping\|schema\|query\)\_s\+\)\@<=[A-Za-z0-9_$]\+/
syn match cqlOperation /\%(\<\%(schema_colimit\|transform\|instance\|typeside\|mapping\|schema\|query\)\_s\+[A-Za-z0-9_$]\+\_s*=\_s*\)\@<=\<\%(counit_query\|import_csv2\|getMapping\|import_csv\|of_mapping\|unit_query\|coproduct\|getSchema\|identity\|quotient\|compose\|literal\|pushout\|coeval\|counit\|delta\|sigma\|eval\|unit\)\>/
syn keyword cqlHead typeside schema schema_colimit mapping query instance transform
syn keyword cqlSection types literals constants functions entities foreign_keys path_equations attributes observation_equations generators equations entity_equations entity from where options
syn keyword cqlBinder forall lambda
syn keyword cqlLeftOut external_types external_parsers external_functions imports
syn match cqlEscape /\\["\\ntr]/ contained
syn region cqlText start=/"/ skip=/\\\_./ end=/"/ contains=cqlEscape
syn match cqlComment /\/\/.*/
syn region cqlComment start=/\/\*/ end=/\*\//
syn sync minlines=200
hi def link cqlName Identifier
hi def link cqlMark Delimiter
hi def link cqlDeclared Type
hi def link cqlOperation Function
hi def link cqlHead Keyword
hi def link cqlSection Statement
hi def link cqlBinder Special
hi def link cqlLeftOut Error
hi def link cqlEscape SpecialChar
hi def link cqlText String
hi def link cqlComment Comment
let b:current_syntax = "cql"
