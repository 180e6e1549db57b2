" Colours for Solnix probes, by the rules of docs/LANGUAGE.md 3.
if exists('b:current_syntax')
  finish
endif

syntax case match
syntax sync fromstart

syntax keyword solnixDeclaration unit map event
syntax keyword solnixField section license type key value max
syntax keyword solnixVariable reg imm heap
syntax keyword solnixStatement return
syntax keyword solnixConditional if else guard
syntax keyword solnixType u32 u64 i32 i64 bytes
syntax keyword solnixContext ctx
syntax match solnixMapType '\.\s*\zs\<\%(hash\|array\|ringbuf\|lru_hash\|prog_array\)\>'
syntax match solnixMethod '\.\s*\zs\h\w*\ze\s*('
syntax match solnixOperator '[-+*/%]=\?\|<<\|>>\|='

" A lone sign of comparison is refused, and so is what stands outside of comments and strings and is no ASCII.
syntax match solnixRefused '<<\@!\|>>\@!\|[!&|^~?@#$`]'
syntax match solnixRefused '[^\x00-\x7f]\+'
syntax match solnixShift '<<\|>>'

syntax match solnixNumber '-\?\<\d\+'
syntax match solnixNumber '-\?\<0x\x\+'
syntax match solnixRefused '\<0x\X\@='

syntax match solnixEscape '\\["\\n]' contained
syntax match solnixRefused '\\[^"\\n]' contained
syntax region solnixString start='"' skip='\\.' end='"' oneline contains=solnixEscape,solnixRefused keepend

syntax keyword solnixTodo TODO FIXME contained
syntax match solnixComment '//.*$' contains=solnixTodo,@Spell
syntax region solnixComment start='/\*' end='\*/' contains=solnixTodo,@Spell

highlight default link solnixDeclaration Structure
highlight default link solnixField Keyword
highlight default link solnixVariable StorageClass
highlight default link solnixStatement Statement
highlight default link solnixConditional Conditional
highlight default link solnixType Type
highlight default link solnixContext Special
highlight default link solnixMapType Constant
highlight default link solnixMethod Function
highlight default link solnixOperator Operator
highlight default link solnixShift Operator
highlight default link solnixNumber Number
highlight default link solnixString String
highlight default link solnixEscape SpecialChar
highlight default link solnixComment Comment
highlight default link solnixTodo Todo
highlight default link solnixRefused Error

let b:current_syntax = 'solnix'
