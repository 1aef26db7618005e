" Vim syntax file
" Language: 3D, the data description language of EverParse, in the profile of td
" The keywords are those of docs/language/tokens.md; checks/keywords compares them.

if exists('b:current_syntax')
  finish
endif
syntax case match
syntax iskeyword a-z,A-Z,48-57,_

" A byte that begins no token, and a number that runs into a name.
syntax match threedError "[^ \t\r0-9A-Za-z_(){}\[\]<>=!&|^~+*/%?:;,.-]"
" So is a dot behind which no name stands.
syntax match threedError "\.\%(\_s*[A-Za-z_/]\)\@!"
syntax match threedError "\<\d\w*"

syntax keyword threedStructure typedef struct casetype enum output mutable entrypoint where
" It begins a part where a name follows and is no field: it is no keyword.
syntax match threedStructure "^\s*\zsmodule\ze\s\+\h\w*\>\%(\s*[:;={\[]\)\@!"
syntax keyword threedConditional switch if else
syntax keyword threedLabel case default
syntax keyword threedStatement return abort var
syntax keyword threedType UINT8 UINT16 UINT32 UINT64 UINT8BE UINT16BE UINT32BE UINT64BE
syntax keyword threedType PUINT8 unit all_bytes all_zeros
syntax keyword threedConstant true false this field_pos field_ptr
syntax keyword threedFunction sizeof is_range_okay
" How many bytes are left, where it is all that stands behind a field's `=`: it is no keyword.
syntax match threedConstant "=\s*\zsbytes_left\>\ze\s*[;{]"

syntax match threedNumber "\<\d\+\>"
syntax match threedNumber "\<0[xX]\x\+\>"
syntax match threedDefine "#define[0-9A-Za-z_-]\@!"
syntax match threedAction "{\zs:\%(act\|check\|on-success\|copy\)[0-9A-Za-z_-]\@!"
syntax match threedArray "\[\zs:\%(byte-size\|byte-size-single-element-array\|zeroterm-byte-size-at-most\)[0-9A-Za-z_-]\@!"

syntax keyword threedTodo TODO FIXME XXX contained
syntax match threedComment "//.*" contains=threedTodo,@Spell
syntax region threedComment start="/\*" end="\*/" contains=threedTodo,@Spell

" In an input of td: the line that ends the module text. The job after it isn't 3D.
syntax region threedJob matchgroup=threedMarker start="^%%$" end="\%$"

highlight default link threedError Error
highlight default link threedStructure Structure
highlight default link threedConditional Conditional
highlight default link threedLabel Label
highlight default link threedStatement Statement
highlight default link threedType Type
highlight default link threedConstant Constant
highlight default link threedFunction Function
highlight default link threedNumber Number
highlight default link threedDefine Define
highlight default link threedAction Special
highlight default link threedArray Special
highlight default link threedTodo Todo
highlight default link threedComment Comment
highlight default link threedMarker PreProc

syntax sync fromstart
let b:current_syntax = '3d'
