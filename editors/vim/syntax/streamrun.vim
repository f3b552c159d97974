" Job files of streamrun. Copy editors/vim/* into ~/.vim, or add the folder to 'runtimepath'.
if exists('b:current_syntax')
  finish
endif

syntax case match
syntax match streamrunOperator /[<>=!]=\|[-<>+*\/%&|^~!?:]/
syntax match streamrunNumber /\<\d\+[Ll]\?/
syntax match streamrunString /"[^"\\]*"/
syntax match streamrunReference /\$\h\w*/
syntax match streamrunConstant /\<\%(true\|false\)\>/
syntax match streamrunClass /\<\%(Math\|Long\|LongStream\|long\)\>/
syntax match streamrunOperation /\<\%(range\|rangeClosed\|of\|empty\|column\|concat\|result\)\>\ze\s*(/
syntax match streamrunOperation /\<\%(map\|filter\|flatMap\|limit\|skip\|takeWhile\|dropWhile\|prefix\|sorted\|distinct\)\>\ze\s*(/
syntax match streamrunOperation /\<\%(sum\|sumExact\|count\|min\|max\|findFirst\|toArray\|reduce\)\>\ze\s*(/
syntax match streamrunOperation /\<\%(anyMatch\|allMatch\|noneMatch\|onFault\|cell\|row\)\>\ze\s*(/
syntax match streamrunOperation /^\s*\zsversion\ze\s\+[23]\s*$/
syntax match streamrunMethod /\%(\<\%(Math\|Long\)\s*\.\s*\)\@<=\h\w*/
syntax match streamrunMethod /\%(::\s*\)\@<=\h\w*/
syntax match streamrunConstant /\%(\<Long\s*\.\s*\)\@<=\%(MAX_VALUE\|MIN_VALUE\)\>/
syntax match streamrunJob /^\s*\zs\h\w*\ze\s*=\%(=\)\@!/
syntax match streamrunComment /^\s*\%(#\|\/\/\).*$/

highlight default link streamrunOperator Operator
highlight default link streamrunNumber Number
highlight default link streamrunString String
highlight default link streamrunReference Identifier
highlight default link streamrunConstant Constant
highlight default link streamrunClass Type
highlight default link streamrunOperation Statement
highlight default link streamrunMethod Function
highlight default link streamrunJob PreProc
highlight default link streamrunComment Comment

let b:current_syntax = 'streamrun'
