" Vim syntax of texts of images, as `microsys build` takes them.
if exists("b:current_syntax")
  finish
endif

syntax match microsysNumber /\%(^\|[ \t,(]\)\@1<=-\?\%(0x\x\+\|\d\+\)\>/
syntax match microsysRegister /\<x\%([12]\d\|3[01]\|\d\)\>/
syntax match microsysFile /[^ \t,#]\+\.c\>/
syntax match microsysConstant /\%([ \t,]\)\@1<=\%(auto\|boot\)\>/
syntax match microsysKind /\%(^[ \t,]*object[ \t,]\+\w\+[ \t,]\+\w\+[ \t,]\+\)\@<=\%(notification\|endpoint\|untyped\|cnode\|frame\|table\|root\|tcb\)\>/
syntax match microsysOption /\%(^[ \t,]*program\>[^#]*\)\@<=\<\%(checked\|data\|stack\)\>/
syntax match microsysDeclaration /\%(^[ \t,]*\)\@<=\%(promise\|untyped\|memory\|object\|thread\|table\|data\|cap\|end\|irq\|map\)\>:\@!/
syntax match microsysLine /\%(^[ \t,]*\%(\w\+:[ \t,]*\)\?\)\@<=\%(program\|buffer\|word\|reg\)\>:\@!/
syntax match microsysRecord /\%(^[ \t,]*\)\@<=\%(measure\|range\|slot\)\>:\@!/
syntax match microsysInstruction /\%(^[ \t,]*\%(\w\+:[ \t,]*\)\?\)\@<=\%(ebreak\|auipc\|ecall\|fence\|sltiu\|addi\|andi\|bgeu\|bltu\|jalr\|slli\|slti\|sltu\|srai\|srli\|xori\|add\|and\|beq\|bge\|blt\|bne\|jal\|lbu\|lhu\|lui\|ori\|sll\|slt\|sra\|srl\|sub\|xor\|lb\|lh\|lw\|or\|sb\|sh\|sw\)\>:\@!/
syntax match microsysLabel /\%(^[ \t,]*\)\@<=[a-z_][a-z0-9_]*\ze:/
syntax match microsysComment /#.*$/

highlight default link microsysComment Comment
highlight default link microsysDeclaration Structure
highlight default link microsysLine Statement
highlight default link microsysRecord PreProc
highlight default link microsysInstruction Keyword
highlight default link microsysLabel Label
highlight default link microsysRegister Identifier
highlight default link microsysNumber Number
highlight default link microsysFile String
highlight default link microsysOption Special
highlight default link microsysKind Type
highlight default link microsysConstant Constant

let b:current_syntax = "microsys_text"
