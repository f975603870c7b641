" Vim syntax of descriptions of systems, as `microsys_tool make` takes them.
if exists("b:current_syntax")
  finish
endif

syntax match microsysNumber /\%(^\|[ \t,(]\)\@1<=-\?\%(0x\x\+\|\d\+\)\>/
syntax match microsysRegister /\<x\%([12]\d\|3[01]\|\d\)\>/
syntax match microsysFile /[^ \t,#]\+\.c\>/
syntax match microsysOption /\%(^[ \t,]*\%(waits\|rings\|calls\|sends\|faults\|program\|page\|device\)\>[^#]*[ \t,]\)\@<=\%(burst\|checked\|every\|pages\|stack\|data\|line\|as\)\>/
syntax match microsysDeclaration /\%(^[ \t,]*\)\@<=\%(include\|promise\|device\|bell\|door\|page\|part\|end\|let\)\>:\@!/
syntax match microsysLine /\%(^[ \t,]*\%(\w\+:[ \t,]*\)\?\)\@<=\%(program\|budget\|buffer\|faults\|serves\|within\|writes\|calls\|rings\|sends\|waits\|code\|pool\|sees\|word\|reg\)\>:\@!/
syntax match microsysRecord /\%(^[ \t,]*\)\@<=\%(measure\|range\|slot\)\>:\@!/
syntax match microsysInstruction /\%(^[ \t,]*\%(\w\+:[ \t,]*\)\?\)\@<=\%(ebreak\|auipc\|ecall\|fence\|sltiu\|addi\|andi\|bgeu\|bltu\|jalr\|slli\|slti\|sltu\|srai\|srli\|xori\|add\|and\|beq\|bge\|blt\|bne\|jal\|lbu\|lhu\|lui\|ori\|sll\|slt\|sra\|srl\|sub\|xor\|lb\|lh\|lw\|or\|sb\|sh\|sw\)\>:\@!/
syntax match microsysLabel /\%(^[ \t,]*\)\@<=[a-z_][a-z0-9_]*\ze:/
syntax match microsysComment /#.*$/

highlight default link microsysComment Comment
highlight default link microsysDeclaration Structure
highlight default link microsysLine Statement
highlight default link microsysRecord PreProc
highlight default link microsysInstruction Keyword
highlight default link microsysLabel Label
highlight default link microsysRegister Identifier
highlight default link microsysNumber Number
highlight default link microsysFile String
highlight default link microsysOption Special

let b:current_syntax = "microsys_system"
