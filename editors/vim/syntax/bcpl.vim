" BCPL: highlighting. editors/check compares the words and signs with the lexer's.
if exists("b:current_syntax")
  finish
endif
syn case ignore
syn iskeyword @,48-57,.

syn match bcplName /\a[[:alnum:].]*/
syn match bcplSign /\~=\|<=\|>=\|<<\|>>\|->\|:=\|(\|)\|+\|-\|\*\|\/\|!\|%\|@\|=\|<\|>\|\~\|&\||\|,\|;\|:\|?/
syn match bcplNumber /\d\+/
syn match bcplNumber /#\o\+/
syn match bcplNumber /#x\x\+/
syn match bcplEnd /\./
syn match bcplBracket /\$[()]\%([[:alnum:]][[:alnum:].]*\)\?/

syn match bcplBadEscape /\*./ contained
syn match bcplEscape /\*[NTSBPC*'"]/ contained
syn match bcplString /"\%([^*"]\|\*.\)*"/ contains=bcplEscape,bcplBadEscape
syn match bcplCharacter /'\%([^*']\|\*.\)'/ contains=bcplEscape,bcplBadEscape
syn match bcplComment "//.*" contains=@Spell

syn keyword bcplDeclaration LET AND BE GLOBAL MANIFEST STATIC TABLE VALOF VEC
syn keyword bcplConditional IF UNLESS TEST THEN DO OR ELSE SWITCHON INTO
syn keyword bcplRepeat FOR TO BY WHILE UNTIL REPEAT REPEATWHILE REPEATUNTIL
syn keyword bcplCommand BREAK CASE DEFAULT ENDCASE FINISH GOTO LOOP RESULTIS RETURN
syn keyword bcplOperator EQ EQV NE NEQV NOT REM
syn keyword bcplConstant TRUE FALSE
syn keyword bcplInclude GET
syn keyword bcplLibrary START STOP RDCH WRCH NEWLINE WRITES WRITEN WRITED GETBYTE PUTBYTE WRITEF ENDSTREAMCH BYTESPERWORD

hi def link bcplName Identifier
hi def link bcplSign Operator
hi def link bcplNumber Number
hi def link bcplEnd Special
hi def link bcplBracket Delimiter
hi def link bcplBadEscape Error
hi def link bcplEscape SpecialChar
hi def link bcplString String
hi def link bcplCharacter Character
hi def link bcplComment Comment
hi def link bcplDeclaration Statement
hi def link bcplConditional Conditional
hi def link bcplRepeat Repeat
hi def link bcplCommand Statement
hi def link bcplOperator Operator
hi def link bcplConstant Boolean
hi def link bcplInclude Include
hi def link bcplLibrary Function

let b:current_syntax = "bcpl"
