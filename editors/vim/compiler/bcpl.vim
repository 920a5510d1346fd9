" BCPL: :make checks the program of the buffer, and :cnext goes to the place of each fault.
if exists("current_compiler")
  finish
endif
let current_compiler = "bcpl"
CompilerSet makeprg=bcpl\ check\ %:S\ 2>&1\ >/dev/null\ </dev/null
" A fault of the text: its place and kind, the lines of the source, and what is meant. What else is reported is a line.
CompilerSet errorformat=%-Gline\ %*\\d:\ %.%#,%A%f:%l:%c:\ %m,%-C\ %.%#,%Z%m,%f:%l:\ %m,%-G%.%#
