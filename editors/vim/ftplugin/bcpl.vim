" BCPL: comments, and what belongs to a name.
if exists("b:did_ftplugin")
  finish
endif
let b:did_ftplugin = 1
setlocal comments=:// commentstring=//\ %s expandtab
setlocal iskeyword=@,48-57,.
let b:undo_ftplugin = "setlocal comments< commentstring< expandtab< iskeyword<"
