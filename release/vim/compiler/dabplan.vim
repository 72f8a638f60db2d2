" Compiler: dabplan. ':compiler dabplan', and ':make' lists what is wrong with the script of a plan, or its warnings.
" 'map' reads the script as 'compile' does, and writes no file; what it prints on standard output is left out.
if exists("current_compiler")
  finish
endif
let current_compiler = "dabplan"

CompilerSet makeprg=(dabplan\ map\ %:S\ 2>&1\ >/dev/null)
CompilerSet errorformat=%f:%l:%c:\ %trror:\ %m,%f:%l:\ %trror:\ %m,%f:%l:\ %tarning:\ %m,
      \%I%f:%l:%c:\ hint:\ %m,%I%f:%l:\ hint:\ %m,%f:\ %trror:\ %m,%-G%.%#
