" :compiler mungo, then :make F.. judges the files F.. and fills the list of faults.
if exists("current_compiler")
  finish
endif
let current_compiler = "mungo"
CompilerSet makeprg=mungo\ check\ $*
CompilerSet errorformat=%f:%l:%c:\ %m,mungo:\ %m
