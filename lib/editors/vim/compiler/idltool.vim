" :compiler idltool, and then :make goes to what `idltool check` finds in a file. Options, as -Iinc, are in g:idltool_options.
if exists('current_compiler')
  finish
endif
let current_compiler = 'idltool'

execute 'CompilerSet makeprg=' . escape('idltool check ' . get(g:, 'idltool_options', '') . ' %:S', ' \|"')
CompilerSet errorformat=%f:%l:%c:\ %t%*[a-z]:\ %m,%f:%l:\ %t%*[a-z]:\ %m,%f:\ %t%*[a-z]:\ %m
