" Checks the program with :compiler flux and :make. Made by editors/make.
" With let g:flux_command = ["/PATH/flux", "--nodes", "/PATH/nodes"] by these words in place of flux.
let current_compiler = "flux"
let s:name = expand("%")
let s:words = map(copy(get(g:, "flux_command", ["flux"])), "shellescape(v:val)")
let &l:makeprg = join(s:words) .. " check " .. shellescape(s:name) .. " 2>&1 \\| sed " .. shellescape("s,^," .. s:name .. ":,")
CompilerSet errorformat=%f:%l:%c:\ fault\ %n\ %m,%-G%.%#
