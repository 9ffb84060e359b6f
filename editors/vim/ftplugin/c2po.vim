" Filetype plugin: specifications of c2po.

if exists('b:did_ftplugin')
  finish
endif
let b:did_ftplugin = 1

compiler c2po
setlocal comments=:-- commentstring=--\ %s omnifunc=c2po#complete
command! -buffer C2poFormat call c2po#format()
nnoremap <buffer> K :call c2po#hover()<CR>
nnoremap <buffer> gd :call c2po#define()<CR>
let b:undo_ftplugin = 'setlocal comments< commentstring< omnifunc< makeprg< errorformat< | delcommand -buffer C2poFormat'
      \ . ' | nunmap <buffer> K| nunmap <buffer> gd'

call c2po#start()
