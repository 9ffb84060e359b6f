" The language server of r2u2-check in Vim 9, by channels of its own: faults in the location list and with signs,
" K for kind and cost, gd for the definition, completion by CTRL-X CTRL-O, and :C2poFormat.
" g:c2po_server names another command; an empty list starts none.

let s:job = v:null

function s:uri() abort
  return 'file://' . substitute(expand('%:p'), '[^A-Za-z0-9/._~-]', '\=printf("%%%02X", char2nr(submatch(0)))', 'g')
endfunction

function s:text() abort
  return join(getline(1, '$'), "\n") . "\n"
endfunction

function s:send(method, params) abort
  call ch_sendexpr(s:job, #{method: a:method, params: a:params})
endfunction

" What the server gives for a request at the pointer, or v:null.
function s:ask(method, more) abort
  if !c2po#runs()
    return v:null
  endif
  call c2po#change()
  let at = #{line: line('.') - 1, character: strchars(strpart(getline('.'), 0, col('.') - 1))}
  let params = extend(#{textDocument: #{uri: s:uri()}, position: at}, a:more)
  return get(ch_evalexpr(s:job, #{method: a:method, params: params}, #{timeout: 10000}), 'result', v:null)
endfunction

function c2po#runs() abort
  return type(s:job) == v:t_job && job_status(s:job) ==# 'run'
endfunction

" Starts the server where it doesn't run, and opens this buffer in it.
function c2po#start() abort
  let command = get(g:, 'c2po_server', ['r2u2-check', '--server'])
  if !has('patch-8.2.4758') || empty(command) || !executable(command[0]) || expand('%') ==# ''
    return
  endif
  if !c2po#runs()
    let s:job = job_start(command, #{in_mode: 'lsp', out_mode: 'lsp', out_cb: function('s:heard'), err_io: 'null'})
    call ch_evalexpr(s:job, #{method: 'initialize', params: #{processId: getpid(), rootUri: v:null, capabilities: {}}}, #{timeout: 10000})
    call s:send('initialized', {})
    call sign_define('c2poFault', #{text: '>>', texthl: 'Error'})
  endif
  call s:send('textDocument/didOpen', #{textDocument: #{uri: s:uri(), languageId: 'c2po', version: b:changedtick, text: s:text()}})
  augroup c2po_server
    autocmd! * <buffer>
    autocmd TextChanged,InsertLeave,BufWritePost <buffer> call c2po#change()
    autocmd BufUnload <buffer> call c2po#close(expand('<afile>:p'))
  augroup END
endfunction

function c2po#change() abort
  if c2po#runs() && get(b:, 'c2po_sent', -1) != b:changedtick
    let b:c2po_sent = b:changedtick
    let change = #{textDocument: #{uri: s:uri(), version: b:changedtick}, contentChanges: [#{text: s:text()}]}
    call s:send('textDocument/didChange', change)
  endif
endfunction

function c2po#close(path) abort
  if c2po#runs()
    call s:send('textDocument/didClose', #{textDocument: #{uri: 'file://' . a:path}})
  endif
endfunction

" Takes the faults of a text: signs at their lines, and the location list of its window.
function s:heard(channel, message) abort
  if get(a:message, 'method', '') !=# 'textDocument/publishDiagnostics'
    return
  endif
  let path = substitute(a:message.params.uri[7:], '%\(\x\x\)', '\=nr2char("0x" . submatch(1))', 'g')
  let buffer = bufnr(path)
  if buffer < 0
    return
  endif
  call sign_unplace('c2po', #{buffer: buffer})
  let faults = []
  for it in a:message.params.diagnostics
    let [line, column] = [it.range.start.line + 1, it.range.start.character + 1]
    call add(faults, #{bufnr: buffer, lnum: line, col: column, text: split(it.message, "\n")[0], type: 'E'})
    call sign_place(0, 'c2po', 'c2poFault', buffer, #{lnum: line})
  endfor
  for window in win_findbuf(buffer)
    call setloclist(window, faults, 'r')
  endfor
endfunction

function c2po#hover() abort
  let found = s:ask('textDocument/hover', {})
  let lines = type(found) == v:t_dict ? filter(split(found.contents.value, "\n"), 'v:val !~# "^```"') : ['nothing is known of it']
  if has('popupwin') && mode() ==# 'n' && !empty(&term)
    call popup_atcursor(lines, #{border: [], padding: [0, 1, 0, 1]})
  else
    echo join(lines, "\n")
  endif
  return lines
endfunction

function c2po#define() abort
  let found = s:ask('textDocument/definition', {})
  if type(found) != v:t_list || empty(found)
    echo 'no definition'
    return
  endif
  normal! m'
  call cursor(found[0].range.start.line + 1, found[0].range.start.character + 1)
endfunction

function c2po#complete(findstart, base) abort
  if a:findstart
    return match(strpart(getline('.'), 0, col('.') - 1), '\h\w*$')->{k -> k < 0 ? col('.') - 1 : k}()
  endif
  let found = s:ask('textDocument/completion', {})
  let items = type(found) == v:t_dict ? found.items : []
  return map(filter(copy(items), 'stridx(v:val.label, a:base) == 0'), '#{word: v:val.label, menu: get(v:val, "detail", "")}')
endfunction

function c2po#format() abort
  let found = s:ask('textDocument/formatting', #{options: #{tabSize: 2, insertSpaces: v:true}})
  if type(found) == v:t_list && !empty(found)
    let [lines, view] = [split(found[0].newText, "\n", 1)[:-2], winsaveview()]
    call setline(1, lines)
    call deletebufline('%', len(lines) + 1, '$')
    call winrestview(view)
  endif
endfunction
