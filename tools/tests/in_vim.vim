" What vim proposes in a text: vim -N -u NONE -i NONE -es -S in_vim.vim -c 'call Look(FILE)' in tools/tests writes a line for each place.
set runtimepath^=../vim
filetype plugin on
set virtualedit=onemore

" What is proposed at the end of a new line before the given one, as a caller of 'omnifunc' does it.
function! Proposed(at, line) abort
  call append(a:at - 1, a:line)
  call cursor(a:at, len(a:line) + 1)
  let begin = MyrifabComplete(1, '')
  call setline(a:at, strpart(a:line, 0, begin))
  call cursor(a:at, begin + 1)
  let found = MyrifabComplete(0, strpart(a:line, begin))
  execute a:at . 'delete _'
  return a:line . '| ' . join(found, ' ')
endfunction

function! Look(file) abort
  edit ../../examples/one-message.in
  set filetype=myrifab
  let found = [&filetype . ' ' . &omnifunc]
  for line in ['', 'se', 'send ', 'send ann 3 b', 'plan ', 'step f', 'step advance h', 'step expire ann ', 'poll ann 3 ', 'routes ']
    call add(found, Proposed(line('$'), line))
  endfor
  for line in ['', 'cable ', 'cable ann 0 h', 'switch hub ']
    call add(found, Proposed(2, line))
  endfor
  syntax enable
  call append('$', ['open ann 3 done', '# its report', 'endroutes', 'end injected 0 dropped 0'])
  for line in [search('^host', 'cw'), search('^script', 'cw'), search('^end$', 'cw'), line('$') - 3, line('$') - 2, line('$') - 1, line('$')]
    call add(found, getline(line) . ': ' . synIDattr(synID(line, 1, 1), 'name'))
  endfor
  call writefile(found, a:file)
  qall!
endfunction
