" Completion of texts: CTRL-X CTRL-O proposes the words that may stand next, and the names of the fabric.
if exists('b:did_ftplugin')
  finish
endif
let b:did_ftplugin = 1

setlocal omnifunc=MyrifabComplete commentstring=#\ %s comments=:#
let b:undo_ftplugin = 'setlocal omnifunc< commentstring< comments<'

if exists('*MyrifabComplete')
  finish
endif

let s:fabric = ['host', 'switch', 'cable', 'script']
let s:script = ['walk', 'map', 'circuit', 'routes', 'install', 'open', 'provide', 'send', 'poll', 'tokens', 'close', 'plan', 'step', 'duo', 'settle', 'pull', 'plug', 'broken', 'revoke', 'end']
let s:plans = ['lose', 'repeat', 'hold', 'flip', 'pull']
let s:duos = ['send', 'provide', 'emit', 'deliver', 'expire', 'poll', 'restart']
let s:steps = ['inject', 'giveup', 'expire', 'advance', 'lose', 'repeat', 'hold', 'reset', 'flip', 'replay']
" At which words of a line the names of hosts stand, and those of hosts and switches.
let s:hosts = {'walk': [1], 'map': [1], 'circuit': [1], 'open': [1], 'provide': [1], 'send': [1, 3], 'poll': [1], 'tokens': [1], 'close': [1]}
let s:host_steps = {'inject': [2], 'giveup': [2], 'expire': [2, 3]}
let s:vertex_steps = ['advance', 'lose', 'repeat', 'hold', 'reset', 'flip']
let s:vertices = {'cable': [1, 3], 'pull': [1], 'plug': [1, 3]}

" The names after the words host and, where they are asked for, switch.
function! s:Names(kinds) abort
  let found = []
  for line in getline(1, '$')
    let words = split(line)
    if len(words) > 1 && index(a:kinds, words[0]) >= 0
      call add(found, words[1])
    endif
  endfor
  return found
endfunction

" What may stand after these words of a line.
function! s:Next(words) abort
  let at = len(a:words)
  if at == 0
    return search('^\s*script\s*$', 'bnW') ? s:script : s:fabric
  endif
  let first = a:words[0]
  if index(get(s:vertices, first, []), at) >= 0 || (first ==# 'plan' && at == 3 && a:words[1] ==# 'pull')
    return s:Names(['host', 'switch'])
  elseif first ==# 'switch' && at == 2
    return ['4', '8', '16']
  elseif first ==# 'plan' && at == 1
    return s:plans
  elseif first ==# 'duo' && at == 1
    return s:duos
  elseif first ==# 'step' && at == 1
    return s:steps
  elseif first ==# 'step' && at == 2 && index(s:vertex_steps, a:words[1]) >= 0
    return s:Names(['host', 'switch'])
  elseif first ==# 'step' && index(get(s:host_steps, a:words[1], []), at) >= 0
    return s:Names(['host'])
  elseif index(get(s:hosts, first, []), at) >= 0
    return s:Names(['host'])
  endif
  return []
endfunction

function! MyrifabComplete(findstart, base) abort
  let before = strpart(getline('.'), 0, col('.') - 1)
  if a:findstart
    return len(matchstr(before, '^.*\s\|^'))
  endif
  return filter(copy(s:Next(split(before))), 'stridx(v:val, a:base) == 0')
endfunction
