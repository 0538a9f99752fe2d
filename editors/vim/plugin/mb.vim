" Puts what is wrong with a module into the quickfix list, and where mb accepts it, what mb lint finds in it, as warnings:
"     :MbCheck table.toml a.pal b.pal
if exists('g:loaded_mb')
  finish
endif
let g:loaded_mb = 1
let s:keep_cpo = &cpo
set cpo&vim

" A finding of `mb check --explain=json` as an item of the quickfix list. What has no place in a text has no line.
function! s:error(object) abort
  let l:place = has_key(a:object, 'byte') ? 'byte ' . a:object.byte . ': ' : ''
  return {
        \ 'filename': get(a:object, 'file', ''),
        \ 'lnum': get(a:object, 'line', 0),
        \ 'col': get(a:object, 'column', 0),
        \ 'type': 'E',
        \ 'text': l:place . a:object.message . ' (' . a:object.rule . '). ' . a:object.advice,
        \ }
endfunction

" A line of `mb lint` as an item of the quickfix list. It names the partition, and these are in the order of the sources.
function! s:warning(line, partitions, sources) abort
  let [l:name, l:number, l:text] = matchlist(a:line, '\v^(\S+)%( line (\d+))?: (.*)$')[1:3]
  return {
        \ 'filename': a:sources[index(a:partitions, l:name)],
        \ 'lnum': str2nr(l:number),
        \ 'type': 'W',
        \ 'text': l:text,
        \ }
endfunction

" The partitions of an accepted module, in their order: mb cost begins each of its lines with one.
function! s:partitions(words) abort
  return uniq(map(systemlist('mb cost ' . a:words), 'matchstr(v:val, "^\\S*")'))
endfunction

function! s:check(...) abort
  if !executable('mb')
    echohl ErrorMsg | echomsg 'MbCheck: there is no program mb on the PATH' | echohl None
    return
  endif
  let l:files = map(copy(a:000), 'expand(v:val)')
  let l:words = join(map(copy(l:files), 'shellescape(v:val)'))
  let l:lines = systemlist('mb check --explain=json ' . l:words)
  if v:shell_error
    let l:objects = filter(copy(l:lines), 'v:val[0] ==# "{"')
    let l:items = empty(l:objects) ? map(l:lines, '{"text": v:val}') : map(l:objects, 's:error(json_decode(v:val))')
  else
    let l:partitions = s:partitions(l:words)
    let l:items = map(systemlist('mb lint ' . l:words), 's:warning(v:val, l:partitions, l:files[1:])')
  endif
  call setqflist(l:items)
  cwindow
endfunction

command! -nargs=+ -complete=file MbCheck call s:check(<f-args>)

let &cpo = s:keep_cpo
unlet s:keep_cpo
