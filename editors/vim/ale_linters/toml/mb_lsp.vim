" The language server for module tables, for ALE. Other TOML files have no server: a table has its name, or a source next to it.
call ale#Set('mb_lsp_executable', 'mb-lsp')

function! s:folder(buffer) abort
  let l:folder = expand('#' . a:buffer . ':p:h')
  return expand('#' . a:buffer . ':t') ==# 'table.toml' || !empty(glob(l:folder . '/*.pal')) ? l:folder : ''
endfunction

call ale#linter#Define('toml', {
\   'name': 'mb_lsp',
\   'lsp': 'stdio',
\   'executable': {buffer -> ale#Var(buffer, 'mb_lsp_executable')},
\   'command': '%e',
\   'project_root': function('s:folder'),
\ })
