" The language server for Pal sources, for ALE. It judges a source with the table and the other sources of its folder.
call ale#Set('mb_lsp_executable', 'mb-lsp')

call ale#linter#Define('pal', {
\   'name': 'mb_lsp',
\   'lsp': 'stdio',
\   'executable': {buffer -> ale#Var(buffer, 'mb_lsp_executable')},
\   'command': '%e',
\   'project_root': {buffer -> expand('#' . buffer . ':p:h')},
\ })
