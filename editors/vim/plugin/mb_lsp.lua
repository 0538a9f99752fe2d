-- Starts the language server in Neovim for Pal sources and module tables, if it is on the PATH.
if vim.fn.executable('mb-lsp') == 0 then
  return
end

local client

local function attached(_, buffer)
  vim.bo[buffer].omnifunc = 'v:lua.vim.lsp.omnifunc'
  vim.bo[buffer].tagfunc = 'v:lua.vim.lsp.tagfunc'
  vim.keymap.set('n', 'K', vim.lsp.buf.hover, { buffer = buffer })
end

-- One server is enough: it finds the module of each file itself.
local function attach(buffer, folder)
  client = client or vim.lsp.start_client({
    name = 'mb-lsp',
    cmd = { 'mb-lsp' },
    root_dir = folder,
    on_attach = attached,
    on_exit = function() client = nil end,
  })
  if client then
    vim.lsp.buf_attach_client(buffer, client)
  end
end

vim.api.nvim_create_autocmd('FileType', {
  pattern = { 'pal', 'toml' },
  callback = function(event)
    local name = vim.api.nvim_buf_get_name(event.buf)
    local folder = vim.fn.fnamemodify(name, ':p:h')
    local is_table = vim.fn.fnamemodify(name, ':t') == 'table.toml' or vim.fn.glob(folder .. '/*.pal') ~= ''
    if event.match == 'pal' or is_table then
      attach(event.buf, folder)
    end
  end,
})
