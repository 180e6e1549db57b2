-- Starts the language server where a Solnix probe is opened, if it is installed.
local client

-- Neovim before 0.8 starts a server in two steps.
local function start(buffer)
  local config = { name = 'spoonharbor', cmd = { 'spoonharbor-lsp' } }
  if vim.lsp.start then
    vim.lsp.start(config)
    return
  end
  if not client or vim.lsp.client_is_stopped(client) then client = vim.lsp.start_client(config) end
  if client then vim.lsp.buf_attach_client(buffer, client) end
end

vim.api.nvim_create_autocmd('FileType', {
  pattern = 'solnix',
  callback = function(event)
    if vim.fn.executable('spoonharbor-lsp') == 0 then return end
    vim.bo[event.buf].omnifunc = 'v:lua.vim.lsp.omnifunc'
    start(event.buf)
  end,
})
