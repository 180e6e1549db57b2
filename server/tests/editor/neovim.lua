-- What a person does in neovim, done by a script: it opens a probe, types, and writes down what the editor then knows.
-- The server is SERVER, and what is written down goes to ANSWERS, as JSON.
local answers = {}
local version = -1

local show = vim.lsp.handlers['textDocument/publishDiagnostics']
vim.lsp.handlers['textDocument/publishDiagnostics'] = function(trouble, result, ...)
  version = result.version or version
  return show(trouble, result, ...)
end

local function finish(trouble)
  answers.trouble = trouble
  local file = assert(io.open(os.getenv('ANSWERS'), 'w'))
  file:write(vim.json.encode(answers))
  file:close()
  vim.cmd('qall!')
end

-- Waits until the server has told the diagnostics of the text as it is now.
local function told()
  local function has_come() return version == vim.api.nvim_buf_get_changedtick(0) end
  if not vim.wait(20000, has_come, 5) then error('no diagnostics came') end
  local seen = {}
  for _, one in ipairs(vim.diagnostic.get(0)) do
    table.insert(seen, string.format('%d:%d-%d:%d %s[%s] %s', one.lnum, one.col, one.end_lnum, one.end_col,
      one.severity == vim.diagnostic.severity.ERROR and 'error' or 'warning', one.code, one.message))
  end
  return seen
end

-- Types keys as a person does, and gives the diagnostics that come of it.
local function typed(keys)
  vim.api.nvim_feedkeys(vim.api.nvim_replace_termcodes(keys, true, false, true), 'xt', false)
  return told()
end

local function asked(method, more)
  local params = vim.tbl_extend('force', vim.lsp.util.make_position_params(), more or {})
  local all = vim.lsp.buf_request_sync(0, method, params, 20000)
  for _, answer in pairs(all or {}) do
    if answer.error then error(vim.inspect(answer.error)) end
    return answer.result
  end
end

local function run()
  vim.cmd('edit ' .. os.getenv('PROBE'))
  vim.o.autoindent = true
  local client = vim.lsp.start_client({
    name = 'spoonharbor',
    cmd = { os.getenv('SERVER') },
    flags = { allow_incremental_sync = true, debounce_text_changes = 1 },
  })
  vim.lsp.buf_attach_client(0, client)
  if not vim.wait(20000, function() return version >= 0 end, 5) then error('no diagnostics came') end
  answers.opened = vim.diagnostic.get(0)
  answers.encoding = vim.lsp.get_client_by_id(client).offset_encoding

  -- Behind "return 0;", a fault behind a degree sign, and then its mending.
  vim.fn.search('return 0;')
  answers.faulty = typed('ox = 1; /* 0.1° 🔭 */ y = 2 @ 3;<Esc>')
  answers.fault_at = { vim.fn.line('.'), vim.fn.getline('.') }
  answers.degree = typed('0i°<Esc>')
  answers.without = typed('0x')
  answers.mended = typed('f@r+')

  -- The statement is deleted, and a part of a method is typed in its place.
  answers.part = typed('ccy = ctx.load_<Esc>')
  vim.api.nvim_win_set_cursor(0, { vim.fn.line('.'), vim.fn.col('$') - 1 })
  vim.cmd('startinsert!')
  local place = vim.lsp.util.make_position_params()
  place.position.character = #'y = ctx.load_'
  answers.completed = {}
  for _, item in ipairs(asked('textDocument/completion', place)) do table.insert(answers.completed, item.label) end
  vim.cmd('stopinsert')
  answers.whole = typed('ccreg y = ctx.load_u64(0);<Esc>')

  answers.symbols = {}
  for _, one in ipairs(asked('textDocument/documentSymbol')) do
    local inside = vim.tbl_map(function(inner) return inner.name end, one.children)
    table.insert(answers.symbols, string.format('%s (%s): %s', one.name, one.detail, table.concat(inside, ', ')))
  end

  -- A help that is an edit, and another name, made by the editor.
  answers.minus = typed('oy -= 1;<Esc>')
  local line = vim.fn.line('.') - 1
  local all = { start = { line = line, character = 0 }, ['end'] = { line = line + 1, character = 0 } }
  local actions = asked('textDocument/codeAction', { range = all, context = { diagnostics = {} } })
  answers.action = actions[1].title
  vim.lsp.util.apply_workspace_edit(actions[1].edit, answers.encoding)
  answers.acted = told()
  answers.line = vim.fn.getline('.')
  vim.fn.search('map samples')
  vim.cmd('normal! w')
  vim.lsp.util.apply_workspace_edit(asked('textDocument/rename', { newName = 'readings' }), answers.encoding)
  answers.renamed = told()
  answers.hover = asked('textDocument/hover').contents.value

  -- The layout: with a comment the reason is shown, without it the text is laid out.
  vim.lsp.handlers['window/showMessage'] = function(_, result) answers.shown = result.message end
  vim.lsp.buf.formatting_sync(nil, 20000)
  vim.wait(20000, function() return answers.shown ~= nil end, 5)
  answers.unlaid = vim.api.nvim_buf_get_lines(0, 0, 3, false)
  typed('ggdd')
  vim.lsp.buf.formatting_sync(nil, 20000)
  answers.laid = told()

  -- What the server has is what the editor has.
  local text = table.concat(vim.api.nvim_buf_get_lines(0, 0, -1, false), '\n') .. '\n'
  answers.text = text
  answers.is_same = asked('spoonharbor/rows').text == text
  vim.lsp.stop_client(client)
  vim.wait(20000, function() return vim.lsp.client_is_stopped(client) end, 5)
  answers.is_stopped = vim.lsp.client_is_stopped(client)
end

local is_well, trouble = pcall(run)
finish(not is_well and trouble or nil)
