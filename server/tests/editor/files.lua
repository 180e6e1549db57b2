-- What neovim makes of a probe by the files in editors/ alone, as JSON in ANSWERS.
local answers = {}

local function syntax(line, text)
  local column = assert(vim.fn.getline(line):find(text, 1, true), text)
  return vim.fn.synIDattr(vim.fn.synID(line, column, 1), 'name')
end

local function run()
  vim.cmd('edit ' .. os.getenv('PROBE'))
  answers.filetype = vim.bo.filetype
  answers.syntax = vim.b.current_syntax
  vim.wait(20000, function() return #vim.diagnostic.get(0) > 0 end, 5)
  answers.clients = vim.tbl_map(function(one) return one.name end, vim.tbl_values(vim.lsp.buf_get_clients(0)))
  answers.told = vim.tbl_map(function(one) return one.message end, vim.diagnostic.get(0))
  answers.colours = {}
  for line, texts in ipairs({ { '//', '0.1' }, { 'map', 'm', 'type', 'hash', 'u32', '-1', '<<' }, { 'unit', '"kprobe', '\\n' },
    { 'reg', 'ctx', 'load_u64', '0x1f', '<', '°', 'guard' }, { 'comment' }, { 'still', 'return' } }) do
    for _, text in ipairs(texts) do table.insert(answers.colours, text .. ' ' .. syntax(line, text)) end
  end
  -- What the command prints, as :make reads it.
  vim.fn.setqflist({}, ' ', { lines = vim.fn.readfile(os.getenv('CHECKED')), efm = vim.bo.errorformat })
  answers.list = vim.tbl_map(function(one)
    return string.format('%s:%d:%d %s%d %s', vim.fn.fnamemodify(vim.fn.bufname(one.bufnr), ':t'), one.lnum, one.col, one.type, one.nr, one.text)
  end, vim.tbl_filter(function(one) return one.valid == 1 end, vim.fn.getqflist()))
end

local is_well, trouble = pcall(run)
answers.trouble = not is_well and trouble or nil
local file = assert(io.open(os.getenv('ANSWERS'), 'w'))
file:write(vim.json.encode(answers))
file:close()
vim.cmd('qall!')
