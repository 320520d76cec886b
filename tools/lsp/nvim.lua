-- Drives Neovim: opens, changes, and asks; writes what it saw, a line for each, into the file of SAW.
-- FILE is the Java file. The settings are on the runtime path, and name the server.
local seen = {}
local function saw(name, value) table.insert(seen, name .. ": " .. value) end

-- The line and the first word of each fault that is shown.
local function faults()
  local found = {}
  for _, it in ipairs(vim.diagnostic.get(0)) do
    table.insert(found, (it.lnum + 1) .. " " .. it.message:match("^%S+"))
  end
  return table.concat(found, ", ")
end

local function wait(holds) return vim.wait(120000, holds, 20) end

local function drive()
  vim.cmd("edit " .. vim.fn.fnameescape(vim.env.FILE))
  local function is_ready()
    local clients = vim.lsp.get_clients and vim.lsp.get_clients({ bufnr = 0 }) or vim.lsp.buf_get_clients(0)
    for _, client in pairs(clients) do
      return client.initialized == true
    end
  end
  saw("managed", wait(is_ready) and "yes" or "no")
  saw("at first", faults())
  local row = vim.fn.search("receive_")
  local line = vim.fn.getline(row)
  vim.fn.deletebufline("%", row)
  saw("without it", wait(function() return faults() ~= "" end) and faults() or "nothing")
  vim.fn.append(row - 1, line)
  saw("with it again", wait(function() return faults() == "" end) and "nothing" or faults())
  local function at_call()
    vim.fn.cursor(1, 1)
    local at = vim.fn.searchpos("c.send_byeToS", "e")
    vim.fn.cursor(at[1], at[2])
  end
  -- The answer to a question about the cursor, or about the document.
  local function ask(method)
    local params = vim.lsp.util.make_position_params(0, "utf-16")
    local _, answer = next(vim.lsp.buf_request_sync(0, method, params, 120000) or {})
    return answer and answer.result
  end
  local function hover()
    local said = ask("textDocument/hover")
    return (said and said.contents.value or "none"):match("^[^\n]*")
  end
  local function offers(name)
    for _, client in pairs(vim.lsp.get_clients and vim.lsp.get_clients() or vim.lsp.get_active_clients()) do
      return (client.server_capabilities or client.resolved_capabilities)[name]
    end
  end
  at_call()
  saw("hover", hover())
  if offers("documentSymbolProvider") then
    local items = vim.lsp.util.symbols_to_items(ask("textDocument/documentSymbol"), 0)
    saw("outline", table.concat(vim.tbl_map(function(it) return it.text end, items), ", "))
  end
  if offers("completionProvider") then
    local call = vim.fn.line(".")
    local whole = vim.fn.getline(call)
    vim.fn.setline(call, "        c.se")
    vim.fn.cursor(call, 12)
    vim.cmd("startinsert!")
    -- What omnifunc shows, which is what CTRL-X CTRL-O calls.
    local items = ask("textDocument/completion") or {}
    table.sort(items, function(a, b) return a.sortText < b.sortText end)
    saw("complete", table.concat(vim.tbl_map(function(it) return it.label end, items), ", "))
    saw("omnifunc", vim.bo.omnifunc)
    vim.cmd("stopinsert")
    vim.fn.setline(call, whole)
  end
  if offers("definitionProvider") then
    -- Neovim gives the server a second for this, which may be too short beside other work.
    local from = vim.fn.bufnr("%")
    for _ = 1, 60 do
      at_call()
      pcall(vim.cmd, [[execute "normal! \<C-]>"]])
      if vim.fn.bufnr("%") ~= from then break end
    end
    saw("define", vim.fn.expand("%:t") .. " " .. vim.fn.line(".") .. " " .. vim.fn.expand("<cword>"))
    saw("hover in a protocol", hover())
    vim.cmd("buffer #")
  end
  vim.cmd("edit! C.scr")
  wait(is_ready)
  pcall(vim.cmd, "MungoDiagram")
  vim.wait(vim.env.DRAWS and 120000 or 300, function() return vim.fn.getline(1) == "stateDiagram-v2" end, 20)
  saw("diagram", vim.fn.getline(1) == "stateDiagram-v2" and "yes" or "none")
  vim.lsp.stop_client(vim.lsp.get_active_clients())
end

local held, fault = pcall(drive)
if not held then
  saw("fault", tostring(fault):gsub("\n", " "))
end
vim.fn.writefile(seen, vim.env.SAW)
vim.cmd("qall!")
