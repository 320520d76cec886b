-- Starts mungo-lsp for protocols and typestates, and for Java files in whose folder one of them stands.
-- From Neovim 0.7 on; inlay hints from 0.10 on. `vim.g.mungo_lsp` names the program, where it isn't on the PATH.

-- Whether a protocol or a typestate stands in a folder: then its Java files are a program of mungo.
local function is_program(folder)
  return #vim.fn.globpath(folder, "*.scr", true, true) + #vim.fn.globpath(folder, "*.protocol", true, true) > 0
end

-- Hints show, CTRL-X CTRL-O completes, and CTRL-] goes to a definition; newer versions set the last two themselves.
local function attached(_, buffer)
  if vim.lsp.inlay_hint then
    vim.lsp.inlay_hint.enable(true, { bufnr = buffer })
  end
  for option, value in pairs({ omnifunc = "v:lua.vim.lsp.omnifunc", tagfunc = "v:lua.vim.lsp.tagfunc" }) do
    if vim.bo[buffer][option] == "" then
      vim.bo[buffer][option] = value
    end
  end
end

local function settings(folder)
  return { name = "mungo", cmd = { vim.g.mungo_lsp or "mungo-lsp" }, root_dir = folder, on_attach = attached }
end

-- One server serves all folders. Neovim 0.7 has no vim.lsp.start: there the client is kept here.
local kept

local function attach(buffer, folder)
  if vim.lsp.start then
    local function is_mungo(client) return client.name == "mungo" end
    vim.lsp.start(settings(folder), { bufnr = buffer, reuse_client = is_mungo })
    return
  end
  if not kept or vim.lsp.client_is_stopped(kept) then
    kept = vim.lsp.start_client(settings(folder))
  end
  if kept then
    vim.lsp.buf_attach_client(buffer, kept)
  end
end

vim.api.nvim_create_autocmd("FileType", {
  group = vim.api.nvim_create_augroup("mungo", {}),
  pattern = { "scribble", "typestate", "java" },
  callback = function(event)
    local folder = vim.fn.fnamemodify(vim.api.nvim_buf_get_name(event.buf), ":p:h")
    if event.match ~= "java" or is_program(folder) then
      attach(event.buf, folder)
    end
  end,
})

-- :MungoDiagram shows the typestate of a protocol or typestate as a diagram of Mermaid, in a buffer of its own.
vim.api.nvim_create_user_command("MungoDiagram", function()
  local asked = { command = "mungo.diagram", arguments = { vim.uri_from_bufnr(0) } }
  vim.lsp.buf_request(0, "workspace/executeCommand", asked, function(fault, drawn)
    if fault or type(drawn) ~= "string" then
      vim.notify("mungo: there is no diagram of this", vim.log.levels.WARN)
      return
    end
    vim.cmd("new")
    vim.bo.buftype = "nofile"
    vim.api.nvim_buf_set_lines(0, 0, -1, false, vim.split(drawn, "\n", { trimempty = true }))
  end)
end, {})
