-- Neovim's own client drives the server: nvim --headless -u NONE -i NONE -l is not in 0.7, so it is run by `-S`. SERVER has the program and its words. The
-- last line counts.
local passed, failed = 0, 0
local function row(name, found, wanted)
  if vim.deep_equal(found, wanted) then
    passed = passed + 1
  else
    failed = failed + 1
    io.stdout:write(("FAILED Neovim: %s: %s, and %s was wanted\n"):format(name, vim.inspect(found), vim.inspect(wanted)))
  end
end

local here = vim.fn.fnamemodify(vim.fn.resolve(vim.fn.expand("<sfile>:p")), ":h")
package.path = here .. "/../../editors/nvim/?.lua;" .. package.path
local mixrev = require("mixrev_lsp")
mixrev.cmd = vim.split(vim.env.SERVER, " ")

local function await(test)
  return vim.wait(20000, test, 10)
end

local function diagnostics()
  local found = {}
  for _, one in ipairs(vim.diagnostic.get(0)) do
    table.insert(found, { one.lnum, one.col, one.end_col, one.code, one.severity })
  end
  table.sort(found, function(a, b)
    return a[1] < b[1] or (a[1] == b[1] and a[2] < b[2])
  end)
  return found
end

local function ask(method, more)
  local params = vim.tbl_extend("force", vim.lsp.util.make_position_params(), more or {})
  local answers = vim.lsp.buf_request_sync(0, method, params, 20000)
  for _, answer in pairs(answers or {}) do
    return answer.result or answer.error
  end
end

local function lines_of(list)
  local found = {}
  for _, one in ipairs(list) do
    table.insert(found, { one.range.start.line, one.range.start.character })
  end
  return found
end

vim.cmd("edit " .. vim.fn.tempname() .. ".mixal")
vim.api.nvim_buf_set_lines(0, 0, -1, false, { "START LDA  X", "2H   ADDD Y       é", "     JMP  2B", "X    CON  5", "     END  START" })
vim.bo.filetype = "mixal"
row("a fault at its columns", await(function()
  return #vim.diagnostic.get(0) > 0
end) and diagnostics(), { { 1, 5, 9, "A2", vim.diagnostic.severity.ERROR } })
local function range(first, last)
  return { range = { start = { line = first, character = 0 }, ["end"] = { line = last, character = 0 } } }
end

local function action(line)
  local params = { textDocument = vim.lsp.util.make_text_document_params(), context = { diagnostics = {} } }
  for _, answer in pairs(vim.lsp.buf_request_sync(0, "textDocument/codeAction", vim.tbl_extend("force", params, range(line, line)), 20000)) do
    vim.lsp.util.apply_workspace_edit(answer.result[1].edit, "utf-16")
    return answer.result[1].title
  end
end
row("the operation that is meant", action(1), "Write ADD")
row("the line with it", vim.api.nvim_buf_get_lines(0, 1, 2, false), { "2H   ADD Y       é" })
row("a warning after it is mended", await(function()
  local found = vim.diagnostic.get(0)
  return #found == 1 and found[1].severity == vim.diagnostic.severity.WARN
end) and diagnostics(), { { 1, 9, 10, "undefined-symbol", vim.diagnostic.severity.WARN } })

vim.api.nvim_win_set_cursor(0, { 1, 11 })
row("the definition of X", lines_of(ask("textDocument/definition")), { { 3, 0 } })
row("all that mentions X", lines_of(ask("textDocument/references", { context = { includeDeclaration = true } })), { { 0, 11 }, { 3, 0 } })
vim.api.nvim_win_set_cursor(0, { 3, 10 })
row("the definition of 2B", lines_of(ask("textDocument/definition")), { { 1, 0 } })
vim.api.nvim_win_set_cursor(0, { 1, 11 })
row("what lines make", vim.tbl_map(function(one)
  return { one.position.line, one.position.character, one.label }
end, ask("textDocument/inlayHint", range(0, 1))), { { 0, 12, "0000  + 00 03 00 05 08" }, { 1, 18, "0001  + 00 04 00 05 01" } })
row("tokens", vim.list_slice(ask("textDocument/semanticTokens/full").data, 1, 35), {
  0, 0, 5, 0, 0, 0, 6, 3, 1, 0, 0, 5, 1, 2, 0, 1, 0, 2, 0, 0, 0, 5, 3, 1, 0, 0, 4, 1, 2, 0, 0, 8, 1, 6, 0,
})
vim.lsp.buf.rename("TOTAL")
row("a new name", await(function()
  return vim.api.nvim_buf_get_lines(0, 3, 4, false)[1] == "TOTAL    CON  5"
end) and vim.api.nvim_buf_get_lines(0, 0, 1, false), { "START LDA  TOTAL" })

vim.api.nvim_win_set_cursor(0, { 1, 6 })
row("a hover", ask("textDocument/hover").contents.value, "LDA: rA becomes V (C = 8, F = 5, 2u)")
vim.api.nvim_win_set_cursor(0, { 1, 11 })
row("what completes ADDRESS", vim.tbl_map(function(one)
  return one.label
end, ask("textDocument/completion")), { "START", "TOTAL" })
vim.api.nvim_buf_set_lines(0, 2, 3, false, { "JMP  2B" })
row("a warning that can be mended", await(function()
  for _, one in ipairs(diagnostics()) do
    if one[4] == "operation-as-label" then
      return true
    end
  end
end), true)
vim.api.nvim_win_set_cursor(0, { 3, 0 })
local actions = ask("textDocument/codeAction", vim.tbl_extend("force", vim.lsp.util.make_range_params(), { context = { diagnostics = {} } }))
vim.lsp.util.apply_workspace_edit(actions[1].edit, "utf-16")
row("a line that is mended", vim.api.nvim_buf_get_lines(0, 2, 3, false), { " JMP  2B" })
-- LOC at column 1, OP at 9, ADDRESS at 14, a remark at 27; what reads as characters of ALF, comments and what follows END stay
vim.api.nvim_buf_set_lines(0, 0, -1, false, {
  "  * no comment", "* LDA X", "2H LDA  X\t é  ", "VERYLONG ADD X(0:5),2 it is long", " ALF  AB", '\tALF "AB CD" x', "X CON 5", " HLT and stop", " END X", " LDA X",
})
local server = vim.lsp.get_active_clients({ bufnr = 0 })[1]
local edits = ask("textDocument/formatting", { options = { tabSize = 8, insertSpaces = true } })
vim.lsp.util.apply_text_edits(edits, vim.api.nvim_get_current_buf(), server.offset_encoding)
row("in columns", vim.api.nvim_buf_get_lines(0, 0, -1, false), {
  "  * no comment", "* LDA X", "2H      LDA  X            é", "VERYLONG ADD  X(0:5),2    it is long", "        ALF  AB", '        ALF  "AB CD"      x', "X       CON  5", "        HLT               and stop", "        END  X", " LDA X",
})

io.stdout:write(("%d passed, %d failed\n"):format(passed, failed))
vim.cmd(failed == 0 and "qall!" or "cquit!")
