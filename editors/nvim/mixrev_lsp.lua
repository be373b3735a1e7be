-- MIXAL as it is written, in Neovim's own client of language servers: faults and warnings, definitions, uses, new
-- names. `require("mixrev_lsp")` starts one server for all sources; a table may give another `cmd`.
local M = { cmd = { "mixrev", "lsp" } }

local client

function M.attach(buffer)
  if not client then
    client = vim.lsp.start_client({
      name = "mixrev",
      cmd = M.cmd,
      root_dir = vim.fn.getcwd(),
      on_exit = function()
        client = nil
      end,
    })
  end
  vim.lsp.buf_attach_client(buffer, client)
end

vim.api.nvim_create_autocmd("FileType", {
  pattern = { "mixal", "mix" },
  callback = function(event)
    M.attach(event.buf)
  end,
})

return M
