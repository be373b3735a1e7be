-- MIX programs under nvim-dap, both ways. A configuration may have `devices` and `cards` too, as
-- ../README.md says. `mix` is the type that Neovim itself gives to sources, `mixal` that of ../vim.
local dap = require("dap")

dap.adapters.mixrev = {
  type = "executable",
  command = "mixrev",
  args = { "dap" },
}

dap.configurations.mixal = {
  {
    type = "mixrev",
    request = "launch",
    name = "MIX: this file",
    program = "${file}",
    stopOnEntry = true,
  },
}
dap.configurations.mix = dap.configurations.mixal
