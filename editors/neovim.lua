-- actrun for nvim-dap: put this into ~/.config/nvim/after/plugin/actrun.lua. Untried: Debian has no package of nvim-dap.
local dap = require('dap')

dap.adapters.actrun = { type = 'executable', command = 'actrun', args = { 'dap' } }
dap.configurations.yaml = {
  {
    type = 'actrun',
    request = 'launch',
    name = 'Debug the workflows',
    live = true,
    program = '${workspaceFolder}',
  },
  {
    type = 'actrun',
    request = 'launch',
    name = 'Walk the last execution',
    record = '--last',
    cwd = '${workspaceFolder}',
    workflows = { '${workspaceFolder}/.github/workflows' },
  },
}
vim.keymap.set('n', '<F9>', dap.step_back)
vim.keymap.set('n', '<S-F9>', dap.reverse_continue)
