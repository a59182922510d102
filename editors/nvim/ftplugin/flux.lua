-- Starts the language server for programs of Flux. Made by editors/make.
-- With vim.g.flux_command = { "/PATH/flux", "--nodes", "/PATH/nodes" } by these words in place of flux.
local flux = { name = "flux", cmd = vim.list_extend(vim.g.flux_command or { "flux" }, { "lsp" }) }
if vim.lsp.start then
  vim.lsp.start(flux)
else
  vim.g.flux_client = vim.g.flux_client or vim.lsp.start_client(flux)
  vim.lsp.buf_attach_client(0, vim.g.flux_client)
end
vim.bo.omnifunc = "v:lua.vim.lsp.omnifunc"
