-- The language server of OMG IDL, as vim.lsp.config has it: a file of a folder lsp/ on the runtime path.
return {
  cmd = { "idltool", "lsp" },
  filetypes = { "idl" },
  root_markers = { ".git", "Makefile" },
}
