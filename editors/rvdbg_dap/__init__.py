"""The debug adapter: `mi` is the debugger's side, `engine` the editor's, and `session` has both."""
