server --json
