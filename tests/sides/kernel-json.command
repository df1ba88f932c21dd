kernel --json
