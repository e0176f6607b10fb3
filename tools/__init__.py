"""The tools around the core: reference, cases, solvers, readable text, evidence. `python3 tools --help` lists the subcommands."""
