"""The border of the kit. Data by others enters through `files`, `programs` and a control socket (`serving` is the run's end,
`asking` the client's). Text leaves through `terminal`, and files through `hinge.outputs`."""
