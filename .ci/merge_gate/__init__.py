"""What `.ci/run` and `.ci/deep` do, in parts that a test can call. `plan` says what is run, and for how long it may. `landing` is the gate, and
`deep` the run that takes hours. `bodies` tries wrong bodies, and `records` says which promises they were tried against. `run` runs a command, and
`report` adds what commands passed and failed. `toolchain` alone knows the insides of the toolchain."""
