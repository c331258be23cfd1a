"""The parts of tools/port: a kernel as it was written elsewhere becomes one that `wgcc` takes."""
