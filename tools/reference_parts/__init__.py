"""An interpreter of kernels and launch files, which shares nothing with the compiler.

It walks the tree of a source as it stands: it knows no lanes, no regions and no machine code.
docs/LANGUAGE.md and docs/LAUNCH_FILES.md say what it does; docs/EVIDENCE.md says what it is compared with."""
