"""The parts of tools/test_kernels: folders with a kernel, its launches and the buffers that these leave."""
