"""Random kernels and random damage, by which the program is compared with the reference."""
