"""Launches of this project, made by other implementations of OpenCL too."""
