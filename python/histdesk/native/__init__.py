"""The shared library `libhistdesk.so.0`: where it is, its calls, its structs, and the values that it takes."""
