"""Makes C99 of the text of an LLVM module: of what clang leaves of the library for C (../make)."""
