"""Images from programs in C, C++, Rust and assembly of RISC-V: what `tools/compile` and `tools/translate` share."""
