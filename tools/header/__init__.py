"""What td-header writes of an image: names for C and for Rust that call the library."""
